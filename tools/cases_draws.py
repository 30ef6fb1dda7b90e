"""Drawings of trees, and counts of pages: whole, half done, and while calls are in flight."""
from script import case, expect, pair

LETTERS = 'bcdefghijklmnopqrs'


def pairs(letters, first=1):
    """What a drawing has of these keys, whose values are their places."""
    return ''.join(f' {k}={n}' for n, k in enumerate(letters, first))


def fill(s, letters):
    for n, k in enumerate(letters, 1):
        s.line(f'insert {k} {n}', 'old -')


LEFT = 'leaf 1 under {} from % to j next {}:' + pairs(LETTERS[:8])
GRAPH = ('digraph tree {', '  node [shape=box]')


@case
def a_small_tree_is_drawn(s):
    """A tree of one page, as text and as DOT; then one of two levels. The call in flight goes on after a drawing."""
    s.rows('''
        insert a 1          old -
        insert c 2          old -
        begin insert e 3    slot 1
        draw                level 0
                            leaf 1 from % to ..: a=1 c=2
    ''')
    s.line('draw dot', *GRAPH, '  1 [label="leaf 1 from % to ..: a=1 c=2"]', '}')
    s.rows('''
        step 1              moved
        begin get c         slot 2
        finish 2            value 2
        finish 1            old -
        insert " \\          old -
    ''')
    s.line('draw dot', *GRAPH, '  1 [label="leaf 1 from % to ..: \\"=\\\\ a=1 c=2 e=3"]', '}')
    s.new()
    fill(s, LETTERS)
    right = pairs(LETTERS[8:], 9)
    s.line('draw', 'level 0', 'index 3 from % to ..: %->1 j->2', 'level 1', LEFT.format(3, 2), f'leaf 2 under 3 from j to ..:{right}')
    s.line('draw dot', *GRAPH, '  3 [label="index 3 from % to ..:"]', '  3 -> 1 [label="%"]', '  3 -> 2 [label="j"]',
           f'  1 [label="leaf 1 from % to j next 2:{pairs(LETTERS[:8])}"]', '  1 -> 2 [style=dashed]', f'  2 [label="leaf 2 from j to ..:{right}"]', '}')


@case
def a_half_done_split_is_drawn(s):
    """An insert splits a leaf and is given up once the left half stands: the right half is reached by `next` alone. Then a root is
    set over the two."""
    fill(s, LETTERS[:17])
    s.begin(1, 'insert s 18')
    s.moves(1, 2)
    s.line('draw', 'level 0', f'leaf 1 from % to ..:{pairs(LETTERS[:17])}')
    s.line('abandon 1', 'abandoned')
    s.begin(2, 'insert s 18')
    s.moves(2, 3)
    s.line('draw', 'level 0', f'leaf 1 from % to j next 3:{pairs(LETTERS[:8])}', f'leaf 3 from j to .. no-pointer:{pairs(LETTERS[8:17], 9)}')
    s.line('draw dot', *GRAPH, f'  1 [label="leaf 1 from % to j next 3:{pairs(LETTERS[:8])}"]', '  1 -> 3 [style=dashed]',
           f'  3 [label="leaf 3 from j to .. no-pointer:{pairs(LETTERS[8:17], 9)}"]', '}')
    s.line('abandon 2', 'abandoned')
    s.line('insert s 18', 'old -')
    s.line('draw', 'level 0', 'index 4 from % to ..: %->1 j->3', 'level 1', LEFT.format(4, 3), f'leaf 3 under 4 from j to ..:{pairs(LETTERS[8:], 9)}')


@case
def a_split_is_drawn_while_its_call_is_in_flight(s):
    """An insert splits the only leaf step by step, and the tree is drawn after each step of it. No drawing changes anything: the call
    goes on to its end, the subscriber is told its event, and a crash takes back what was never flushed."""
    fill(s, LETTERS[:17])
    s.did(17)
    s.line('watch s', 'subscriber 1')
    s.begin(1, 'insert s 18')
    left, right = pairs(LETTERS[:8]), pairs(LETTERS[8:17], 9)
    whole = ['level 0', f'leaf 1 from % to ..:{left}{right}']
    halves = ['level 0', f'leaf 1 from % to j next 2:{left}', f'leaf 2 from j to .. no-pointer:{right}']
    under = ['level 0', 'index 3 from % to ..: %->1 j->2', 'level 1', LEFT.format(3, 2), f'leaf 2 under 3 from j to ..:{right}']
    for drawn in whole, whole, halves, halves, under, under, under:
        s.moves(1)
        s.line('draw', *drawn)
    s.line('turns 1', 'number 7')
    s.line('step 1', 'old -')
    s.line('draw', *under[:-1], under[-1] + ' s=18')
    s.line('next 1', 'event insert s 18')
    s.line('crash 0', 'recovered')
    s.line('draw', *whole)
    s.line('dump', *(pair(k, n) for n, k in enumerate(LETTERS[:17], 1)), 'end 17')


@case
def a_half_done_merge_is_drawn(s):
    """A removal merges two leaves and is given up: when the index above means to, when the right leaf is marked, and when the left
    leaf has received its pairs; then it is done."""
    fill(s, LETTERS)
    for n, k in enumerate(LETTERS[8:15], 9):
        s.line(f'remove {k}', f'old {n}')
    means = ['level 0', 'index 3 from % to .. merging-child 2: %->1 j->2', 'level 1']
    left, right = pairs(LETTERS[:8]), pairs(LETTERS[15:], 16)
    s.begin(1, 'remove q')
    s.moves(1, 3)
    s.line('draw', *means, LEFT.format(3, 2), f'leaf 2 under 3 from j to ..:{right}')
    s.line('draw dot', *GRAPH, '  3 [label="index 3 from % to .. merging-child 2:"]', '  3 -> 1 [label="%"]', '  3 -> 2 [label="j"]',
           f'  1 [label="leaf 1 from % to j next 2:{left}"]', '  1 -> 2 [style=dashed]', f'  2 [label="leaf 2 from j to ..:{right}"]', '}')
    s.line('abandon 1', 'abandoned')
    s.begin(2, 'remove q')
    s.moves(2, 4)
    s.line('draw', *means, LEFT.format(3, 2), f'leaf 2 under 3 from j to .. merging:{right}')
    s.line('abandon 2', 'abandoned')
    s.begin(3, 'remove q')
    s.moves(3, 4)
    s.line('draw', *means, f'leaf 1 under 3 from % to ..:{left}{right}')
    s.line('draw dot', *GRAPH, '  3 [label="index 3 from % to .. merging-child 2:"]', '  3 -> 1 [label="%"]', '  3 -> 2 [label="j"]',
           f'  1 [label="leaf 1 from % to ..:{left}{right}"]', '}')
    s.line('abandon 3', 'abandoned')
    s.line('remove q', 'old 16')
    s.line('draw', 'level 0', 'index 3 from % to ..: %->1', 'level 1', f'leaf 1 under 3 from % to ..:{left} r=17 s=18')


@case
def the_current_tree_is_drawn(s):
    """A drawing and a count of pages are of the current tree, which stays current. A tree that was dropped has none."""
    s.rows('''
        insert a 1              old -
        tree t                  tree t
        insert b 2              old -
        insert c 3              old -
        draw                    level 0
                                leaf 2 from % to ..: b=2 c=3
        tree __sled__default    tree __sled__default
        draw                    level 0
                                leaf 1 from % to ..: a=1
        tree t                  tree t
        begin get b             slot 1
        pages                   level 1 2
                                end 1
        step 1                  value 2
        owned drop t            yes
        draw                    refused E1
        draw dot                refused E1
        pages                   refused E1
        tree t                  tree t
        pages                   level 1 0
                                end 1
        old-tree t              tree t
        pages                   refused E1
        tree t                  tree t
        insert d 4              old -
        draw                    level 0
                                leaf 3 from % to ..: d=4
        handle other t 2        done
        draw                    refused E2
        pages                   refused E2
        reopen unreadable 1     opened
        draw                    level 0
                                refused E4
        pages                   refused E4
        get a                   refused E4
        new refuse 1            refused E4
        draw                    refused E8
        pages                   refused E8
    ''')


@case
def each_page_is_drawn_under_its_index(s):
    """A hundred and fifty keys in their order make two indexes below the root. Each page says which index it is under."""
    for n in range(150):
        s.line(f'insert {n:03} {n % 10}', 'old -')
    drawn = s.ask('draw')
    expect([line for line in drawn if line.startswith('level')] == ['level 0', 'level 1', 'level 2'], 'there are three levels')
    for line in drawn:
        if line.startswith('index'):
            below = [p.split('->')[1] for p in line.split(': ')[1].split(' ')]
            under = [other.split(' ')[1] for other in drawn if f' under {line.split(" ")[1]} ' in other]
            expect(below == under, line, under)
    expect(s.wanted.count('level 2') == 1 and sum(line.startswith('index') for line in drawn) == 3, 'there are two indexes')
