"""Trees of several levels: they grow by keys in their order, and shrink by removals that are given up, or crash."""
from oracle import TREE
from script import case, crowd_case, expect, pair, word

KEYS = 4096


def numbered(number):
    """The word for the key of two bytes of this number, the greater byte first."""
    return word(bytes([number // 256, number % 256]))


def short(number):
    """A key of two plain bytes, which stands where the number stands; the second is no digit. It is shorter in a file than the two
    bytes of the number."""
    return chr(48 + number // 64) + chr(58 + number % 64)


def dumps(s, keys, end):
    s.holds(*(keys(number) for number in range(end)))


@case
def keys_in_their_order_make_four_levels(s):
    """The keys 0 to 4095 as two bytes, in their order, make four levels, and a get of each of them takes three turns."""
    for number in range(KEYS):
        s.insert(numbered(number))
    for number in range(KEYS):
        if number % 64 == 0:
            s.line('reopen', 'opened')
        slot = number % 64 + 1
        s.begin(slot, f'get {numbered(number)}')
        s.moves(slot, 3)
        s.line(f'step {slot}', f'value {numbered(number)}')
    s.begin(65, 'get %00%00')
    s.moves(65, 3)
    s.line('turns 65', 'number 3')
    levels = s.ask('pages')
    expect([line.split()[1] for line in levels] == ['1', '7', '63', '511', '4'], levels)
    expect(max(int(line.split()[2]) for line in levels[:-1]) <= 16, levels)
    s.note('A dump of five thousand pairs.')
    for number in range(KEYS, 5000):
        s.insert(numbered(number))
    dumps(s, numbered, 5000)


@case
def a_batch_of_two_thousand_pairs_makes_four_levels(s):
    """A batch of 2,100 pairs makes a tree of four levels. A get takes three turns in it, and all its pairs are dumped beside those of two small
    trees and an empty one, also after a crash."""
    words = [short(number) for number in range(2100)]
    for tree in 'a', 'b', 'z':
        s.line(f'tree {tree}', f'tree {tree}')
        s.line(f'batch x {tree}' if tree != 'b' else 'batch', 'done')
    s.line(f'tree {TREE.decode()}', f'tree {TREE.decode()}')
    line = 'batch' + ''.join(f' {k} {k}' for k in words)
    s.line(line, 'done')
    s.note('A crash that keeps all but its last action leaves none of it.')
    s.line(f'crash {len(s.store.recent) - 1}', 'recovered')
    s.line('dump', pair('x', 'a', 'a'), pair('x', 'z', 'z'), 'end 2')
    s.line(line, 'done')
    levels = s.ask('pages')
    expect(levels[-1] == 'end 4', levels)
    all = [*(pair(k) for k in words), pair('x', 'a', 'a'), pair('x', 'z', 'z'), 'end 2102']
    s.line('dump', *all)
    for slot, k in enumerate([words[0], words[1049], words[2099]], 1):
        s.begin(slot, f'get {k}')
        s.moves(slot, 3)
        s.line(f'step {slot}', f'value {k}')
    s.line('len', 'number 2100')
    s.line('crash 99999', 'recovered')
    s.line('verify', 'sound')
    s.line('dump', *all)
    s.line('names', f'name {TREE.decode()}', 'name a', 'name b', 'name z', 'end 4')


@crowd_case
def a_call_reads_few_more_pages_than_there_are_levels(s):
    """A tree of 100,000 random keys has five levels, of which a get reads a page each, and to open reads none. An insert splits
    each level once at most, and after each split it reads its way from the root anew: 5 + 5 + 4 + 3 + 2 + 1; before that it was
    tried at once, up to a page that is too long, the fourth at most in such a call. All inserts together read less than 0.6
    pages more each than there are levels."""
    s.line('reads', 'reads 0')
    s.line('load 100000 24 559999', 'yes')
    s.line('find 2000 5', 'yes')
    levels = s.ask('pages')
    expect(levels[-1] == 'end 5', levels)


def given_up(s, k, steps):
    """Begins the removal of a key and does so many steps of it, and gives it up where it goes on: whether it was decided, and
    how many actions it did."""
    slot = s.shell.begun + 1
    s.begin(slot, f'remove {k}')
    for _ in range(steps):
        if s.ask(f'step {slot}') != ['moved']:
            return True, 0
    s.line(f'abandon {slot}', 'abandoned')
    actions = len(s.store.recent)
    s.did(actions)
    return False, actions


def removed_at_last(s, k):
    """Removes a key. Its removal is given up after its first step and made again, given up after the second, and so on; once
    a step changed a page it is given up after the first step anew. How often it had changed a page when it was given up."""
    changes, steps = 0, 1
    while True:
        decided, actions = given_up(s, k, steps)
        if decided:
            return changes
        expect(actions <= 1, k, actions)
        changes += actions
        steps = 1 if actions else steps + 1


def removed_in_strides(s, k):
    """The same without the attempts whose last step changes nothing: each is given up as it has changed a page."""
    changes = 0
    while True:
        slot = s.shell.begun + 1
        s.begin(slot, f'remove {k}')
        while not s.store.recent:
            if s.ask(f'step {slot}') != ['moved']:
                return changes
        s.line(f'abandon {slot}', 'abandoned')
        s.did(1)
        changes += 1


def meets_merge(s, k):
    """Whether the way to a key ends at a page that merges, or leads by one that does."""
    store, key = s.store, k.encode()
    parent, view, first = None, store.read(store.roots[b'__sled__default']), True
    while True:
        if view.node.child is not None or parent and not first and view.node.should_merge():
            return True
        if view.node.leaf:
            return False
        pid, first = view.node.pointer((True, key))
        parent, view = view, store.read(pid)


@case
def removals_that_are_given_up_after_each_stage_of_a_merge_keep_the_map(s):
    """All pages of a tree of four levels but four merge, each in four changes: each removal that meets a merge is given up
    after each change, and then the call that would free the page is given up before it does."""
    for number in range(KEYS):
        s.insert(short(number))
    levels = s.ask('pages')
    expect([line.split()[1] for line in levels] == ['1', '7', '63', '511', '4'], levels)
    changes = 0
    for left in range(KEYS - 1, 0, -1):
        k = short(left)
        if meets_merge(s, k):
            s.line('reopen', 'opened')
            if left < 64 or left % 1024 < 8:
                changes += removed_at_last(s, k)
            else:
                changes += removed_in_strides(s, k)
        else:
            s.remove(k)
        if left in (1024, 512, 256, 128) or left < 40:
            dumps(s, short, left)
    expect(changes == 4 * 578, changes, 'changes')
    s.pages((1, 1), (1, 1), (1, 1), (1, 1))


@case
def crashes_amid_merges_keep_the_map(s):
    """A crash ends each life of a tree that had four levels, and keeps none to six of its actions. Each life removes the
    greatest key that is left, which may merge pages; then it is asked for."""
    for number in range(KEYS):
        s.insert(short(number))
    s.line('crash 18446744073709551615', 'recovered')
    left, life, merged = KEYS, 0, True
    while left > 1:
        life += 1
        k = short(left - 1)
        there = k.encode() in s.plain.pairs
        if merged:
            s.line(f'get {k}', f'value {k if there else "-"}')
        left -= not there
        if not there and (left in (1024, 512, 256, 128) or left < 40):
            dumps(s, short, left)
        if left > 1:
            s.remove(short(left - 1))
            merged = len(s.store.recent) > 1
        s.line(f'crash {life % 7}', 'recovered')
    s.pages((1, 1), (1, 1), (1, 1), (1, 1))
    expect(life < 10000, life)


@case
def many_actions_wait_for_a_flush(s):
    """More than a thousand and more than ten thousand actions wait, and then a crash keeps some of them, all, or none."""
    for count, keep in [(1100, 1050), (1100, 0), (10100, 10001)]:
        s.new()
        s.line('insert a 0', 'old -')
        s.did(1)
        s.line('cas a 0 1', 'swapped')
        for i in range(2, count):
            s.line('cas a 1 1', 'swapped')
        s.line('cas a 1 2', 'swapped')
        s.line(f'crash {keep}', 'recovered')
        s.line('get a', f'value {0 if keep == 0 else 2 if keep == count else 1}')
        s.did(0)
    s.note('Splits and merges among them: forty keys come and go nine times.')
    s.new()
    for i in range(9):
        for k in range(40):
            s.line(f'insert {k:02} {i}', 'old -')
        for k in range(40):
            s.line(f'remove {39 - k:02}', f'old {i}')
    s.insert('end')
    actions = s.ask('flush')
    expect(int(actions[0].split()[1]) > 720, actions)
    s.line('crash 0', 'recovered')
    s.line('dump', pair('end'), 'end 1')
