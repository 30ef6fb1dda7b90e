"""Images of pages that somebody else made: which of them are opened, what becomes of them then, and what is told of the others."""
from oracle import TREE, word
from script import case, expect, key, pair


def keys(first, end):
    return [key(number) for number in range(first, end)]


def entries(words):
    return ''.join(f' {k} {k}' for k in words)


def leaf(pid, lo, hi, next, words, state='open'):
    """The line that notes a leaf, whose keys have themselves as their values."""
    return f'page {pid} leaf {lo} {hi} {next} {state}{entries(words)}'


def index(pid, *pointers, child='-', state='open'):
    return f'page {pid} index % % - {state} {child}' + ''.join(f' {k} {p}' for k, p in pointers)


# Two leaves that are chained, and an index over them.
FIRST, SECOND = leaf(1, '%', '%08', 2, keys(0, 8)), leaf(2, '%08', '%', '-', keys(8, 11))
BOTH = index(3, ('%', 1), ('%08', 2))
MERGING = index(3, ('%', 1), ('%08', 2), child=2)
CAPPED = leaf(2, '%08', '%', '-', keys(8, 11), 'merging')
WHOLE = leaf(1, '%', '%', '-', keys(0, 11))
EMPTY = leaf(1, '%', '%', '-', [])

ELEVEN = keys(0, 11)

# What is well formed: its root, its pages, its keys, and what is said of it.
ACCEPTED = [
    (1, [EMPTY], [], 'One empty leaf is the root.'),
    (1, [FIRST, SECOND], ELEVEN, 'The first of two chained leaves is the root: no index leads to them yet.'),
    (3, [FIRST, SECOND, index(3, ('%', 1))], ELEVEN, 'An index has a pointer to the first leaf alone.'),
    (3, [FIRST, SECOND, MERGING], ELEVEN, 'The second leaf is the merging child of its index.'),
    (3, [FIRST, CAPPED, MERGING], ELEVEN, 'The same, and it is merging.'),
    (3, [WHOLE, CAPPED, MERGING], ELEVEN, 'The same, and the first leaf has received it.'),
    (3, [WHOLE, CAPPED, index(3, ('%', 1))], ELEVEN, 'The same, and the index is confirmed.'),
    (3, [FIRST, SECOND, BOTH, leaf(9, '%', '%', '-', keys(0, 40))], ELEVEN, 'A page of 40 entries stands beside the others, and nobody names it.'),
]

# Lines that write to an opened image: they bring what is half done to its end, split leaves and merge them.
WRITES = ['insert %09%00 x', 'remove %00', 'insert %00%00 y', 'batch %0a - %00%01 z', 'pop-max']


def note(s, *lines):
    for line in lines:
        s.line(line, 'noted')


def image(s, root, pages, line='image', name=TREE.decode(), code=None):
    """Notes an image, and opens it; where it has a code that is told of it."""
    note(s, *pages, f'root {name} {root}')
    s.shell.code = code
    s.line(line, f'corrupt {code}' if code else 'opened')


def holds(s, words):
    """These keys are there, from both ends, each with itself as its value."""
    at = [f'pair {k} {k}' for k in words]
    s.line('dump', *(pair(k) for k in words), f'end {len(words)}')
    s.line('range .. ..', *at, f'end {len(at)}')
    s.line('range-back .. ..', *at[::-1], f'end {len(at)}')
    s.line('len', f'number {len(at)}')
    s.line('first', f'pair {words[0]} {words[0]}' if words else 'pair -')
    s.line('last', f'pair {words[-1]} {words[-1]}' if words else 'pair -')


@case
def an_image_that_is_well_formed_is_opened(s):
    """Each of these images is opened and read from both ends. Then it is written, flushed, opened again and crashed like any other
    store, and its pages pass the check after each line."""
    for root, pages, words, said in ACCEPTED:
        s.note(said)
        image(s, root, pages)
        holds(s, words)
        s.line('recovered', 'yes')
        s.line('verify', 'sound')
        holds(s, words)
        for number in range(30, 50):
            s.insert(key(number))
            s.line('verify', 'sound')
        for line in WRITES:
            s.ask(line)
            s.line('verify', 'sound')
        for number in range(49, 29, -1):
            s.ask(f'remove {key(number)}')
            s.line('verify', 'sound')
        s.ask('pages')
        for line in 'dump', 'reopen', 'dump', 'clear', 'crash 4', 'verify', 'dump':
            s.ask(line)


@case
def each_crash_of_an_image_that_was_opened_keeps_a_beginning(s):
    """Each of these images is opened and written, and a crash keeps each number of the actions in turn. What it leaves has the pairs of
    some moment, and passes the check."""
    for root, pages, words, said in ACCEPTED:
        s.note(said)
        keep, count = 0, None
        while count is None or keep <= count:
            image(s, root, pages)
            for line in WRITES:
                s.ask(line)
            count = len(s.store.recent)
            s.line(f'crash {keep}', 'recovered')
            s.line('verify', 'sound')
            s.ask('dump')
            keep += 1
        s.note('That was the last action.')


def leaves_under(first, second, child='-'):
    return [first, second, index(3, ('%', 1), ('%08', 2), child=child)]


# What is not well formed: its root, its pages, the code that is told, and what is said of it.
REFUSED = [
    (5, [EMPTY], 1, 'The root names a page that is not there.'),
    (1, [leaf(1, '%', '%08', 1, keys(0, 8))], 3, 'A leaf leads to itself, so that the chain has a gap there: 2 would be right too, but the bounds are compared first.'),
    (3, [index(3, ('%', 3))], 2, 'An index is its own first page, so that it stands on two levels.'),
    (3, [FIRST, leaf(2, '%09', '%', '-', keys(9, 11)), index(3, ('%', 1), ('%09', 2))], 3, 'The second leaf begins behind the end of the first.'),
    (1, [leaf(1, '%', '%08', '-', keys(0, 8))], 3, 'The chain ends before the unbounded end.'),
    (3, [FIRST, SECOND, index(3, ('%', 1), ('%08', 2), ('%09', 7))], 4, 'A pointer names a page that is not there.'),
    (3, [FIRST, SECOND, index(3, ('%', 1), ('%09', 2))], 5, 'A pointer has another key than its page begins with.'),
    (3, [FIRST, CAPPED, BOTH], 6, 'A leaf is merging, and its index has no merging child.'),
    (3, leaves_under(FIRST, SECOND, 1), 6, 'The merging child is the page of the first pointer.'),
    (3, leaves_under(FIRST, f'page 2 odd-leaf %08 % - merging 1{entries(keys(8, 11))}', 2), 6, 'A leaf is merging, and has a merging child.'),
    (1, [leaf(1, '%', '%', '-', keys(0, 34))], 7, 'A leaf has 34 entries.'),
    (3, leaves_under(FIRST, leaf(2, '%08', '%', '-', keys(8, 26)), 2), 7, 'The merging child has 18 entries.'),
    (1, [leaf(1, '%', '%', '-', ['%02', '%01'])], 8, 'The entries of a leaf do not ascend.'),
    (1, [leaf(1, '%05', '%', '-', ['%01'])], 3, 'The only leaf begins at a key: 8 would be right too, since an entry lies below that, but the chain is compared first.'),
]


def is_not_opened(s, code):
    """There is no database, and each line that opens the pages again tells the same."""
    s.line('why', f'why corruption {code}')
    for line in 'get a', 'insert a 1', 'dump', 'owned flush', 'recovered':
        s.line(line, 'refused E8')
    s.line('step 1', 'no slot')
    for line in 'verify', 'reopen', 'crash 0', 'recover', 'crash 9', 'verify':
        s.line(line, f'corrupt {code}')


@case
def an_image_that_is_not_well_formed_is_refused(s):
    """None of these images is opened. What is wrong with each is told by its number, and told again by each line that would open it."""
    for root, pages, code, said in REFUSED:
        s.note(said)
        image(s, root, pages, code=code)
        is_not_opened(s, code)
    s.note('Two trees have the same leaf.')
    note(s, EMPTY, 'root a 1')
    image(s, 1, [], name='b', code=9)
    is_not_opened(s, 9)
    s.note('A new store has nothing of it.')
    s.new()
    s.line('verify', 'sound')
    s.holds()


# The bounds of thirty-four leaves.
THIRTY_FOUR = ['%', *keys(1, 34), '%']

# Where one thing alone is wrong, in a place that is easily passed over: the code that is told, what is said of it, the root, and the lines
# that note the pages and the roots of other trees.
ONE_FAULT = [
    (6, 'A leaf that is open has a merging child.', 1, ['page 1 odd-leaf % % - open 1 a 1']),
    (6, 'An index that is merging has a merging child.', 7, [
        'page 1 leaf % e 2 open a 1', 'page 2 leaf e j 3 open f 1', 'page 3 leaf j p 4 open k 1', 'page 4 leaf p % - open q 1',
        'page 5 index % j 6 open - % 1 e 2', 'page 6 index j % - merging 4 j 3 p 4', 'page 7 index % % - open 6 % 5 j 6']),
    (6, 'A leaf of the chain is merging, and no pointer names it.', 3,
     ['page 1 leaf % j 2 open a 1', 'page 2 leaf j % - merging k 1', 'page 3 index % % - open - % 1']),
    (8, 'A key stands twice in a leaf.', 1, ['page 1 leaf % % - open a 1 a 2']),
    (8, 'A key is the upper bound of its leaf.', 3, ['page 1 leaf % j 2 open a 1 j 2', 'page 2 leaf j % - open k 1', 'page 3 index % % - open - % 1 j 2']),
    (8, 'The keys of a leaf that was received do not ascend.', 4,
     ['page 1 leaf % t 3 open a 1', 'page 2 leaf j t 3 merging k 0 j 1', 'page 3 leaf t % - open u 1', 'page 4 index % % - open 2 % 1 j 2 t 3']),
    (8, 'The last of four trees has a leaf whose keys do not ascend.', 1, [
        'page 1 leaf % % - open a 1', 'page 2 leaf % % - open a 1', 'page 3 leaf % % - open a 1', 'page 4 leaf % % - open b 1 a 1',
        'root b 2', 'root c 3', 'root d 4']),
    (5, 'A pointer has a lower key than its page begins with.', 3,
     ['page 1 leaf % j 2 open a 1', 'page 2 leaf j % - open k 1', 'page 3 index % % - open - % 1 i 2']),
    (5, 'The first key of an index is above where the index begins.', 6, [
        'page 1 leaf % m 2 open a 1', 'page 2 leaf m n 3 open m 1', 'page 3 leaf n % - open o 1',
        'page 4 index % m 5 open - % 1', 'page 5 index m % - open - n 3', 'page 6 index % % - open - % 4 m 5']),
    (9, 'Two trees have the same leaf, which another one received in each.', 4, [
        'page 1 leaf % t 3 open a 1', 'page 2 leaf j t 3 merging k 0', 'page 3 leaf t % - open u 1', 'page 4 index % % - open 2 % 1 j 2 t 3',
        'page 5 leaf % t 6 open a 1', 'page 6 leaf t % - open u 1', 'page 7 index % % - open 2 % 5 j 2 t 6', 'root other 7']),
    (9, 'A leaf stands beside an index.', 3,
     ['page 1 leaf % j 2 open a 1', 'page 2 leaf j % - open k 1', 'page 3 index % j 4 open - % 1', 'page 4 leaf j % - open k 1']),
    (7, 'An index has 34 pointers.', 35,
     [leaf(pid, lo, hi, pid + 1 if pid < 34 else '-', []) for pid, (lo, hi) in enumerate(zip(THIRTY_FOUR, THIRTY_FOUR[1:]), 1)]
     + [index(35, *zip(THIRTY_FOUR, range(1, 35)))]),
]


@case
def an_image_with_a_single_fault_is_refused(s):
    """In each of these images one thing alone is wrong, in a place that a check might pass over. None is opened."""
    for code, said, root, pages in ONE_FAULT:
        s.note(said)
        image(s, root, pages, code=code)
        expect(s.shell.faults() == {code}, said, s.shell.faults())


@case
def an_image_in_which_a_group_is_open_is_refused(s):
    """A group that is open is what is wrong with these images, and a crash takes it away."""
    for at, (root, pages, words, said) in enumerate(ACCEPTED):
        s.note(said)
        image(s, root, pages, line='image group', code=10)
        s.line('why', 'why corruption 10')
        s.line('get a', 'refused E8')
        for line in 'verify', 'reopen', 'reopen refuse 99', 'reopen':
            s.line(line, 'corrupt 10')
        s.line(*[('recover', 'opened'), ('crash 0', 'recovered'), ('crash 1', 'recovered'), ('crash 2', 'recovered')][at % 4])
        s.line('verify', 'sound')
        holds(s, words)
    s.note('What is wrong with the pages is told once the group is gone.')
    image(s, 1, [leaf(1, '%', '%', '-', ['%02', '%01'])], line='image group', code=10)
    s.line('verify', 'corrupt 10')
    s.shell.code = 8
    s.line('recover', 'corrupt 8')
    s.line('verify', 'corrupt 8')


@case
def an_image_has_what_was_noted_since_the_last_one(s):
    """Of one number or name the last that was noted stands, nothing is left for the next image, and a new store or an opening takes
    nothing away."""
    note(s, leaf(1, '%', '%', '-', ['b', 'a']), 'root t 5', f'root {TREE.decode()} 7')
    s.new()
    s.insert('x')
    note(s, leaf(1, '%', '%', '-', ['a', 'b']), 'root t 1', leaf(2, '%', '%', '-', ['c']), f'root {TREE.decode()} 2')
    s.line('reopen', 'opened')
    s.line('get x', 'value x')
    s.line('image', 'opened')
    s.line('dump', pair('c'), pair('a', tree='t'), pair('b', tree='t'), 'end 3')
    s.line('names', f'name {TREE.decode()}', 'name t', 'end 2')
    s.line('flush', 'flushed 0')
    s.note('Nothing was noted: the default tree is made.')
    s.line('image', 'opened')
    s.line('recovered', 'yes')
    s.line('names', f'name {TREE.decode()}', 'end 1')
    s.line('dump', 'end 0')
    s.note('A tree of another name alone: the default tree is made beside it.')
    image(s, 1, [leaf(1, '%', '%', '-', ['a'])], name='t')
    s.line('dump', pair('a', tree='t'), 'end 1')
    s.line('names', f'name {TREE.decode()}', 'name t', 'end 2')
    s.line('insert a 1', 'old -')
    s.line('tree t', 'tree t')
    s.line('get a', 'value a')
    s.note('An image has a mark, and ids are given above it.')
    image(s, 1, [EMPTY], line='image mark 7')
    s.ask('reopen mark 6')
    expect(s.wanted[-1].endswith('`6` is below the mark, which is 7'), s.wanted[-1])
    s.line('id', 'number 8')
    image(s, 1, [EMPTY], line='image mark 18446744073709551615')
    s.line('id', 'refused E2')
    s.line('why', 'why unsupported: ids used up')
    s.line('image', 'opened')
    s.line('id', 'number 1')


@case
def pages_that_were_refused_are_opened_by_a_check_again(s):
    """Where an image is well formed and its opening is refused by the store, the next opening checks it again. A page that cannot be
    read is no corruption."""
    image(s, 3, [FIRST, SECOND, BOTH])
    s.line('reopen unreadable 2', 'opened')
    s.line('verify', 'refused E4')
    s.line('why', 'why io fault 2')
    s.line('get %03', 'value %03')
    s.line('get %09', 'refused E4')
    s.line('recover', 'opened')
    s.line('verify', 'sound')
    s.note('A call in flight and a subscriber go on after a check, whatever it finds.')
    s.begin(1, 'insert a a')
    s.line('reopen unreadable 1', 'opened')
    s.line('step 1', 'no slot')
    s.begin(1, 'get %09')
    s.line('watch %', 'subscriber 1')
    s.line('verify', 'refused E4')
    s.moves(1)
    s.line('next 1', 'event -')
    s.line('recover', 'opened')
    s.begin(1, 'get %09')
    s.line('tree t', 'tree t')
    s.line('watch %', 'subscriber 1')
    s.line('verify', 'sound')
    s.moves(1)
    s.line('next 1', 'event -')
    s.line('get %09', 'value -')
    s.line('finish 1', 'value %09')
    s.note('An image that is not well formed, of which a page cannot be read.')
    image(s, 3, [FIRST, leaf(2, '%08', '%', '-', keys(8, 42)), BOTH], code=7)
    s.line('reopen unreadable 2', 'refused E4')
    s.line('verify', 'refused E4')
    s.line('get a', 'refused E8')
    s.line('crash 0', 'corrupt 7')
    s.note('One that is well formed, once its group is gone, and whose opening the store refuses. It makes one call of the store.')
    image(s, 3, [FIRST, SECOND, BOTH], line='image group', code=10)
    s.line('recover refuse 1 2', 'refused E4')
    s.line('get %09', 'refused E8')
    s.line('verify', 'sound')
    s.line('get %09', 'refused E8')
    s.line('reopen', 'refused E4')
    s.line('verify', 'sound')
    s.line('reopen', 'opened')
    s.line('get %09', 'value %09')
    s.note('The same of an empty store, whose opening makes three.')
    s.line('new refuse 2', 'refused E4')
    s.line('verify', 'sound')
    s.line('dump', 'refused E8')
    s.line('reopen', 'opened')
    s.line('dump', 'end 0')
    s.line('new refuse 3 4', 'refused E4')
    s.line('verify', 'sound')
    s.line('reopen', 'refused E4')
    s.line('verify', 'sound')
    s.line('reopen', 'opened')


@case
def a_check_of_the_pages_changes_nothing(s):
    """`verify` looks at the pages as they are, and nothing else happens: splits, merges and scans in flight go on, subscribers hear, older
    trees and operators stay, and what was not flushed is lost in a crash."""
    s.insert(*'bcdefghijklmnopq')
    s.line('tree t', 'tree t')
    s.insert('x')
    s.line('drop t', 'yes')
    s.line('tree t', 'tree t')
    s.line(f'tree {TREE.decode()}', f'tree {TREE.decode()}')
    s.begin(1, 'scan [c (f')
    s.line('finish 1', 'pair c c')
    s.insert('r')
    s.ask('flush')
    s.line('operator concat', 'done')
    s.line('watch %', 'subscriber 1')
    s.begin(2, 'insert s s')
    while s.ask('step 2') == ['moved']:
        s.ask('draw')
        s.line('verify', 'sound')
        s.ask('draw')
        s.ask('turns 2')
    expect(s.wanted[-1] == 'old -', s.wanted[-1])
    s.reaches('split')
    s.note('The call is done, and its subscriber hears of it behind a check.')
    s.line('verify', 'sound')
    s.line('next 1', 'event insert s s')
    s.line('finish 1', 'pair d d')
    s.line('verify', 'sound')
    s.line('finish 1', 'pair e e')
    s.line('turns 1', 'number 0')
    s.line('merge s 1', 'value s1')
    s.line('verify', 'sound')
    s.line('merge s 2', 'value s12')
    s.line('recovered', 'no')
    s.line('verify', 'sound')
    s.line('recovered', 'no')
    s.line('id', 'number 1')
    s.line('verify', 'sound')
    s.line('id', 'number 2')
    s.note('An older tree is still known, and the current one stays current.')
    s.line('old-tree t', 'tree t')
    s.line('verify', 'sound')
    s.line('get x', 'refused E1')
    s.line('old-tree t', 'tree t')
    s.line('tree t', 'tree t')
    s.line('verify', 'sound')
    s.insert('y')
    s.note('Of what came since the flush the check made nothing durable.')
    s.line('verify', 'sound')
    s.line('crash 0', 'recovered')
    s.line('verify', 'sound')
    s.holds(*'bcdefghijklmnopqr')
    s.line('recovered', 'yes')
    s.line(f'tree {TREE.decode()}', f'tree {TREE.decode()}')
    s.note('It makes nothing durable in the middle of a merge either: the call that merges goes on, and a crash loses all of it.')
    s.insert('s')
    s.remove(*'bcdef')
    s.ask('flush')
    s.remove(*'klmnopq')
    s.begin(1, 'remove r')
    while s.ask('step 1') == ['moved']:
        s.line('verify', 'sound')
        s.ask('draw')
    expect(s.wanted[-1] == 'old r', s.wanted[-1])
    expect(any(' merging:' in line for line in s.wanted), 'no merge')
    s.line('verify', 'sound')
    s.holds(*'ghijs')
    s.line('crash 0', 'recovered')
    s.holds(*'ghijklmnopqrs')


@case
def lines_of_images_that_cannot_be_read(s):
    """Lines of images that cannot be read note nothing."""
    note(s, EMPTY)
    for line in ('page', 'page 1', 'page 1 leaf', 'page 1 leaf % % -', 'page 1 leaf % % - open a', 'page 1 odd-leaf % % - open', 'page 1 odd-leaf % % - open a a',
                 'page 1 index % % - open', 'page 1 index % % - open % 1', 'page x leaf % % - open', 'page 1 leaves % % - open', 'page 1 leaf - % - open',
                 'page 1 leaf % - - open', 'page 1 leaf % % % open', 'page 1 leaf % % - shut', 'page 1 leaf % % - open a -', 'page 1 leaf % % - open - a',
                 'page 1 index % % - open x % 1', 'page 1 index % % - open - % x', 'page 1 index % % - open - - 1', 'page 1 odd-leaf % % - open % a a',
                 'page 01 leaf % % - open', 'page  1 leaf % % - open', 'page 1 leaf % % - open ', 'page 1 leaf %4 % - open', 'page 1 index % % - open - % 18446744073709551616',
                 'root', 'root a', 'root a b', 'root - 1', 'root a 1 b 2', 'image 1', 'image mark', 'image mark x', 'image mark 1 2', 'image group 1', 'images',
                 'verify 1', 'owned verify', 'owned image', 'begin image'):
        s.ask(line)
        expect(s.wanted[-1].startswith('bad line'), line, s.wanted[-1])
    note(s, f'root {TREE.decode()} 1')
    s.line('image', 'opened')
    s.line('dump', 'end 0')
