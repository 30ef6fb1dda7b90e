"""Scans in flight: the pairs within two bounds, one at a step, beside whatever changes their tree."""
import random
from cases_extremes import LENGTHS, greatest, long
from cases_flights import below, eight_and_three, mixed, seventeen, seventeen_and_three, BEHIND_SEVEN
from cases_names import DEFAULT, tree
from oracle import word
from script import case, expect, key, pair


def eighteen(s):
    """Eighteen pairs in a leaf of eight and one of ten, of which all but the last was flushed before."""
    seventeen(s)
    s.insert(key(17))
    s.pages((1, 2), (2, 10))


def gives(s, slot, *keys):
    """The scan gives a pair at each of these steps. Its turns begin again then."""
    for k in keys:
        s.line(f'step {slot}', f'pair {k} {k}')
        s.line(f'turns {slot}', 'number 0')


def ends(s, slot):
    """The scan has given all its pairs."""
    s.line(f'step {slot}', 'end')
    s.line(f'step {slot}', 'no slot')


def finishes(s, slot, *keys):
    """The scan gives these pairs and ends, and all steps up to each of them are made at once."""
    for k in keys:
        s.line(f'finish {slot}', f'pair {k} {k}')
    s.line(f'finish {slot}', 'end')
    s.line(f'finish {slot}', 'no slot')


def both_ways(s, lo, hi, *keys):
    """Scans within two bounds give these pairs, from the front and from the back."""
    for name, order in ('scan', keys), ('scan-back', keys[::-1]):
        slot = s.shell.begun + 1
        s.begin(slot, f'{name} {lo} {hi}')
        finishes(s, slot, *order)


def gives_nothing(s, lo, hi):
    """Scans within two bounds end at their first step, before they read a page."""
    for name in 'scan', 'scan-back':
        slot = s.shell.begun + 1
        s.begin(slot, f'{name} {lo} {hi}')
        ends(s, slot)


@case
def a_scan_of_an_empty_tree_ends(s):
    """A scan of a fresh database reads its one leaf, and ends."""
    for slot, line in enumerate(['scan .. ..', 'scan-back .. ..', 'scan [a (b', 'scan-back [% ..'], 1):
        s.begin(slot, line)
        s.line(f'turns {slot}', 'number 0')
        s.moves(slot)
        s.line(f'turns {slot}', 'number 1')
        ends(s, slot)
    s.line('flush', 'flushed 0')


@case
def a_scan_goes_on_where_its_leaf_ended(s):
    """A scan over two leaves reads the index and the first leaf, gives its pairs, and reads the index again. A key of the second leaf
    goes out before that is read, and is not given."""
    eighteen(s)
    s.begin(1, 'scan .. ..')
    s.moves(1, 2)
    gives(s, 1, *below(8))
    s.moves(1)
    s.remove('%09')
    s.moves(1)
    gives(s, 1, *below(9, 8), *below(18, 10))
    ends(s, 1)


@case
def a_scan_from_the_back_goes_on_below_where_its_leaf_began(s):
    """The same from the back. A key comes into the first leaf before that is read, and is given."""
    eighteen(s)
    s.begin(1, 'scan-back .. ..')
    s.moves(1, 2)
    gives(s, 1, *below(18, 8)[::-1])
    s.moves(1)
    s.begin(2, 'insert %07%05 %07%05')
    s.line('finish 2', 'old -')
    s.moves(1)
    gives(s, 1, '%07%05', *below(8)[::-1])
    ends(s, 1)


@case
def a_scan_goes_on_where_its_next_leaf_merged(s):
    """The leaf that a scan is about to read merges into the one that it has read, and is freed. It finds no page there, goes from the root,
    and gives what comes behind its own leaf alone."""
    eight_and_three(s)
    s.begin(1, 'remove %0a')
    s.begin(2, 'scan .. ..')
    s.moves(2, 2)
    gives(s, 2, *below(8))
    s.moves(2)
    s.line('finish 1', 'old %0a')
    s.note('It finds no page; then it reads the root, and the leaf that received the other.')
    s.moves(2, 3)
    s.line('turns 2', 'number 4')
    gives(s, 2, *below(10, 8))
    ends(s, 2)
    s.reaches('walk meets no page')


@case
def a_scan_gives_its_leaf_as_it_was_read(s):
    """What changes in a leaf that a scan has read it does not see: it gives a value that was replaced since, a key that was taken out,
    and none that came. What changes in a later leaf it sees."""
    eighteen(s)
    s.begin(1, 'scan .. ..')
    s.moves(1, 2)
    gives(s, 1, '%00', '%01')
    s.line('insert %02 x', 'old %02')
    s.remove('%03')
    s.insert('%03%00')
    s.line('insert %08 x', 'old %08')
    s.remove('%09')
    s.insert('%09%00')
    gives(s, 1, *below(8, 2))
    s.moves(1, 2)
    s.line('step 1', 'pair %08 x')
    gives(s, 1, '%09%00', *below(18, 10))
    ends(s, 1)
    s.note('All keys are taken out while it gives the first leaf: it gives that to its end, and nothing more.')
    for name, keys in ('scan', below(8)), ('scan-back', below(18, 8)[::-1]):
        eighteen(s)
        s.begin(1, f'{name} .. ..')
        s.moves(1, 2)
        gives(s, 1, *keys[:3])
        s.line('clear', 'done')
        gives(s, 1, *keys[3:])
        s.line('finish 1', 'end')
    s.note('A leaf splits behind a scan that has read it: what moved to the right half is given once.')
    seventeen(s)
    s.begin(1, 'get %00')
    s.line('finish 1', 'value %00')
    s.begin(2, 'scan .. ..')
    s.moves(2, 2)
    gives(s, 2, *below(4))
    for number in range(8):
        s.insert(f'%02{word(bytes([number]))}')
    s.ask('pages')
    finishes(s, 2, *below(17, 4))


@case
def scans_give_what_is_within_two_bounds(s):
    """Bounds with their keys and without, and no bounds; between two keys and between two leaves, at the edge of a leaf, at both ends."""
    eighteen(s)
    every = below(18)
    for (lo, low), (hi, high) in [(a, b) for a in LOWER for b in UPPER]:
        if low < high:
            both_ways(s, lo, hi, *every[low:high])
    s.note('Equal bounds that both have their key.')
    for k in '%00', '%07', '%08', '%11':
        both_ways(s, f'[{k}', f'[{k}', k)
    both_ways(s, '[%07%00', '[%07%00')
    both_ways(s, '[%', '[%')
    s.note('Between two keys that stand beside each other nothing is found, but is looked for.')
    for lo, hi in ('(%07', '(%08'), ('[%07%00', '(%08'), ('(%07', '[%07%ff'), ('(%08', '(%09'), ('(%11', '..'), ('..', '(%00'), ('..', '[%'):
        slot = s.shell.begun + 1
        s.begin(slot, f'scan {lo} {hi}')
        s.moves(slot, 2)
        s.line(f'finish {slot}', 'end')
        s.begin(slot + 1, f'scan-back {lo} {hi}')
        s.moves(slot + 1, 2)
        s.line(f'finish {slot + 1}', 'end')
    s.did(5)


# Bounds, and the place of the first key at or behind them.
LOWER = [('..', 0), ('[%', 0), ('(%', 0), ('[%00', 0), ('(%00', 1), ('[%03', 3), ('(%03', 4), ('[%03%00', 4), ('(%07', 8), ('[%07%05', 8), ('[%08', 8), ('(%08', 9), ('(%10', 17)]
UPPER = [('..', 18), ('[%ff', 18), ('(%11%00', 18), ('[%11', 18), ('(%11', 17), ('[%08', 9), ('(%08', 8), ('[%07%05', 8), ('[%07', 8), ('(%07', 7), ('[%03%00', 4), ('(%03', 3), ('[%00', 1)]


@case
def bounds_that_give_nothing_end_a_scan_at_once(s):
    """A start above the end, and equal bounds that have not both their key: a scan ends at its first step, before it reads the root. Its
    tree is tested before."""
    reversed = [('[b', '[a'), ('(b', '(a'), ('[b', '(a'), ('(b', '[a'), ('(a', '(a'), ('[a', '(a'), ('(a', '[a'), ('..', '(%'), ('[%', '(%'), ('(%', '[%'), ('[a', '(%'), ('(%ff', '[%'),
                ('[a%00', '[a'), ('[%ff', '[%00')]
    for lo, hi in reversed:
        gives_nothing(s, lo, hi)
    eighteen(s)
    for lo, hi in reversed:
        gives_nothing(s, lo, hi)
    s.note('Pages that cannot be read are not read.')
    s.line('reopen unreadable 1 2 3', 'opened')
    for lo, hi in reversed:
        gives_nothing(s, lo, hi)
    s.begin(s.shell.begun + 1, 'scan .. ..')
    s.line(f'step {s.shell.begun}', 'refused E4')
    s.line(f'step {s.shell.begun}', 'no slot')
    s.note('A tree that was dropped.')
    s.new()
    tree(s, 't')
    s.begin(1, 'scan [b [a')
    s.begin(2, 'scan-back [b [a')
    s.line('drop t', 'yes')
    s.line('step 1', 'refused E1')
    s.line('finish 2', 'refused E1')
    s.line('begin scan [b [a', 'refused E1')


@case
def scans_over_strings_of_each_length(s):
    """Keys and bounds of 0, 1, 23, 57 and 1000 bytes, and of up to 40 bytes 255: they are given in their order, from both ends and between any two."""
    words = [long('k', length) for length in LENGTHS]
    s.insert(*words)
    both_ways(s, '..', '..', *words)
    for low in range(5):
        for high in range(low, 5):
            both_ways(s, f'[{words[low]}', f'[{words[high]}', *words[low:high + 1])
            if low < high:
                both_ways(s, f'({words[low]}', f'({words[high]}', *words[low + 1:high])
    both_ways(s, f'[{long("k", 999)}', f'({long("k", 1001)}', words[4])
    both_ways(s, f'({long("k", 1000)}', f'[{long("k", 1001)}')
    s.new()
    words = [greatest(count) for count in range(41)]
    s.insert(*words[::2], *words[1::2])
    both_ways(s, '..', '..', *words)
    both_ways(s, f'({words[20]}', '..', *words[21:])
    both_ways(s, '..', f'({words[20]}', *words[:20])
    both_ways(s, f'[{words[39]}', f'[{greatest(41)}', *words[39:])
    both_ways(s, f'({words[40]}', f'[{greatest(41)}')
    s.note('A long key in a tree of long keys, where each leaf ends at one.')
    s.new()
    words = [long('k', 100) + f'{number:03}' for number in range(60)]
    s.insert(*words)
    both_ways(s, '..', '..', *words)
    both_ways(s, f'({words[7]}', f'({words[52]}', *words[8:52])


@case
def a_scan_of_a_tree_of_three_levels(s):
    """Scans of a tree of many leaves go leaf after leaf, in the order of a range."""
    words = [f'{number:03}' for number in range(400)]
    s.insert(*words)
    levels = s.ask('pages')
    expect(levels[-1] == 'end 3', levels)
    s.line('range .. ..', *(f'pair {k} {k}' for k in words), 'end 400')
    both_ways(s, '..', '..', *words)
    both_ways(s, '[100', '(300', *words[100:300])
    s.note('From the root to each of its leaves a scan goes on three times, and then gives pair after pair.')
    s.begin(5, 'scan [200 ..')
    s.moves(5, 3)
    gives(s, 5, '200')


@case
def a_scan_is_refused_where_its_tree_was_dropped(s):
    """A scan whose tree was dropped is refused at its next step, also where pairs of its leaf are still to be given, and where the name was
    opened anew before. Its slot ends; it can be given up as well. Scans of other trees go on."""
    for anew in False, True:
        s.new()
        s.insert(*below(2))
        s.begin(1, 'scan .. ..')
        tree(s, 't')
        s.insert(*below(20))
        s.ask('get %00')
        for slot, line in enumerate(['scan .. ..', 'scan-back .. ..', 'scan .. ..', 'scan-back [b ..', 'scan .. ..'], 2):
            s.begin(slot, line)
        s.moves(2, 2)
        gives(s, 2, *below(3))
        s.moves(3)
        s.moves(5, 2)
        s.moves(1)
        s.line('drop t', 'yes')
        if anew:
            tree(s, 't')
            s.insert(*below(20))
        s.line('turns 2', 'number 0')
        s.line('turns 5', 'number 2')
        s.line('step 2', 'refused E1')
        s.line('why', 'why collection not found')
        s.line('step 2', 'no slot')
        s.line('finish 3', 'refused E1')
        s.line('turns 3', 'no slot')
        s.line('step 4', 'refused E1')
        s.line('finish 5', 'refused E1')
        s.line('abandon 6', 'abandoned')
        s.line('step 6', 'no slot')
        finishes(s, 1, *below(2))
        if anew:
            s.begin(7, 'scan .. [%01')
            finishes(s, 7, *below(2))


@case
def scans_end_at_every_opening(s):
    """A crash and every opening end all scans, and a call of the database itself does. One that begins then gives what there is."""
    for line, printed in [('crash 99', 'recovered'), ('crash 0', 'recovered'), ('reopen', 'opened'), ('recover', 'opened'), ('owned id', 'number 1'),
                          ('new', 'opened')]:
        s.new()
        s.insert(*below(3))
        s.did(3)
        s.insert('%03')
        s.begin(1, 'scan .. ..')
        s.begin(2, 'scan-back .. ..')
        s.moves(1)
        gives(s, 1, '%00')
        s.line(line, printed)
        s.line('step 1', 'no slot')
        s.line('finish 2', 'no slot')
        s.line('turns 1', 'no slot')
        left = [] if line == 'new' else below(3) if line == 'crash 0' else below(4)
        both_ways(s, '..', '..', *left)


@case
def a_scan_repairs_what_it_meets(s):
    """A split or a merge that a call left half done a scan ends, as any call does, where it stands on its way. It splits a leaf that is too
    long, and merges one of few pairs. It gives each pair once."""
    for name in 'scan', 'scan-back':
        for turns in range(8):
            s.note(f'{name}, and an insert that splits was given up after {turns} steps')
            seventeen(s)
            s.begin(1, 'insert %11 %11')
            s.moves(1, turns)
            s.line('abandon 1', 'abandoned')
            s.begin(2, f'{name} .. ..')
            finishes(s, 2, *below(17)[::-1 if name == 'scan-back' else 1])
            s.pages((1, 2), (2, 9))
        for turns in range(12):
            s.note(f'{name}, and a removal that merges was given up after {turns} steps')
            eight_and_three(s)
            s.begin(1, 'remove %0a')
            s.moves(1, turns)
            s.line('abandon 1', 'abandoned')
            s.begin(2, f'{name} .. ..')
            finishes(s, 2, *below(11)[::-1 if name == 'scan-back' else 1])
            s.pages((1, 1), (1, 11))
        for turns in range(22):
            s.note(f'{name}, and a removal that splits and merges was given up after {turns} steps')
            seventeen_and_three(s)
            s.begin(1, 'remove %0a')
            s.moves(1, turns)
            s.line('abandon 1', 'abandoned')
            s.begin(2, f'{name} .. ..')
            every = below(8) + BEHIND_SEVEN + below(11, 8)
            finishes(s, 2, *every[::-1 if name == 'scan-back' else 1])
            s.ask('pages')
    s.note('Step by step: it reads the root and the first leaf, and gives that; then the root and a leaf of three pairs, which it merges.')
    eight_and_three(s)
    s.begin(1, 'scan .. ..')
    s.goes_on(1, 0, 0)
    gives(s, 1, *below(8))
    s.goes_on(1, 0, 0, 1, 0, 1, 0, 1, 1, 1, 0, 0)
    s.line('turns 1', 'number 11')
    gives(s, 1, *below(11, 8))
    ends(s, 1)
    s.did(0)


@case
def two_scans_go_in_opposite_directions(s):
    """Two scans of one tree, from the front and from the back, pair by pair in turn; what one call takes out between them the other still gives
    where its leaf was read before."""
    eighteen(s)
    s.begin(1, 'scan .. ..')
    s.begin(2, 'scan-back .. ..')
    for slot in 1, 2, 2, 1:
        s.moves(slot)
    for low, high in zip(below(8), below(18, 8)[::-1]):
        gives(s, 1, low)
        gives(s, 2, high)
    s.remove('%02', '%0e', '%08')
    s.line('step 1', 'moved')
    gives(s, 2, '%09', '%08')
    s.line('step 2', 'moved')
    s.line('step 1', 'moved')
    gives(s, 1, *below(14, 9))
    s.moves(2)
    gives(s, 2, *[k for k in below(8)[::-1] if k != '%02'])
    gives(s, 1, *below(18, 15))
    ends(s, 2)
    ends(s, 1)


@case
def a_scan_brings_no_event(s):
    """A scan of a tree that has subscribers tells them nothing, whatever it repairs. Changes beside it are told, and it gives them or not."""
    eight_and_three(s)
    s.line('watch %', 'subscriber 1')
    s.line('watch %08', 'subscriber 2')
    s.begin(1, 'scan .. ..')
    s.moves(1, 2)
    gives(s, 1, *below(4))
    s.line('next 1', 'event -')
    s.line('insert %05 x', 'old %05')
    s.line('insert %08 x', 'old %08')
    s.line('step 1', 'pair %04 %04')
    s.line('step 1', 'pair %05 %05')
    gives(s, 1, '%06', '%07')
    s.line('finish 1', 'pair %08 x')
    gives(s, 1, '%09', '%0a')
    ends(s, 1)
    s.line('next 1', 'event insert %05 x')
    s.line('next 1', 'event insert %08 x')
    s.line('next 1', 'event -')
    s.line('next 2', 'event insert %08 x')
    s.line('next 2', 'event -')


@case
def a_scan_is_refused_at_a_closed_database(s):
    """A scan that was begun before a group that is refused midway is refused at its next step, wherever it stands, and its slot ends. It can
    be given up, and its turns are told."""
    s.line('new refuse 8', 'opened')
    s.insert(*below(3))
    for slot, line in enumerate(['scan .. ..', 'scan-back .. ..', 'scan .. ..', 'scan [b [a', 'scan .. ..'], 1):
        s.begin(slot, line)
    s.moves(1)
    gives(s, 1, '%00')
    s.moves(2)
    s.line('batch a 1 b 2', 'refused E4')
    s.line('turns 1', 'number 0')
    s.line('turns 2', 'number 1')
    s.line('step 1', 'refused E8')
    s.line('step 1', 'no slot')
    s.line('turns 1', 'no slot')
    s.line('finish 2', 'refused E8')
    s.line('step 3', 'refused E8')
    s.line('step 4', 'refused E8')
    s.line('abandon 5', 'abandoned')
    s.line('begin scan .. ..', 'refused E8')
    s.line('recover', 'opened')
    s.line('step 3', 'no slot')
    both_ways(s, '..', '..', *below(3))


@case
def a_scan_stands_beside_a_group(s):
    """A group is one step: a scan that has read its leaf gives it as it was, and finds all of the group in the leaves behind."""
    eighteen(s)
    s.begin(1, 'scan .. ..')
    s.moves(1, 2)
    gives(s, 1, '%00')
    s.line('batch %01 - %08 x %09 - %0a%00 y', 'done')
    gives(s, 1, *below(8, 1))
    s.line('finish 1', 'pair %08 x')
    s.line('finish 1', 'pair %0a %0a')
    s.line('finish 1', 'pair %0a%00 y')
    finishes(s, 1, *below(18, 11))
    s.note('A batch that splits the leaf that comes next.')
    eighteen(s)
    s.begin(1, 'scan .. ..')
    s.moves(1, 2)
    gives(s, 1, *below(8))
    s.moves(1)
    s.line('batch' + ''.join(f' {key(number)} {key(number)}' for number in range(18, 40)), 'done')
    s.ask('pages')
    finishes(s, 1, *below(40, 8))


@case
def long_keys_are_changed_beside_a_scan(s):
    """A scan holds the leaf that it gives. Keys of up to 100 bytes are put in, replaced and taken out beside it, and it gives the leaf as
    it was."""
    words = [long('x', length) for length in (1, 23, 41, 57, 100)]
    s.insert('a', *words)
    s.begin(1, 'scan .. ..')
    s.moves(1)
    gives(s, 1, 'a')
    for k in words:
        s.line(f'remove {k}', f'old {k}')
        s.line(f'get {k}', 'value -')
        s.line(f'read {k}', 'value -')
        s.line(f'insert {k} y', 'old -')
        s.line(f'insert {k} z', 'old y')
        s.line(f'get {k}', 'value z')
        s.line(f'remove {k}', 'old z')
    s.line('len', 'number 1')
    finishes(s, 1, *words)


@case
def a_scan_passes_over_an_empty_leaf_that_is_the_first(s):
    """The first leaf of an index is empty, or the last one, or one between them. A scan goes on behind it."""
    for empty in range(3):
        for pid, (lo, hi, behind) in enumerate([('%', 'j', 2), ('j', 'p', 3), ('p', '%', '-')], 1):
            words = [] if pid == empty + 1 else [f'{"ajp"[pid - 1]}{n}' for n in range(5)]
            s.line(f'page {pid} leaf {lo} {hi} {behind} open' + ''.join(f' {k} {k}' for k in words), 'noted')
        s.line('page 4 index % % - open - % 1 j 2 p 3', 'noted')
        s.line(f'root {DEFAULT} 4', 'noted')
        s.line('image', 'opened')
        keys = [f'{letter}{n}' for at, letter in enumerate('ajp') if at != empty for n in range(5)]
        for line, order in ('scan .. ..', keys), ('scan-back .. ..', keys[::-1]):
            slot = s.shell.begun + 1
            s.begin(slot, line)
            for k in order:
                s.line(f'finish {slot}', f'pair {k} {k}')
            s.line(f'finish {slot}', 'end')


@case
def a_scan_is_given_up_wherever_it_stands(s):
    """A scan is given up after each of its steps. Nothing changed; what it repaired stays."""
    for steps in range(23):
        eighteen(s)
        s.did(5)
        s.begin(1, 'scan .. ..')
        for _ in range(steps):
            s.ask('step 1')
        s.line('abandon 1', 'abandoned')
        s.line('step 1', 'no slot')
        s.did(0)
        s.holds(*below(18))
    s.ask('begin scan .. ..')
    for _ in range(22):
        s.ask('step 2')
    s.line('step 2', 'end')


@case
def a_scan_cannot_read_a_page(s):
    """A scan that comes to a page that cannot be read is refused, and its slot ends. What it read before it gives."""
    eighteen(s)
    s.line('reopen unreadable 2', 'opened')
    s.begin(1, 'scan .. ..')
    s.moves(1, 2)
    gives(s, 1, *below(8))
    s.moves(1)
    s.line('step 1', 'refused E4')
    s.line('step 1', 'no slot')
    s.begin(2, 'scan-back .. ..')
    s.moves(2)
    s.line('step 2', 'refused E4')
    s.line('step 2', 'no slot')
    s.begin(3, 'scan-back .. [%07')
    finishes(s, 3, *below(8)[::-1])


@case
def lines_of_scans_that_cannot_be_read(s):
    """Lines of scans that cannot be read begin nothing."""
    s.insert('a')
    for line in ('begin scan', 'begin scan ..', 'begin scan a b', 'begin scan [a', 'begin scan .. .. ..', 'begin scan .. b', 'begin scan [%zz ..', 'begin scan .. (%4', 'begin scan - -',
                 'begin scan [- ..', 'begin scan-back', 'begin scan-back ..', 'begin scan-back .. a', 'begin scan-back [ ..', 'begin scans .. ..', 'begin scan-ends .. ..', 'begin range .. ..',
                 'scan ..', 'scan-back .. ..', 'owned scan .. ..', 'begin  scan .. ..', 'begin scan  ..'):
        s.ask(line)
        expect(s.wanted[-1].startswith('bad line'), line, s.wanted[-1])
    s.begin(1, 'scan [%2d ..')
    s.begin(2, 'scan [% [%ff')
    s.begin(3, 'scan-back .. ..')
    finishes(s, 1, 'a')
    finishes(s, 2, 'a')
    finishes(s, 3, 'a')
    s.ask('new refuse 1')
    s.line('begin scan .. ..', 'refused E8')
    s.line('begin scan-back [b [a', 'refused E8')


@case
def scans_step_by_step_beside_other_calls(s):
    """Eight calls in flight over sixty keys, of which every third is a scan between two bounds from either side, in an order that looks random.
    The tree grows and shrinks in turn; now and then a call is given up, all is flushed, a group changes several keys, or a crash keeps some of the
    actions. What the scans give is compared with what was there."""
    number = 88172645463325253
    for life in range(30):
        slots, given = [], 0
        for _ in range(160):
            number = mixed(number)
            kind, k, other = number >> 40 & 7, f'{(number >> 8) % 60:02}', f'{(number >> 16) % 60:02}'
            grows = 6 if life % 8 < 4 else 1
            if len(slots) < 8:
                call = f'insert {k} {number >> 24 & 3}' if kind < grows else f'get {k}' if kind == 7 else f'remove {k}'
                if s.shell.begun % 3 == 0:
                    lo, hi = sorted([k, other])
                    lo, hi = [['..', f'[{key}', f'({key}', f'[{key}'][number >> shift & 3] for key, shift in ((lo, 26), (hi, 28))]
                    call = f'{["scan", "scan-back"][number >> 30 & 1]} {lo} {hi}'
                slots.append(s.shell.begun + 1)
                s.begin(slots[-1], call)
                continue
            at = number % 8
            if number >> 50 & 31 == 0:
                s.line(f'abandon {slots.pop(at)}', 'abandoned')
            elif number >> 50 & 31 == 1:
                s.ask('flush')
            elif number >> 50 & 63 == 2:
                s.ask(f'batch {k} {kind} {other} -')
            elif (told := s.ask(f'step {slots[at]}')[0]) != 'moved':
                given += told.startswith('pair ')
                if not told.startswith('pair '):
                    slots.pop(at)
        s.ask('dump')
        if life % 3 == 2:
            s.ask('pages')
        else:
            s.ask(f'crash {number % 40}')
    s.reaches('a scan goes on at another leaf')


@case
def scans_come_among_other_lines_at_random(s):
    """Lines at random: keys in two trees change by calls of every kind, and scans of them give pair after pair."""
    dice = random.Random(17)
    slots = []

    def some():
        return f'{dice.randrange(90):02}'

    def bound():
        return dice.choice(['..', '[', '(', '['])

    def bounds():
        return ' '.join(mark if mark == '..' else mark + k for mark, k in zip([bound(), bound()], sorted([some(), some()])))

    s.line('tree t', 'tree t')
    for number in range(4000):
        what = dice.random()
        if what < .04 and len(slots) < 12:
            s.ask(f'begin {dice.choice(["scan", "scan-back"])} {bounds()}')
            slots.append(s.shell.begun)
        elif what < .45 and slots:
            slot = dice.choice(slots)
            told = s.ask(f'{dice.choice(["step", "step", "finish"])} {slot}')
            if told[0] != 'moved' and not told[0].startswith('pair '):
                slots.remove(slot)
        elif what < .5:
            s.ask(f'tree {dice.choice(["t", DEFAULT])}')
        elif what < (.85 if number % 1000 < 500 else .6):
            s.ask(f'insert {some()} {dice.randint(1, 3)}')
        elif what < .95:
            s.ask(f'remove {some()}')
        elif what < .96:
            s.ask(f'batch {some()} 7 {some()} - {some()} 8')
        else:
            s.ask(dice.choice(['pop-min', 'pop-max', 'flush', 'batch 00 9 50 -', f'cas {some()} 1 2', 'drop t', 'tree t', 'clear'][:5 + 3 * (number % 7 == 0)]))
    for slot in slots:
        while s.ask(f'finish {slot}')[0].startswith('pair '):
            pass
    s.reaches('a scan goes on at another leaf')
