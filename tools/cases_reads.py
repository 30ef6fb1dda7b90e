"""Reads that take no slot: single keys, neighbours, counts, and ranges from both ends."""
from oracle import some_keys, word
from script import case, crowd_case, expect, key, pair


def at(*keys):
    """What a range prints of keys that have themselves as their values."""
    return [f'pair {k} {k}' for k in keys] + [f'end {len(keys)}']


def keys_of(*keys):
    """What `keys` prints of them."""
    return [f'key {k}' for k in keys] + [f'end {len(keys)}']


def values_of(*values):
    return [f'value {v}' for v in values] + [f'end {len(values)}']


@case
def an_empty_database_has_nothing_to_read(s):
    """Every read of an empty database answers that there is nothing."""
    for k in ('a', '%', '%ff'):
        s.line(f'has {k}', 'no')
        s.line(f'read {k}', 'value -')
        s.line(f'lt {k}', 'pair -')
        s.line(f'gt {k}', 'pair -')
    s.rows("""
        first               pair -
        last                pair -
        len                 number 0
        empty               yes
        range .. ..         end 0
        range-back .. ..    end 0
        range-ends .. ..    end 0
        keys .. ..          end 0
        values-back [a (b   end 0
        insert % %          old -
        empty               no
        len                 number 1
        first               pair % %
        last                pair % %
        lt %                pair -
        gt %                pair -
        lt %00              pair % %
        has %               yes
        read %              value %
        range .. (%         end 0
        range .. [%         pair % %
                            end 1
        range (% ..         end 0
    """)


@case
def neighbours_of_every_key(s):
    """The pairs just below and above each key, there or not, over one leaf and over several."""
    for count in (6, 60):
        s.new()
        for n in range(1, 2 * count, 2):
            s.insert(key(n))
        s.line('len', f'number {count}')
        s.line('empty', 'no')
        s.line('first', f'pair {key(1)} {key(1)}')
        s.line('last', f'pair {key(2 * count - 1)} {key(2 * count - 1)}')
        for n in range(2 * count + 1):
            below, above = n - 1 - n % 2, n + 1 + n % 2
            s.line(f'lt {key(n)}', f'pair {key(below)} {key(below)}' if below > 0 else 'pair -')
            s.line(f'gt {key(n)}', f'pair {key(above)} {key(above)}' if above < 2 * count else 'pair -')
            s.line(f'has {key(n)}', 'yes' if n % 2 else 'no')
            s.line(f'read {key(n)}', f'value {key(n) if n % 2 else "-"}')


@case
def neighbours_of_keys_that_are_not_there(s):
    """The pair above a number that is not there, in keys of two bytes, the higher one first; and a range that begins at a key that
    is not there."""
    for n in range(10):
        s.insert(key(n))
    high, above = word((499).to_bytes(2, 'big')), word((500).to_bytes(2, 'big'))
    s.line(f'insert {above} {key(10)}', 'old -')
    s.line(f'gt {high}', f'pair {above} {key(10)}')
    s.new()
    before = word(b'a non-present key before yo!')
    s.rows(f"""
        insert yo! v1        old -
        read yo!             value v1
        cas yo! v1 v2        swapped
        range [{before} ..   pair yo! v2
                             end 1
        remove yo!           old v2
        read yo!             value -
    """)


@case
def a_range_has_the_pairs_within_its_bounds(s):
    """Every pair of bounds over six keys, taken from the front, from the back and from both ends."""
    s.insert(*(key(n) for n in range(6)))
    s.line('range-ends .. ..', *at(*(key(n) for n in (0, 5, 1, 4, 2, 3))))
    s.line(f'keys-back [{key(1)} [{key(3)}', *keys_of(key(3), key(2), key(1)))
    s.line(f'values (%01 (%04', *values_of(key(2), key(3)))
    bounds = ['..'] + [kind + key(n) for kind in '[(' for n in (0, 2, 3, 5, 9)]
    for lo in bounds:
        for hi in bounds:
            for name in ('range', 'range-back', 'range-ends', 'keys', 'values-back'):
                s.ask(f'{name} {lo} {hi}')


@case
def a_range_over_many_pages_meets_in_the_middle(s):
    """Three hundred pairs: all of them and a hundred of them, from either end and from both."""
    keys = [f'{n:03}' for n in range(300)]
    s.insert(*keys)
    s.line('range .. ..', *at(*keys))
    s.line('range-back .. ..', *at(*keys[::-1]))
    s.line('range-ends .. ..', *at(*(keys[i // 2 if i % 2 == 0 else -1 - i // 2] for i in range(300))))
    s.line('keys [100 (200', *keys_of(*keys[100:200]))
    s.line('values-back (099 [199', *values_of(*keys[199:99:-1]))
    s.line('range [299x ..', 'end 0')
    s.line('range [200 (100', 'end 0')


@crowd_case
def reads_count_few_pages(s):
    """A read of a key reads one page of each level. A scan reads each leaf once and one way down; from the back it goes down to
    each leaf. Bounds that give nothing read none."""
    keys = [f'{n:03}' for n in range(300)]
    s.insert(*keys)
    before = s.store.reads
    levels, leaves = len(s.shell.levels()), len(s.shell.levels()[-1])
    s.store.reads = before
    s.ask('reads')
    for k in ('000', '123', '299', 'none'):
        s.ask(f'read {k}')
        s.line('reads', f'reads {levels}')
    s.ask('range .. ..')
    s.line('reads', f'reads {leaves + levels - 1}')
    s.ask('len')
    s.line('reads', f'reads {leaves + levels - 1}')
    s.ask('range-back .. ..')
    s.line('reads', f'reads {leaves * levels}')
    s.ask('keys [100 (200')
    expect(int(s.ask('reads')[0].split()[1]) <= 100 // 8 + 2 + levels, 'a range of a hundred pairs')
    s.ask('range [200 (100')
    s.line('reads', 'reads 0')
    s.ask('range (5 (5')
    s.line('reads', 'reads 0')
    s.ask('lt %')
    s.line('reads', 'reads 0')


@crowd_case
def reads_of_a_hundred_thousand_keys(s):
    """In a tree of 100,000 random keys a read of a key reads one page of each of five levels. A count of all pairs reads each leaf
    once and one way down; the pairs of a range read no more than their leaves and one way down."""
    s.line('load 100000 24 559999', 'yes')
    before = s.store.reads
    levels, leaves = len(s.shell.levels()), len(s.shell.levels()[-1])
    s.store.reads = before
    expect(levels == 5, levels)
    keys = [word(key) for key in sorted(some_keys(100000))]
    s.ask('reads')
    for place in (0, 1, 31_415, 50_000, 99_999):
        s.line(f'read {keys[place]}', f'value {keys[place]}')
        s.line('reads', f'reads {levels}')
    s.line('len', 'number 100000')
    s.line('reads', f'reads {leaves + levels - 1}')
    s.line(f'keys [{keys[70_000]} ({keys[70_100]}', *keys_of(*keys[70_000:70_100]))
    expect(int(s.ask('reads')[0].split()[1]) <= 100 // 8 + 2 + levels, 'a range of a hundred pairs')


@crowd_case
def reads_to_the_left_in_a_tree_of_many_pages(s):
    """A tree of 20,000 random keys has more than a thousand pages. To read the last pair, the pair below a key, or a hundred pairs
    from the end looks at few of them, and is not refused for their number."""
    s.line('load 20000 30 200000', 'yes')
    keys = [word(key) for key in sorted(some_keys(20000))]
    expect(int(s.ask('pages')[-2].split()[1]) > 1000, 'more than a thousand leaves')
    s.line('len', 'number 20000')
    s.line('last', f'pair {keys[-1]} {keys[-1]}')
    s.line('first', f'pair {keys[0]} {keys[0]}')
    for place in (1, 9_999, 19_999):
        s.line(f'lt {keys[place]}', f'pair {keys[place - 1]} {keys[place - 1]}')
        s.line(f'gt {keys[place - 1]}', f'pair {keys[place]} {keys[place]}')
    s.line(f'range-back [{keys[-100]} ..', *at(*keys[:-101:-1]))
    s.line(f'keys-back [{keys[9_950]} ({keys[10_000]}', *keys_of(*keys[9_999:9_949:-1]))


@case
def reads_beside_an_abandoned_merge(s):
    """Eleven pairs in two leaves, the second of which has three. A removal of the last begins to merge them and is given up after 0
    to 9 steps; reads find every pair once."""
    for steps in range(10):
        s.new()
        s.insert(*(key(n) for n in range(18)))
        s.remove(*(key(n) for n in range(17, 10, -1)))
        s.begin(1, f'remove {key(10)}')
        for _ in range(steps):
            s.ask('step 1')
        s.ask('abandon 1')
        there = list(range(11 if [f'pair __sled__default {key(10)} {key(10)}'] == [p for p in s.shell.run('dump') if p.endswith(f' {key(10)}')] else 10))
        s.line('len', f'number {len(there)}')
        s.line(f'read {key(9)}', f'value {key(9)}')
        s.line(f'lt {key(8)}', f'pair {key(7)} {key(7)}')
        s.line(f'gt {key(7)}', f'pair {key(8)} {key(8)}')
        s.line('last', f'pair {key(there[-1])} {key(there[-1])}')
        s.line('range .. ..', *at(*map(key, there)))
        s.line('range-back .. ..', *at(*map(key, reversed(there))))
        s.ask('range-ends .. ..')


@case
def a_page_that_cannot_be_read_ends_a_range(s):
    """Eighteen pairs in two leaves, the second of which cannot be read: pairs of the first come, then the fault, and then nothing. Asked
    once more, an iterator that was refused has ended."""
    s.insert(*(key(n) for n in range(18)))
    s.line('reopen unreadable 2', 'opened')
    s.line(f'read {key(3)}', f'value {key(3)}')
    s.line(f'read {key(9)}', 'refused E4')
    s.line(f'has {key(9)}', 'refused E4')
    s.line('range .. ..', *(f'pair {key(n)} {key(n)}' for n in range(8)), 'refused E4', 'end 8')
    s.line('keys .. ..', *(f'key {key(n)}' for n in range(8)), 'refused E4', 'end 8')
    s.line('range-back .. ..', 'refused E4', 'end 0')
    s.line('values-back .. ..', 'refused E4', 'end 0')
    s.line('range-ends .. ..', f'pair {key(0)} {key(0)}', 'refused E4', 'end 1')
    s.line('len', 'refused E4')
    s.line('first', f'pair {key(0)} {key(0)}')
    s.line('last', 'refused E4')
    s.line(f'lt {key(8)}', f'pair {key(7)} {key(7)}')


@case
def reads_of_a_database_that_was_not_opened(s):
    """Every read of a database whose opening was refused is refused, as any call is; and lines of reads that cannot be read."""
    s.ask('new refuse 1')
    for line in ('has a', 'read a', 'lt a', 'gt a', 'first', 'last', 'len', 'empty', 'range .. ..', 'keys .. ..', 'values-back [a (b'):
        s.line(line, 'refused E8')
    s.line('reopen', 'opened')
    for line in ('range', 'range ..', 'range a b', 'range [- ..', 'range [a', 'range [% ..x', 'has', 'has -', 'lt a b', 'first a', 'range-ends ..'):
        printed = s.ask(line)
        expect(len(printed) == 1 and printed[0].startswith('bad line'), line, printed)
    s.line('range [%2d ..', 'end 0')
