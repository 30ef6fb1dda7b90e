"""Sizes and shapes that no other case reaches: long words, many trees and subscribers, leaves without a pair, merges of large indexes."""
from cases_reads import at
from script import case, crowd_case, expect


def numbered(count, digits=3):
    return [f'{n:0{digits}}' for n in range(count)]


def entries(s, level):
    """How many entries the pages of a level have; what is looked at so is not counted as read."""
    before = s.store.reads
    counts = [len(node.entries) for node in s.shell.levels(True)[level]]
    s.store.reads = before
    return counts


def remove(s, *keys):
    for k in keys:
        s.line(f'remove {k}', f'old {k}')


# Reads.

@case
def a_read_goes_by_the_page_that_received(s):
    """A merge is given up where the page before has the pairs and the index still points to the merging child. A call that went by
    before the pointer was posted then changes a key of that page, and a read finds the new value and not the child's."""
    letters = 'abcdefghijklmnopqrstuvwxy'
    for k in letters:
        s.line(f'insert {k} 1', 'old -')
    s.begin(1, 'insert z 1')
    s.moves(1, 4)
    s.line('abandon 1', 'abandoned')
    s.begin(2, 'insert v new')
    s.moves(2)
    s.line('insert q 2', 'old 1')
    for k in 'rstuwx':
        s.line(f'remove {k}', 'old 1')
    s.begin(3, 'remove y')
    s.moves(3, 7)
    s.line('abandon 3', 'abandoned')
    s.moves(2)
    s.line('step 2', 'old 1')
    s.line('read v', 'value new')
    s.line('range [q ..', 'pair q 2', 'pair v new', 'pair y 1', 'end 3')
    s.line('last', 'pair y 1')
    drawn = s.ask('draw')
    expect(any('merging-child 4' in line for line in drawn), drawn)


@case
def a_leaf_counts_all_its_pairs(s):
    """A leaf of seventeen pairs, the most that a leaf has before it is split, and one of thirty-three, the most of all."""
    s.insert(*'abcdefghijklmnopq')
    s.line('len', 'number 17')
    s.pages((1, 17))


@case
def an_empty_leaf_among_others_is_passed_over(s):
    """The first leaf of the second index loses all its pairs; it does not merge, since the first pointer of an index leads to it. A
    count goes on behind it, and reads pass it over from both sides."""
    keys = numbered(150)
    s.insert(*keys)
    expect(len(s.shell.levels()) == 3, 'there are three levels')
    second = [node for node in s.shell.levels(True)[1]][1]
    lo = int(second.lo)
    remove(s, *keys[lo:lo + 8])
    expect(entries(s, 2).count(0) == 1, 'one leaf is empty', entries(s, 2))
    left = keys[:lo] + keys[lo + 8:]
    s.line('len', 'number 142')
    s.line(f'lt {keys[lo + 8]}', f'pair {keys[lo - 1]} {keys[lo - 1]}')
    s.line(f'gt {keys[lo - 1]}', f'pair {keys[lo + 8]} {keys[lo + 8]}')
    s.line(f'range [{keys[lo]} ..', *at(*left[lo:]))
    s.line(f'range-back .. [{keys[lo + 8]}', *at(*left[:lo + 1][::-1]))
    s.holds(*left)


@case
def two_empty_leaves_beside_each_other_are_passed_over(s):
    """In a tree of four levels the first index below the second pointer of the root loses all its leaves but the first, which has no
    pair, and so has the first leaf of the index behind it. What is sought to the left of both is found in the leaf before them."""
    count = 1200
    keys = numbered(count, 4)
    s.insert(*keys)
    levels = s.shell.levels(True)
    expect(len(levels) == 4, 'there are four levels', len(levels))
    lo = int(levels[1][1].lo)
    first, second = [node for node in levels[2] if node.lo.decode() >= keys[lo]][:2]
    expect(first.lo.decode() == keys[lo], 'the index begins there')
    hi = int(second.lo)
    s.note('From the last one down, so that each leaf that is short merges into the one before it.')
    remove(s, *keys[lo:hi][::-1])
    remove(s, *keys[hi:hi + 8][::-1])
    counts = entries(s, 3)
    empty = [place for place, number in enumerate(counts) if number == 0]
    expect(len(empty) == 2 and empty[1] == empty[0] + 1, 'two empty leaves beside each other', counts)
    k, before = keys[hi + 8], keys[lo - 1]
    s.line(f'lt {k}', f'pair {before} {before}')
    s.line(f'lt {keys[hi]}', f'pair {before} {before}')
    s.line(f'gt {before}', f'pair {k} {k}')
    s.line(f'range-back [{keys[lo - 2]} ({k}', *at(keys[lo - 1], keys[lo - 2]))
    s.line(f'range-ends [{keys[lo - 2]} [{k}', *at(keys[lo - 2], k, keys[lo - 1]))
    s.line('len', f'number {count - (hi - lo) - 8}')
    s.note('Then all that stands behind them goes too, and the last pair is the one before them.')
    remove(s, *keys[hi + 8:][::-1])
    s.line('last', f'pair {before} {before}')
    s.line('pop-max', f'pair {before} {before}')
    s.line('len', f'number {lo - 1}')


@case
def long_keys_and_bounds_are_read(s):
    """A key of 300 bytes, keys of 57 and bounds of 23: direct reads, iterators and excluded bounds."""
    long = 'k' * 300
    s.line(f'insert {long} 1', 'old -')
    s.line(f'read {long}', 'value 1')
    s.line(f'has {long}', 'yes')
    s.line(f'insert {"k" * 57} 2', 'old -')
    s.line('range .. ..', f'pair {"k" * 57} 2', f'pair {long} 1', 'end 2')
    s.line(f'range ({"k" * 23} ..', f'pair {"k" * 57} 2', f'pair {long} 1', 'end 2')
    s.line(f'range-back .. ({long}', f'pair {"k" * 57} 2', 'end 1')


# Writes.

@case
def a_clear_of_a_thousand_pairs_leaves_none(s):
    """A thousand and five pairs are cleared, and none is left."""
    s.insert(*numbered(1005, 4))
    s.line('len', 'number 1005')
    s.rows('''
        clear           done
        len             number 0
        empty           yes
        dump            end 0
    ''')


@case
def the_empty_value_is_a_value(s):
    """The empty value is no want of a value: a direct swap finds it, and an operator is shown it."""
    s.rows('''
        insert k %              old -
        owned cas k % 1         swapped
        owned cas k - 2         conflict 1 2
        insert k %              old 1
        operator keep           done
        merge k 1               value %
        owned merge k 1         value %
        owned cas k % -         swapped
        owned merge k 1         value 1
    ''')


@case
def long_words_are_written(s):
    """Direct writes at a key of 200 bytes, a merge that makes 120, a closure that makes 100, and the event of a value of 100."""
    key, value = 'k' * 200, 'v' * 60
    s.line(f'owned insert {key} 1', 'old -')
    s.line(f'owned merge {key} 1', 'refused E2')
    s.line('operator concat', 'done')
    s.line(f'owned merge {key} 1', 'value 11')
    s.line(f'owned cas {key} 11 2', 'swapped')
    s.line(f'owned remove {key}', 'old 2')
    s.line(f'insert k {value}', 'old -')
    s.line(f'merge k {value}', f'value {value}{value}')
    s.line(f'update k set {"w" * 100}', f'value {"w" * 100}')
    s.line(f'fetch k append {value}', f'value {"w" * 100}')
    s.line('get k', f'value {"w" * 100}{value}')
    s.line('watch a', 'subscriber 1')
    s.line(f'insert a {"x" * 100}', 'old -')
    s.line('next 1', f'event insert a {"x" * 100}')


@case
def a_flush_after_a_crash_counts_what_came_since(s):
    """Seventy inserts after a crash make pages and links; a flush counts each of these actions."""
    s.line('insert a 1', 'old -')
    s.line('crash 1', 'recovered')
    for n in range(70):
        s.line(f'insert k{n:02} 1', 'old -')
    actions = len(s.store.recent)
    expect(actions == 92, actions)
    s.line('flush', 'flushed 92')


@case
def a_large_index_receives(s):
    """An index of fifteen pointers receives those of one of three: it has eighteen then, and is split by whoever comes next."""
    keys = numbered(150)
    s.insert(*keys)

    def indexes():
        return s.shell.levels(True)[1]

    expect(len(indexes()) == 2, 'there are two indexes')
    first, second = indexes()
    s.note('Keys between those of the first index split its leaves.')
    for k in (k + letter for k in keys[:int(second.lo)] for letter in 'ab'):
        if len(indexes()[0].entries) == 15:
            break
        s.insert(k)
    expect(len(indexes()[0].entries) == 15, 'fifteen pointers', len(indexes()[0].entries))
    s.note('Removals merge the leaves of the second, until it has three and merges itself.')
    most = 0
    for slot, k in enumerate(keys[::-1], 1):
        s.begin(slot, f'remove {k}')
        while s.ask(f'step {slot}') == ['moved']:
            most = max(most, *(len(node.entries) for node in indexes()))
        expect(s.wanted[-1] == f'old {k}', s.wanted[-1])
        if most > 17:
            break
    expect(most == 18, 'an index of eighteen pointers', most)
    s.line(f'gt {keys[-slot - 2]}', f'pair {keys[-slot - 1]} {keys[-slot - 1]}')
    s.line('len', f'number {sum(entries(s, -1))}')
    s.ask('draw')
    s.ask('dump')


@case
def a_tree_of_three_levels_is_dropped(s):
    """A tree of three hundred keys is dropped with all its pages."""
    s.line('tree t', 'tree t')
    for k in numbered(300):
        s.line(f'insert k{k} 1', 'old -')
    expect(len(s.ask('pages')) == 4, 'there are three levels')
    s.line('drop t', 'yes')
    s.line('names', 'name __sled__default', 'end 1')


# Subscribers, trees and lists of steps.

@case
def a_number_of_a_subscriber_is_not_given_again(s):
    """The number of a subscriber that was given up is not that of the next one."""
    s.rows('''
        watch a             subscriber 1
        unwatch 1           done
        watch b             subscriber 2
        insert b 1          old -
        next 1              event -
        next 2              event insert b 1
    ''')


@case
def sixteen_subscribers_are_told(s):
    """Sixteen subscribers of one prefix are each told of an insert, of a long value too."""
    value = 'v' * 100
    for n in range(1, 17):
        s.line('watch a', f'subscriber {n}')
    s.line(f'insert a {value}', 'old -')
    for n in range(1, 17):
        s.line(f'next {n}', f'event insert a {value}')
        s.line(f'next {n}', 'event -')


@case
def three_trees_have_operators(s):
    """Each of three trees has an operator of its own, and one of them is given another."""
    s.rows('''
        operator concat             done
        tree t                      tree t
        operator before             done
        tree u                      tree u
        operator max                done
        merge k b                   value b
        merge k a                   value b
        tree t                      tree t
        merge k b                   value b
        merge k a                   value ab
        tree __sled__default        tree __sled__default
        merge k b                   value b
        merge k a                   value ba
        operator before             done
        merge k c                   value cba
    ''')


@crowd_case
def a_list_of_many_steps(s):
    """Forty-one flushes by one call, and a swap that finds no value and sets none."""
    s.line('run ' + ', '.join(['flush'] * 41), *['flushed 0'] * 41)
    s.line('new', 'opened')
    s.line('run begin cas a - -, step 1, step 1', 'slot 1', 'moved', 'swapped')
    s.line('dump', 'end 0')
