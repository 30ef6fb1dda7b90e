"""What only a rare history reaches: calls in flight that come upon pages which other calls have changed, in each stage of a
split, of a hoist and of a merge. Each case says which of these it reaches, and stops where the oracle has not reached it."""
from cases_flights import BEHIND_SEVEN, below, both, eight_and_three, seventeen, seventeen_and_three
from cases_levels import numbered
from oracle import value_of
from script import case, expect, word


def numbers(first, end):
    return [numbered(number) for number in range(first, end)]


def behind(number, byte):
    """The word for a key of three bytes, which comes behind that of this number."""
    return word(bytes([number // 256, number % 256, byte]))


def remove_down(s, end, count):
    """Removes so many keys from the one before this number down."""
    for number in range(end - 1, end - 1 - count, -1):
        s.remove(numbered(number))


# A child that is changed, or that gets a merging child of its own, after its merge began. Its call came to it while it was
# under a first pointer, where a page of few entries does not merge; then its parent merged into the index before it, so that
# the pointer is a first one no more.

def at_a_first_leaf(s):
    """Three levels. The second index has the leaf of 64, 65 and 66 under its first pointer. A call that inserts behind 64
    stands at that leaf, of which it is the answer. Then the index merges into the first one."""
    s.new()
    s.insert(*numbers(0, 250))
    remove_down(s, 72, 5)
    s.begin(1, f'insert {behind(64, 0)} {behind(64, 0)}')
    s.note('It reads the root, the index and the leaf.')
    s.moves(1, 3)
    remove_down(s, 128, 45)
    s.ask('flush')


@case
def a_child_that_changed_is_read_again_before_it_is_capped(s):
    """The leaf is changed once its merge has begun, so that it is read again before it is capped."""
    at_a_first_leaf(s)
    s.begin(2, f'remove {numbered(66)}')
    s.note('It reads the root, the index and the leaf, links the intention, and reads the child.')
    s.goes_on(2, 0, 0, 0, 1, 0)
    s.line('step 1', 'old -')
    s.ask('flush')
    s.note('The cap finds another version. It reads the child again, links the cap, and reads the page before it, which receives;'
           '\nit links the confirmation, frees the child, and reads the root, the index and the leaf.')
    s.goes_on(2, 0, 0, 1, 0, 1, 1, 1, 0, 0, 0)
    s.line('step 2', f'old {numbered(66)}')
    s.holds(*numbers(0, 65), behind(64, 0), *numbers(65, 66), *numbers(72, 83), *numbers(128, 250))
    s.reaches('cap is stale')


def grown(s, before, after):
    """The page before the leaf gets so many keys, and the leaf itself so many once its removal has come to it, before the
    intention. What there is then, by its keys."""
    at_a_first_leaf(s)
    s.insert(*(behind(63, byte) for byte in range(before)))
    s.begin(2, f'remove {numbered(66)}')
    s.moves(2, 3)
    s.line('step 1', 'old -')
    s.insert(*(behind(64, byte) for byte in range(1, after)))
    s.ask('flush')
    return (numbers(0, 64) + [behind(63, byte) for byte in range(before)] + numbers(64, 65)
            + [behind(64, byte) for byte in range(after)] + numbers(65, 67) + numbers(72, 83) + numbers(128, 250))


@case
def a_page_that_receives_has_thirty_three_entries_at_most(s):
    """The leaf grows to seventeen pairs before the intention, and the one before it to sixteen, so that one of thirty-three
    comes of the merge. Two splits later no page is too long."""
    keys = grown(s, 8, 14)
    s.note('It links the intention, reads the child, links the cap, and reads the page before it, which receives.')
    s.goes_on(2, 1, 0, 1, 0, 1)
    s.line('abandon 2', 'abandoned')
    s.holds(*keys)
    levels = s.ask('pages')
    expect(levels[-1] == 'end 3' and levels[2].endswith(' 33'), levels)
    for byte in range(2):
        s.line(f'get {behind(64, byte)}', f'value {behind(64, byte)}')
    s.holds(*keys)
    levels = s.ask('pages')
    expect(all(int(line.split()[2]) <= 16 for line in levels[:-1]), levels)


@case
def a_long_page_is_reached_by_next(s):
    """The page before the leaf has seventeen pairs: it splits without a pointer to its right half, which receives the leaf
    of seventeen. So a page of twenty-six is reached by `next` alone, and splits in its turn."""
    keys = grown(s, 9, 14)
    s.note('It links the intention, reads the child, links the cap, and reads the page before it, which splits: it allocates and'
           '\nreplaces. It reads the root, the index, the child, the page before it and the next, which receives.')
    s.goes_on(2, 1, 0, 1, 0, 1, 1)
    s.reaches('split for a merge')
    s.goes_on(2, 0, 0, 0, 0, 0, 1)
    s.note('It links the confirmation, frees the child, and reads the root, the index, the page before and the long one.')
    s.goes_on(2, 1, 1, 0, 0, 0, 0)
    s.reaches('long page by next')
    s.note('It splits that one, and posts the new page to the index.')
    s.goes_on(2, 1, 1, 1)
    s.holds(*keys)
    s.ask('turns 2')
    s.to_end(2, f'old {numbered(66)}')
    keys.remove(numbered(66))
    s.holds(*keys)
    s.ask('pages')


@case
def a_merging_child_that_gets_one_of_its_own_waits_for_it(s):
    """Four levels. The second index below the root has under its first pointer an index of three leaves, of which the last
    has the keys 528, 529 and 530. A call that removes 530 is to link its intention to merge that leaf. Then the index above
    merges. The index becomes a merging child, and then gets one of its own, so that the merge of that one goes on first."""
    s.new()
    s.insert(*numbers(0, 1200))
    remove_down(s, 576, 45)
    s.begin(1, f'remove {numbered(530)}')
    s.note('It reads the root, both indexes and the leaf.')
    s.moves(1, 4)
    remove_down(s, 1200, 488)
    s.ask('flush')
    s.begin(2, f'get {numbered(512)}')
    s.note('It reads the root and both indexes, and links the intention to merge the lower one. The other links its own in that.')
    s.goes_on(2, 0, 0, 0, 1)
    s.goes_on(1, 1)
    s.note('It reads the index, and then the leaf, which it caps; it reads the leaf before it, which receives, links the'
           '\nconfirmation and frees the leaf.')
    s.goes_on(2, 0, 0, 1, 0, 1, 1, 1)
    s.note('It reads the root, the index above, and the index, which it caps; it reads the index before it, which receives, links'
           '\nthe confirmation and frees the index.')
    s.goes_on(2, 0, 0, 0, 1, 0, 1, 1, 1)
    s.note('It reads the root and two indexes, and is decided by the leaf.')
    s.goes_on(2, 0, 0, 0)
    s.line('step 2', f'value {numbered(512)}')
    s.to_end(1, f'old {numbered(530)}')
    s.holds(*numbers(0, 530), *numbers(576, 712))
    s.reaches('merging child has one of its own')


# Two calls do one merge.

def two_removals(s, one, two):
    """A leaf of eight pairs and one of three. Two removals in the leaf of three go on so often."""
    eight_and_three(s)
    s.begin(1, 'remove %0a')
    s.begin(2, 'remove %09')
    s.moves(1, one)
    s.moves(2, two)


def both_end(s):
    """Both removals end, the second first."""
    s.to_end(2, 'old %09')
    s.to_end(1, 'old %0a')
    s.holds(*below(9))
    s.pages((1, 1), (1, 9))


@case
def two_calls_do_one_merge(s):
    """Two removals meet in each stage of one merge: what one has done the other finds done."""
    s.note('Both were to link the intention: the second finds another version and starts over.')
    two_removals(s, 2, 2)
    s.goes_on(1, 1)
    s.goes_on(2, 0)
    s.reaches('intention is stale')
    both_end(s)
    s.note('Both have read the child: the second cannot cap it any more, reads it again, finds it capped, and the search finds it'
           '\nreceived.')
    two_removals(s, 3, 0)
    s.note('The other reads the root, which has a merging child, and reads the child. Both are to cap it.')
    s.moves(2, 2)
    s.moves(1)
    s.goes_on(1, 2)
    s.goes_on(2, 0)
    s.reaches('cap is stale')
    s.note('It reads the child. The first reads the page before it, which receives.')
    s.goes_on(2, 0)
    s.goes_on(1, 0, 1)
    s.goes_on(2, 0)
    s.reaches('search finds the child received')
    s.note('It links the confirmation, and the first finds it linked. It frees the child.')
    s.goes_on(2, 1)
    s.goes_on(1, 0)
    s.reaches('confirmation is stale')
    s.goes_on(2, 1)
    both_end(s)
    s.note('Both have read the child. The first does the whole merge, so that the cap of the second finds no page.')
    two_removals(s, 3, 0)
    s.moves(2, 2)
    s.moves(1)
    s.goes_on(1, 2, 0, 1, 1, 1)
    s.goes_on(2, 0)
    s.reaches('cap finds no page')
    both_end(s)
    s.note('The second is to read the child, which is gone.')
    two_removals(s, 3, 1)
    s.moves(1)
    s.goes_on(1, 2, 0, 1, 1, 1)
    s.goes_on(2, 0)
    s.reaches('merging child is gone')
    both_end(s)
    s.note('Both are to receive: the second finds another version, looks at that page again, and finds the child received.')
    two_removals(s, 3, 0)
    s.moves(2)
    s.moves(1, 3)
    s.note('The first has read the page before the child. The second reads the child and that page.')
    s.moves(2, 2)
    s.goes_on(1, 3)
    s.goes_on(2, 0)
    s.reaches('receive is stale')
    s.goes_on(2, 0)
    s.reaches('search finds the child received')
    s.goes_on(1, 1)
    s.goes_on(2, 0)
    s.reaches('confirmation is stale')
    both_end(s)


@case
def a_receive_that_is_stale_goes_to_the_same_page_again(s):
    """The page before the merging child is changed once it was read. The receive finds another version, reads that page
    again, and receives there."""
    eight_and_three(s)
    s.begin(1, 'insert %07%00 x')
    s.note('It has read its leaf before the merge begins, so that it needs the index no more.')
    s.moves(1, 2)
    s.begin(2, 'remove %0a')
    s.moves(2, 6)
    s.line('step 1', 'old -')
    s.did(3)
    s.goes_on(2, 0)
    s.reaches('receive is stale')
    s.note('It reads that page again, which receives; it links the confirmation, frees the child, and reads the root and the leaf.')
    s.goes_on(2, 0, 1, 1, 1, 0, 0)
    s.line('step 2', 'old %0a')
    s.ask('dump')
    s.pages((1, 1), (1, 11))
    s.note('It has become too long when it is read again: it splits first.')
    eight_and_three(s)
    s.insert(*BEHIND_SEVEN[:8])
    s.begin(1, 'insert %07%08 %07%08')
    s.moves(1, 2)
    s.begin(2, 'remove %0a')
    s.moves(2, 6)
    s.line('step 1', 'old -')
    s.did(8 + 3)
    s.goes_on(2, 0)
    s.reaches('receive is stale')
    s.goes_on(2, 0, 1, 1)
    s.reaches('split for a merge')
    s.holds(*both(11))
    s.to_end(2, 'old %0a')
    s.holds(*both(10))


@case
def a_split_for_a_merge_that_comes_too_late(s):
    """Two calls find the page before the merging child too long: the second frees the page that it made in vain."""
    seventeen_and_three(s)
    s.begin(1, 'remove %0a')
    s.begin(2, 'remove %09')
    s.goes_on(1, 0, 0, 1, 0, 1, 0)
    s.note('The other reads the root, the child, and the page before it. Both are to split that.')
    s.goes_on(2, 0, 0, 0)
    s.goes_on(1, 1)
    s.goes_on(2, 1)
    s.goes_on(1, 1)
    s.goes_on(2, 0)
    s.reaches('split for a merge', 'split for a merge is stale')
    s.goes_on(2, 1)
    s.holds(*both(11))
    s.to_end(1, 'old %0a')
    s.to_end(2, 'old %09')
    s.holds(*both(9))
    s.pages((1, 2), (2, 10))




@case
def the_search_splits_only_a_page_that_leads_to_the_child(s):
    """The page under the pointer before the merging child is too long, but leads to another, which leads to the child: the
    search goes on to that, which receives. The long page splits when the next walk comes to it."""
    seventeen_and_three(s)
    s.note('The leaf of seventeen splits, and the call is given up before it posts the pointer. Then the left half grows to'
           '\nseventeen in its turn.')
    s.begin(1, 'get %00')
    s.goes_on(1, 0, 0, 1, 1)
    s.line('abandon 1', 'abandoned')
    more = [f'%00%{byte:02x}' for byte in range(9)]
    s.insert(*more)
    s.did(9)
    s.begin(2, 'remove %0a')
    s.note('It reads the root and the leaf, links the intention, reads the child, links the cap, and reads the long page and the'
           '\nnext, which receives.')
    s.goes_on(2, 0, 0, 1, 0, 1, 0)
    s.reaches('search passes a long page')
    s.goes_on(2, 0, 1)
    s.note('It links the confirmation, frees the child, and reads the root and the long page, on the right of which its key lies.')
    s.goes_on(2, 1, 1, 0, 0)
    s.reaches('walk passes a long page on the right of which its key lies')
    s.note('It splits that page, and posts the pointer; it reads the root and two leaves, and posts the other pointer.')
    s.goes_on(2, 1, 1, 1, 0, 0, 0, 1, 0, 0)
    s.line('step 2', 'old %0a')
    keys = ['%00', *more, *both(10)[1:]]
    s.holds(*keys)
    s.pages((1, 3), (3, 11))


def eight_three_and_three(s):
    """Leaves of eight, three and three pairs."""
    s.new()
    s.insert(*below(26))
    s.remove(*below(26, 19)[::-1], *below(16, 11)[::-1])
    s.ask('flush')


def before_is_received(s, turns):
    """A removal in the third leaf goes on so often, of which five are up to the search. Another call ends that merge, and the
    page before has three pairs again, so that it merges in its turn: a third call begins that, and has capped it."""
    eight_three_and_three(s)
    s.begin(1, 'remove %12')
    s.moves(1, turns)
    s.begin(2, 'get %10')
    s.note('The other reads the root, the child, and the page before it, which receives; it links the confirmation and frees'
           '\nthe child.')
    s.ask('flush')
    s.goes_on(2, 0, 0, 0, 1, 1, 1)
    s.remove(*below(11, 8))
    s.begin(3, 'get %10')
    s.ask('flush')
    s.note('The third reads the root and the page, links the intention, reads it as a child, and caps it.')
    s.goes_on(3, 0, 0, 1, 0, 1)


@case
def the_search_finds_a_page_that_merges_or_none(s):
    """A call is to look for the page before its merging child, or has found it, when others end that merge and begin to merge
    that page."""
    for turns, frees, reached in [
        (5, False, 'search meets a merging page'),
        (5, True, 'search meets no page'),
        (6, False, 'receive is stale'),
        (6, True, 'receive finds no page'),
    ]:
        s.note(reached)
        before_is_received(s, turns)
        if frees:
            s.goes_on(3, 0, 1, 1, 1)
        s.goes_on(1, 0)
        s.reaches(reached)
        s.to_end(1, 'old %12')
        s.to_end(2, 'value %10')
        s.to_end(3, 'value %10')
        s.holds(*below(8), '%10', '%11')
        s.pages((1, 1), (1, 10))


@case
def a_walk_finds_a_page_that_merges_or_none(s):
    """A call has read the root, and its leaf is capped, or freed, before it comes there."""
    for steps, reached in [(5, 'walk meets a merging page'), (7, 'walk meets a merging page'),
                           (9, 'walk meets no page')]:
        s.note(reached)
        eight_and_three(s)
        s.begin(1, 'get %09')
        s.moves(1)
        s.begin(2, 'remove %0a')
        s.moves(2, steps)
        s.ask('flush')
        s.goes_on(1, 0)
        s.reaches(reached)
        s.to_end(1, 'value %09')
        s.to_end(2, 'old %0a')
        s.holds(*below(10))
        s.pages((1, 1), (1, 10))


@case
def the_page_before_has_a_half_done_merge_of_its_own(s):
    """Three levels. The first index has a merging child, of which the merge was given up; then the second index merges. Its
    merge meets the other one in the search, and that goes on first."""
    meets = 'search meets a page with a merging child'
    for turns, what in [(4, 'the intention'), (6, 'the cap'), (8, 'the receive')]:
        s.note(f'Given up after {what}.')
        s.new()
        s.insert(*numbers(0, 250))
        s.remove(*numbers(11, 16)[::-1], *numbers(92, 128)[::-1])
        s.begin(1, f'get {numbered(8)}')
        s.moves(1, turns)
        s.line('abandon 1', 'abandoned')
        number, slot = 92, 1
        while s.store.notes[meets] == s.reached.get(meets, 0):
            number, slot = number - 1, slot + 1
            s.ask('flush')
            s.begin(slot, f'remove {numbered(number)}')
            while s.ask(f'step {slot}') == ['moved']:
                s.ask('flush')
        s.reaches(meets)
        s.holds(*numbers(0, 11), *numbers(16, number), *numbers(128, 250))
        s.ask('pages')


@case
def an_index_splits_before_it_receives(s):
    """Three levels. The first index has seventeen pointers when the second merges into it, so that it splits without a
    pointer to its right half; a walk posts that by the way."""
    s.new()
    s.insert(*numbers(0, 250))
    s.remove(*numbers(92, 128)[::-1])
    more = [behind(number, byte) for number in range(0, 64, 8) for byte in range(10)]
    more += [behind(0, byte) for byte in range(16, 24)]
    s.insert(*more[:-1])
    s.note('The last insert splits a leaf, and is given up when it has posted the seventeenth pointer.')
    s.ask('flush')
    s.begin(1, f'insert {more.pop()} x')
    s.goes_on(1, 0, 0, 0, 1, 1, 1)
    s.line('abandon 1', 'abandoned')
    expect(len(s.shell.levels(True)[1][0].entries) == 17, 'the first index has not seventeen pointers')
    s.remove(numbered(91))
    s.ask('flush')
    s.begin(2, f'remove {numbered(90)}')
    while s.ask('step 2') == ['moved']:
        s.ask('flush')
    s.reaches('split for a merge')
    keys = [bytes([number // 256, number % 256]) for number in [*range(90), *range(128, 250)]]
    s.holds(*map(word, sorted(keys + [value_of(k) for k in more])))
    s.ask('pages')


@case
def a_walk_goes_on_by_next_twice(s):
    """A leaf splits three times before the first pointer is posted: the way to the last leaf leads by two others, and the
    pointer goes into the page that the first of them was reached from."""
    def four_leaves():
        seventeen(s)
        for more in [f'%00%{byte:02x}' for byte in range(9)], [f'%00%00%{byte:02x}' for byte in range(9)], []:
            slot = s.shell.begun + 1
            s.begin(slot, 'get %00')
            s.ask('flush')
            s.goes_on(slot, 0, 1, 1)
            s.line(f'abandon {slot}', 'abandoned')
            s.insert(*more)
        s.ask('flush')

    keys = ['%00', '%00%00', *(f'%00%00%{byte:02x}' for byte in range(9)), *(f'%00%{byte:02x}' for byte in range(1, 9)),
            *below(17, 1)]
    four_leaves()
    s.holds(*keys)
    s.begin(4, 'get %10')
    s.note('It reads the first leaf, allocates a root over it and the next one, sets that, reads the root and three leaves, posts'
           '\nthe pointer to the last one, and reads the root and that leaf.')
    s.goes_on(4, 0, 1, 1, 0, 0, 0)
    s.reaches('next a second time, the unsplit parent kept')
    s.goes_on(4, 0, 1, 0)
    s.line('step 4', 'value %10')
    s.line('turns 4', 'no slot')
    s.begin(5, 'get %05')
    s.note('It reads the root and two leaves, posts the pointer to the second, and reads the root and that leaf.')
    s.goes_on(5, 0, 0, 0, 1, 0)
    s.line('step 5', 'value %05')
    s.holds(*keys)
    s.pages((1, 4), (4, 9))
    s.note('Two calls on that way: the second finds the root changed that it was to post into.')
    four_leaves()
    s.begin(4, 'get %10')
    s.begin(5, 'get %05')
    s.moves(4, 3)
    s.moves(4, 4)
    s.moves(5, 3)
    s.goes_on(4, 3)
    s.goes_on(5, 0)
    s.reaches('post is stale', 'next a second time, the unsplit parent kept')
    s.to_end(4, 'value %10')
    s.to_end(5, 'value %05')
    s.holds(*keys)
    s.pages((1, 4), (4, 9))


@case
def a_page_under_a_first_pointer_does_not_merge(s):
    """A page under a first pointer, and the root, stay where they have few entries and none."""
    s.insert(*below(18))
    s.remove(*below(8))
    s.pages((1, 2), (2, 10))
    s.begin(1, 'get %00')
    s.moves(1)
    s.line('step 1', 'value -')
    s.insert('%00')
    s.remove('%00')
    s.note('The other leaf merges into the one that is empty.')
    s.remove(*below(18, 8)[::-1])
    s.pages((1, 1), (1, 0))
    s.line('dump', 'end 0')
    s.insert(*below(18))
    s.pages((1, 2), (2, 10))
    s.holds(*below(18))
