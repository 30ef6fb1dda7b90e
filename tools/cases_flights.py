"""Calls in flight beside one another, and pages that split and merge step by step."""
import re
from script import GREATEST, case, crowd_case, expect, key, pair


def below(end, first=0):
    """The keys of one byte from the first on, below the end."""
    return [key(byte) for byte in range(first, end)]


# Slots.

STEPS = '''
    begin insert a 1    slot 1
    begin insert a 2    slot 2
    step 1              moved
    step 2              moved
    step 2              value -
    step 1              moved
    flush               flushed 1
    step 1              moved
    step 1              value 2
    step 1              no slot
    begin get a         slot 3
    begin get a         slot 4
    abandon 3           abandoned
    abandon 3           no slot
    step 3              no slot
    step 5              no slot
    step 4              value 1
    step 4              no slot
'''


@crowd_case
def a_list_of_steps_comes_out_as_listed_and_survives(s):
    """A list of steps comes out as each of them does; a crash keeps what was flushed, and of the rest as many actions as it is
    told."""
    steps = [re.split('  +', row.strip()) for row in STEPS.strip().split('\n')]
    for keep, value in ((0, '2'), (1, '1'), (9, '1')):
        if keep:
            s.new()
        s.line('run ' + ', '.join(step for step, _ in steps), *(printed for _, printed in steps))
        s.line(f'crash {keep}', 'recovered')
        s.line('get a', f'value {value}')


BATCHES = '''
    begin get %         slot 1
    batch % e a 1 z 9   done
    step 1              value e
    begin remove %      slot 2
    step 2              moved
    batch % f           done
    step 2              moved
    step 2              moved
    step 2              value f
    batch               done
    batch z -           done
    batch % % b -       done
    flush               flushed 15
    batch a 2 % - a 3   done
'''


@crowd_case
def a_list_of_steps_has_batches_with_the_empty_key(s):
    """A list of steps has batches with the empty key, which calls in flight find; one that changes nothing is none for the store."""
    steps = [re.split('  +', row.strip()) for row in BATCHES.strip().split('\n')]
    s.line('run ' + ', '.join(step for step, _ in steps), *(printed for _, printed in steps))
    s.line('dump', pair('a', 3), 'end 1')
    s.note('A crash keeps all of the last one or nothing: its begin, two writes and its end are four actions.')
    s.line('crash 3', 'recovered')
    s.line('dump', pair('%'), pair('a', 1), 'end 2')
    s.line('run batch % -, batch a - % 2', 'done', 'done')
    s.line('crash 3', 'recovered')
    s.line('dump', pair('a', 1), 'end 1')


@case
def slots_are_counted_by_the_lines_that_began_one(s):
    """A slot is given once; calls without `begin` count none; after each opening slots are counted from 1 again."""
    s.rows('''
        begin get a         slot 1
        get a               value -
        begin insert a 1    slot 2
        finish 2            old -
        finish 1            value 1
        finish 1            no slot
        crash 0             recovered
        step 1              no slot
        begin get a         slot 1
        finish 1            value -
    ''')
    s.new()
    s.rows('''
        begin insert a 1                slot 1
        abandon 1                       abandoned
        abandon 1                       no slot
        step 0                          no slot
        finish 2                        no slot
        abandon 18446744073709551615    no slot
        get a                           value -
        dump                            end 0
    ''')
    s.note('One that was given up, one that was decided, and the next one.')
    s.new()
    s.rows('''
        begin insert a 1    slot 1
        abandon 1           abandoned
        step 1              no slot
        turns 1             no slot
        begin get a         slot 2
        step 2              value -
        begin get a         slot 3
        turns 3             number 0
        dump                end 0
    ''')
    s.note('Every opening ends the calls in flight.')
    for line, printed in [('reopen', 'opened'), ('recover', 'opened'), ('crash 9', 'recovered'), ('new', 'opened')]:
        s.new()
        s.rows('''
            begin insert a 1    slot 1
            begin insert b 2    slot 2
            step 2              moved
        ''')
        s.line(line, printed)
        s.rows('''
            step 1              no slot
            finish 2            no slot
            abandon 2           no slot
            turns 2             no slot
            get a               value -
            get b               value -
            begin insert a 1    slot 1
            turns 1             number 0
            step 1              moved
            turns 1             number 1
            abandon 1           abandoned
        ''')
    s.rows('''
        begin get a         slot 2
        pages               level 1 0
                            end 1
        finish 2            value -
        begin get a         slot 3
        finish 3            value -
    ''')


@case
def steps_come_out_as_listed(s):
    """Two inserts at one key and a few gets, step by step."""
    steps = [
        ('begin insert a 1', 'slot 1'),
        ('begin insert a 2', 'slot 2'),
        ('step 1', 'moved'),
        ('step 2', 'moved'),
        ('step 2', 'old -'),
        ('step 1', 'moved'),
        ('flush', 'flushed 1'),
        ('step 1', 'moved'),
        ('step 1', 'old 2'),
        ('step 1', 'no slot'),
        ('begin get a', 'slot 3'),
        ('begin get b', 'slot 4'),
        ('abandon 3', 'abandoned'),
        ('abandon 3', 'no slot'),
        ('step 3', 'no slot'),
        ('step 4', 'value -'),
        ('step 5', 'no slot'),
        ('begin get a', 'slot 5'),
        ('step 5', 'value 1'),
    ]
    for line, wanted in steps:
        s.line(line, wanted)
    s.line('dump', pair('a', 1), 'end 1')
    s.note('What was decided before the flush survives every crash, and what came then one that keeps its action.')
    for keep, left in [(0, 2), (1, 1), (9, 1)]:
        s.new()
        for line, wanted in steps:
            s.line(line, wanted)
        s.line(f'crash {keep}', 'recovered')
        s.line('dump', pair('a', left), 'end 1')


@case
def two_inserts_race(s):
    """Two inserts at one key: the one whose page has changed reads again."""
    s.rows('''
        insert a 1          old -
        begin insert a 2    slot 1
        step 1              moved
        get a               value 1
        step 1              old 1
        get a               value 2
    ''')
    s.note('With the turns of both.')
    s.new()
    s.rows('''
        begin insert a 1    slot 1
        begin insert a 2    slot 2
        turns 1             number 0
        turns 2             number 0
    ''')
    for slot, wanted, one, two in [
        (1, 'moved', 'number 1', 'number 0'),
        (2, 'moved', 'number 1', 'number 1'),
        (1, 'old -', 'no slot', 'number 1'),
        (2, 'moved', 'no slot', 'number 2'),
        (2, 'moved', 'no slot', 'number 3'),
        (2, 'old 1', 'no slot', 'no slot'),
        (2, 'no slot', 'no slot', 'no slot'),
    ]:
        s.line(f'step {slot}', wanted)
        s.line('turns 1', one)
        s.line('turns 2', two)
    s.line('get a', 'value 2')
    s.note('With a get, which stands before the leaf until it is stepped, and one that is given up.')
    s.new()
    s.rows('''
        begin insert a 1    slot 1
        begin insert a 2    slot 2
        begin get a         slot 3
        step 1              moved
        step 2              moved
        step 1              old -
        step 2              moved
        step 2              moved
        step 2              old 1
        step 2              no slot
        step 1              no slot
        step 3              value 2
        begin get a         slot 4
        abandon 4           abandoned
        abandon 4           no slot
    ''')


@case
def two_inserts_race_in_every_order(s):
    """Two inserts at one key take six steps in each of 64 orders, from an empty store and from what the race before left.
    Whichever is decided last has its value there then."""
    wins, stands = 0, '-'
    for fresh in True, False:
        s.new()
        for number in range(64):
            s.note(f'order {number:06b}, from the last digit on')
            if fresh:
                s.new()
                stands = '-'
            else:
                s.line('reopen', 'opened')
            s.begin(1, 'insert a 1')
            s.begin(2, 'insert a 2')
            for step in range(6):
                slot = 2 if number >> step & 1 else 1
                if s.ask(f'step {slot}')[0].startswith('old'):
                    stands = slot
            wins += fresh and stands == 2
            s.line('get a', f'value {stands}')
    expect(0 < wins < 64, 'one insert wins every race')


@case
def a_removal_and_a_swap_go_step_by_step(s):
    """Both have read the value: the one that links second reads anew, first where the other links and then where it was."""
    s.rows('''
        insert a 1          old -
        begin remove a      slot 1
        begin cas a 1 2     slot 2
        step 1              moved
        step 2              moved
        step 1              old 1
        step 2              moved
        step 2              conflict - 2
        dump                end 0
        insert a 1          old -
        begin remove a      slot 3
        begin cas a 1 2     slot 4
        step 3              moved
        step 4              moved
        step 4              swapped
        step 3              moved
        step 3              moved
        step 3              old 2
        dump                end 0
    ''')
    s.new()
    s.rows('''
        insert a 1          old -
        begin remove a      slot 1
        begin cas a 1 2     slot 2
        step 1              moved
        step 2              moved
        step 2              swapped
        step 1              moved
        step 1              moved
        step 1              old 2
        begin cas a 2 3     slot 3
        finish 3            conflict - 3
        begin remove a      slot 4
        finish 4            old -
    ''')


@case
def many_calls_are_in_flight_at_once(s):
    """A thousand inserts of one pair: the first is decided, and then each reads again and finds its value there."""
    every = range(1, 1001)
    for call in every:
        s.begin(call, 'insert a 1')
    for call in every:
        s.moves(call)
    s.line('step 1', 'old -')
    for call in every[1:]:
        s.moves(call)
    for call in every[1:]:
        s.line(f'step {call}', 'old 1')
    for call in every:
        s.line(f'step {call}', 'no slot')
    s.did(1)


@case
def calls_in_flight_end_in_any_order(s):
    """Eight and a thousand calls in flight, each at a key of its own, end oldest first, newest first, and every other one
    first; what is left of the others goes on."""
    def ended(count, order):
        every = range(1, count + 1)
        s.new()
        for call in every:
            s.begin(call, f'insert {call:04} {call}')
            s.moves(call)
        for call in order:
            s.line(f'finish {call}', 'old -')
        if order[0] != 1:
            s.line('dump', *(pair(f'{call:04}', call) for call in every), f'end {count}')
        s.line(f'finish {count}', 'no slot')
        s.begin(count + 1, 'get 0001')
        s.line(f'finish {count + 1}', 'value 1')

    for order in range(1, 9), range(8, 0, -1), (2, 4, 6, 8, 1, 3, 5, 7), range(1, 1001), range(1000, 0, -1):
        ended(len(order), order)
    s.note('Given up oldest first and newest first.')
    for order in range(1, 9), range(8, 0, -1):
        s.new()
        for call in range(1, 9):
            s.begin(call, f'insert {call} {call}')
            s.moves(call)
        for call in order:
            s.line(f'abandon {call}', 'abandoned')
            s.line(f'turns {call}', 'no slot')
        s.did(0)
        s.line('dump', 'end 0')
        s.begin(9, 'get 1')
        s.line('finish 9', 'value -')


# Splits: a page should split at its eighteenth pair.

def seventeen(s):
    """Seventeen pairs in one leaf, of which all was flushed."""
    s.new()
    s.insert(*below(17))
    s.did(17)


@case
def the_insert_of_the_eighteenth_pair_goes_on_seven_times(s):
    """It reads, allocates the right half, replaces the page by the left half, allocates the new root, sets it, and reads the
    root and the leaf; then it inserts."""
    seventeen(s)
    s.begin(1, 'insert %11 %11')
    s.goes_on(1, 0, 1, 1, 1, 1, 0, 0)
    s.line('turns 1', 'number 7')
    s.holds(*below(17))
    s.line('step 1', 'old -')
    s.did(1)
    s.holds(*below(18))
    s.pages((1, 2), (2, 10))


@case
def a_crash_keeps_the_eighteenth_pair_with_the_fifth_action(s):
    """A crash at each place of the insert that splits a leaf; what it leaves is opened, read, split anew and grown."""
    for keep, left in [(0, 17), (1, 17), (2, 17), (3, 17), (4, 17), (5, 18), (6, 18)]:
        seventeen(s)
        s.begin(1, 'insert %11 %11')
        s.moves(1, 7)
        s.line('step 1', 'old -')
        s.line(f'crash {keep}', 'recovered')
        s.holds(*below(left))
        s.pages(*([(1, 17)] if keep < 2 else [(2, 9)] if keep < 4 else [(1, 2), (2, 9 + keep // 5)]))
        s.line('insert %11 %11', 'old -' if left == 17 else 'old %11')
        s.insert(*below(30, 18))
        s.holds(*below(30))
        s.pages((1, 3), (3, 14))


@case
def a_split_that_was_given_up_is_left_to_others(s):
    """The split is given up when the leaf is its left half: the right half is reached by way of it alone."""
    seventeen(s)
    s.begin(1, 'insert %11 %11')
    s.goes_on(1, 0, 1, 1)
    s.line('abandon 1', 'abandoned')
    s.holds(*below(17))
    s.begin(2, 'get %03')
    s.line('step 2', 'value %03')
    s.begin(3, 'remove %10')
    s.note('It reads, allocates the new root, sets it, and reads the root and the leaf.')
    s.goes_on(3, 0, 1, 1, 0, 0)
    s.line('step 3', 'old %10')
    s.did(1)
    s.holds(*below(16))
    s.note('Given up after each of its steps; then all is as before, and the insert can be made again.')
    for turns in range(8):
        seventeen(s)
        s.begin(1, 'insert %11 %11')
        s.moves(1, turns)
        s.line('abandon 1', 'abandoned')
        s.did([0, 0, 1, 2, 3, 4, 4, 4][turns])
        s.holds(*below(17))
        s.insert('%11')
        s.holds(*below(18))
        s.pages((1, 2), (2, 10))


@case
def two_inserts_split_one_page(s):
    """Two inserts split one page, step by step: each of the two frees the page that it made in vain."""
    seventeen(s)
    s.begin(1, 'insert %11 %11')
    s.begin(2, 'insert %12 %12')
    s.goes_on(1, 0, 1)
    s.goes_on(2, 0, 1, 1)
    s.note('The page that it saw has changed, so it frees its right half. Then it reads, allocates the new root, sets it, and'
           '\nreads the root and the leaf.')
    s.goes_on(1, 0, 1, 0, 1, 1, 0, 0)
    s.line('step 1', 'old -')
    s.did(1)
    s.holds(*below(18))
    s.note('It allocates a new root, finds that there is another, frees its own, and reads the root and the leaf.')
    s.goes_on(2, 1, 0, 1, 0, 0)
    s.line('step 2', 'old -')
    s.did(1)
    s.holds(*below(19))
    s.reaches('split is stale', 'hoist is stale')


# Merges.

def eight_and_three(s):
    """A leaf of eight pairs and one of three, of which all was flushed: eighteen inserts, the last of which makes four pages
    of one, and seven removals."""
    s.new()
    s.insert(*below(18))
    s.remove(*below(18, 11)[::-1])
    s.did(18 + 4 + 7)


@case
def a_removal_that_merges_goes_on_eleven_times(s):
    """It reads the root and the leaf, links the intention, reads the child, links the cap, reads the page before it, which
    receives, links the confirmation, frees the child, and reads the root and the leaf; then it removes."""
    eight_and_three(s)
    s.begin(1, 'remove %0a')
    s.goes_on(1, 0, 0, 1, 0, 1, 0, 1, 1, 1, 0, 0)
    s.line('turns 1', 'number 11')
    s.holds(*below(11))
    s.line('step 1', 'old %0a')
    s.did(1)
    s.holds(*below(10))
    s.pages((1, 1), (1, 10))


@case
def a_crash_keeps_the_removal_with_the_sixth_action(s):
    """A crash at each place of the removal that merges two leaves; what it leaves is opened, read, and merged to the end."""
    for keep in range(8):
        left = 11 if keep < 6 else 10
        eight_and_three(s)
        s.begin(1, 'remove %0a')
        s.moves(1, 11)
        s.line('step 1', 'old %0a')
        s.line(f'crash {keep}', 'recovered')
        s.holds(*below(left))
        s.line('remove %0a', f'old {"%0a" if left == 11 else "-"}')
        s.holds(*below(10))
        s.pages((1, 1), (1, 10))


@case
def a_removal_that_was_given_up_anywhere_can_be_made_again(s):
    """The removal is given up after each of its steps; a crash that keeps all leaves as much, and another call ends the
    merge."""
    for crashes in False, True:
        for turns in range(12):
            eight_and_three(s)
            s.begin(1, 'remove %0a')
            s.moves(1, turns)
            s.line('abandon 1', 'abandoned')
            s.holds(*below(11))
            if crashes:
                s.line(f'crash {GREATEST}', 'recovered')
                s.holds(*below(11))
            s.remove('%0a')
            s.holds(*below(10))
            s.pages((1, 1), (1, 10))
    s.note('A get ends it as well.')
    for turns in range(12):
        eight_and_three(s)
        s.begin(1, 'remove %0a')
        s.moves(1, turns)
        s.line('abandon 1', 'abandoned')
        s.line('get %0a', 'value %0a')
        s.holds(*below(11))
        s.pages((1, 1), (1, 11))


BEHIND_SEVEN = [f'%07%{byte:02x}' for byte in range(9)]


def seventeen_and_three(s):
    """A leaf of seventeen pairs and one of three, of which all was flushed."""
    eight_and_three(s)
    s.insert(*BEHIND_SEVEN)
    s.did(9)


def both(end):
    """The keys of both leaves, without those of one byte from this one on."""
    return below(8) + BEHIND_SEVEN + below(end, 8)


@case
def a_page_that_should_split_splits_before_it_receives(s):
    """The page before the merging child is too long, so that it splits first; the pointer that the split left out is posted
    by the way."""
    seventeen_and_three(s)
    s.holds(*both(11))
    s.begin(1, 'remove %0a')
    s.note('It reads the root and the leaf, links the intention, reads the child, links the cap, and reads the page before it.'
           '\nThat page splits: it allocates and replaces. Then it reads the root, the child, and the page before it and the next,'
           '\nwhich receives, links the confirmation, and frees the child. Then it reads the root and two leaves, posts the pointer'
           '\nthat the split left out, and reads the root and the leaf.')
    s.goes_on(1, 0, 0, 1, 0, 1, 0, 1, 1, 0, 0, 0)
    s.goes_on(1, 0, 1, 1, 1, 0, 0, 0, 1, 0, 0)
    s.line('turns 1', 'number 21')
    s.holds(*both(11))
    s.line('step 1', 'old %0a')
    s.did(1)
    s.holds(*both(10))
    s.pages((1, 2), (2, 11))
    s.reaches('split for a merge')


@case
def a_crash_keeps_the_removal_with_the_ninth_action(s):
    """A crash at each place of the removal that splits the page before the merging child; what it leaves is opened, read,
    and ended."""
    for keep in range(11):
        left = 11 if keep < 9 else 10
        seventeen_and_three(s)
        s.begin(1, 'remove %0a')
        s.moves(1, 21)
        s.line('step 1', 'old %0a')
        s.line(f'crash {keep}', 'recovered')
        s.holds(*both(left))
        s.line('remove %0a', f'old {"%0a" if left == 11 else "-"}')
        s.holds(*both(10))
    s.note('Given up after each of its steps; a get of a key in each page, and all is as it should be.')
    for turns in range(22):
        seventeen_and_three(s)
        s.begin(1, 'remove %0a')
        s.moves(1, turns)
        s.line('abandon 1', 'abandoned')
        s.holds(*both(11))
        for k in '%0a', '%07%08', '%00':
            s.line(f'get {k}', f'value {k}')
        s.holds(*both(11))


# A crowd, step by step.

def mixed(number):
    """The next number of a sequence that looks random."""
    for shift in 13, -7, 17:
        number ^= (number << shift if shift > 0 else number >> -shift) % 2**64
    return number


@case
def eight_calls_step_by_step(s):
    """Eight calls in flight over sixty keys, in an order that looks random: every step, every flush, and every page is as the
    rules have it. The tree grows and shrinks in turn; now and then a call is given up, the pages are counted, or a crash keeps
    some of the actions."""
    number = 88172645463325252
    for life in range(24):
        slots = []
        for _ in range(90):
            number = mixed(number)
            kind, k = number >> 40 & 7, f'{(number >> 8) % 60:02}'
            grows = 6 if life % 8 < 4 else 1
            if len(slots) < 8:
                call = f'insert {k} {number >> 24 & 3}' if kind < grows else f'get {k}' if kind == 7 else f'remove {k}'
                slots.append(s.shell.begun + 1)
                s.begin(slots[-1], call)
                continue
            at = number % 8
            if number >> 50 & 31 == 0:
                s.line(f'abandon {slots.pop(at)}', 'abandoned')
            elif number >> 50 & 31 == 1:
                s.ask('flush')
            elif s.ask(f'step {slots[at]}') != ['moved']:
                slots.pop(at)
        s.ask('dump')
        if life % 3 == 2:
            s.ask('pages')
        else:
            s.ask(f'crash {number % 40}')
