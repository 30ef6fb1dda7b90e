"""Values, words, and what a crash leaves of few pairs."""
from script import GREATEST, case, key, pair, word


@case
def no_lines(s):
    """Comments and empty lines print nothing."""
    s.ask('')
    s.ask('# insert a 1')
    s.ask('#')
    s.ask('#dump')
    s.ask('')


@case
def the_last_line_may_lack_its_end(s):
    """The last line of this file has no line end."""
    s.rows('''
        insert a 1      old -
        get a           value 1
    ''')
    s.end = ''


@case
def a_value_is_replaced_and_taken_out(s):
    """An insert replies the value that it replaced, a removal the value that it took out."""
    s.rows('''
        insert %01%02%03 %00    old -
        insert %01%02%03 %01    old %00
        remove %01%02%03        old %01
        remove %01%02%03        old -
        dump                    end 0
    ''')
    s.note('An equal value changes nothing.')
    s.new()
    s.rows('''
        insert a 1      old -
        insert a 1      old 1
        flush           flushed 1
    ''')
    s.note('Where there is no value nothing is taken out.')
    s.new()
    s.rows('''
        insert a 1      old -
        remove a        old 1
        remove a        old -
        get a           value -
        flush           flushed 2
    ''')
    s.note('All calls at one key.')
    s.new()
    s.rows('''
        insert yo! v1   old -
        get yo!         value v1
        cas yo! v1 v2   swapped
        dump            pair __sled__default yo! v2
                        end 1
        remove yo!      old v2
        get yo!         value -
    ''')


@case
def a_value_is_swapped_where_it_is_the_expected_one(s):
    """A swap compares the value that stands with the one that was expected; either may be none."""
    s.rows('''
        cas %01 - %0a       swapped
        cas %01 %0a %14     swapped
        cas %01 %1e %28     conflict %14 (
        cas %01 %14 -       swapped
        get %01             value -
    ''')
    s.new()
    s.rows('''
        cas a - 10      swapped
        cas a 10 20     swapped
        cas a 30 40     conflict 20 40
        get a           value 20
        cas a 20 -      swapped
        get a           value -
        cas a 20 -      conflict - -
        cas a - -       swapped
        flush           flushed 4
    ''')
    s.note('The empty string is a value, and the string of one dash too.')
    s.new()
    s.rows('''
        cas a - %       swapped
        cas a - b       conflict % b
        cas a % %2d     swapped
        cas a - %2d     conflict %2d %2d
        cas a %2d %00   swapped
        dump            pair __sled__default a %00
                        end 1
    ''')


@case
def words_and_bytes(s):
    """Empty strings, the string of one dash, and bytes that do not stand for themselves."""
    s.rows('''
        insert % %                          old -
        get %                               value %
        insert %2d --                       old -
        get %2d                             value --
        insert %00%ff%25 %20%7f%7e          old -
        dump                                pair __sled__default % %
                                            pair __sled__default %00%ff%25 %20%7f~
                                            pair __sled__default %2d --
                                            end 3
    ''')
    s.note('A longer spelling is read too, and the shortest is printed.')
    s.new()
    s.rows('''
        insert %61 %41%2d       old -
        get a                   value A-
        insert # %23            old -
        get %23                 value #
        insert ; %3b            old -
        dump                    pair __sled__default # #
                                pair __sled__default ; ;
                                pair __sled__default a A-
                                end 3
    ''')
    s.note('Each byte, in its place.')
    s.new()
    for byte in range(256):
        k = word(bytes([byte]))
        s.line(f'insert %{byte:02x} {k}', 'old -')
    s.holds(*(word(bytes([byte])) for byte in range(256)))


@case
def keys_in_a_mixed_order(s):
    """Each of the bytes 128 to 254 once, in a mixed order: 67 and 127 have no common divisor."""
    for i in range(127):
        s.insert(key(128 + i * 67 % 127))
    s.holds(*(key(byte) for byte in range(128, 255)))


@case
def long_strings(s):
    """Keys and values of 0, 22, 23, 1000 and 5000 bytes."""
    words = ['%', '%07' * 22, '%07' * 23, 'z' * 1000]
    for k in words:
        for v in words:
            s.line(f'cas {k} - {v}', 'swapped')
            s.line(f'remove {k}', f'old {v}')
    s.insert(*words)
    s.holds(*words)
    s.note('Longer ones, which are kept by a crash, replaced, swapped and found by another call in flight.')
    s.new()
    a, b = 'a' * 5000, 'b' * 5000
    s.line(f'insert {a} {b}', 'old -')
    s.line(f'insert {b} {a}', 'old -')
    s.line('crash 1', 'recovered')
    s.line('dump', pair(a, b), 'end 1')
    s.begin(1, f'insert {a} {a}')
    s.begin(2, f'cas {a} {b} c')
    s.moves(1)
    s.moves(2)
    s.line('step 1', f'old {b}')
    s.moves(2)
    s.line('step 2', f'conflict {a} c')
    s.line(f'cas {a} {a} {b}', 'swapped')
    s.line(f'get {a}', f'value {b}')
    s.note('Long keys differ in their last byte alone: a page of them splits and merges.')
    keys = ['k' * 200 + f'{i:02}' for i in range(18)]
    s.new()
    s.insert(*keys)
    s.pages((1, 2), (2, 10))
    s.holds(*keys)
    s.remove(*keys[:10:-1])
    s.remove(keys[10])
    s.pages((1, 1), (1, 10))
    s.holds(*keys[:10])


@case
def each_call_comes_to_what_its_value_says(s):
    """A call that changes nothing is decided at its first step and does no action; any other reads in one step and does its
    action in the next."""
    for call, stands, actions, answer in [
        ('get key', '-', 0, 'value -'),
        ('get key', '1', 0, 'value 1'),
        ('insert key 1', '-', 1, 'old -'),
        ('insert key 1', '2', 1, 'old 2'),
        ('insert key 1', '1', 0, 'old 1'),
        ('remove key', '-', 0, 'old -'),
        ('remove key', '%', 1, 'old %'),
        ('remove key', '1', 1, 'old 1'),
        ('cas key 1 2', '1', 1, 'swapped'),
        ('cas key 1 1', '1', 1, 'swapped'),
        ('cas key - 1', '-', 1, 'swapped'),
        ('cas key 1 -', '1', 1, 'swapped'),
        ('cas key - -', '-', 1, 'swapped'),
        ('cas key 1 2', '3', 0, 'conflict 3 2'),
        ('cas key 1 2', '-', 0, 'conflict - 2'),
        ('cas key - 2', '3', 0, 'conflict 3 2'),
        ('cas key - -', '%', 0, 'conflict % -'),
        ('cas key % -', '-', 0, 'conflict - -'),
    ]:
        s.new()
        if stands != '-':
            s.line(f'insert key {stands}', 'old -')
        s.ask('flush')
        s.begin(1, call)
        if actions:
            s.moves(1)
            s.did(0)
        s.line('step 1', answer)
        s.did(actions)
        s.line('step 1', 'no slot')
        value = {'get': stands, 'insert': '1', 'remove': '-'}.get(call.split()[0], call.split()[-1] if actions else stands)
        s.line('get key', f'value {value}')


@case
def calls_answer_and_keep_the_order(s):
    """A call, its reply, how many actions it does, and the pairs that it leaves for the next one."""
    for call, answer, actions, left in [
        ('insert a 3', 'old -', 1, 'a=3'),
        ('cas key - 1', 'swapped', 1, 'a=3 key=1'),
        ('cas key - 2', 'conflict 1 2', 0, 'a=3 key=1'),
        ('cas key 1 1', 'swapped', 1, 'a=3 key=1'),
        ('remove a', 'old 3', 1, 'key=1'),
        ('remove a', 'old -', 0, 'key=1'),
        ('cas key 1 -', 'swapped', 1, ''),
        ('cas key - -', 'swapped', 1, ''),
        ('insert b 1', 'old -', 1, 'b=1'),
        ('insert b 2', 'old 1', 1, 'b=2'),
        ('insert b 2', 'old 2', 0, 'b=2'),
        ('insert a 3', 'old -', 1, 'a=3 b=2'),
        ('insert c %', 'old -', 1, 'a=3 b=2 c=%'),
        ('get b', 'value 2', 0, 'a=3 b=2 c=%'),
        ('get d', 'value -', 0, 'a=3 b=2 c=%'),
        ('get c', 'value %', 0, 'a=3 b=2 c=%'),
    ]:
        s.line(call, answer)
        s.did(actions)
        pairs = [p.split('=') for p in left.split()]
        s.line('dump', *(pair(k, v) for k, v in pairs), f'end {len(pairs)}')


@case
def a_read_and_a_link_are_two_steps(s):
    """An insert reads in one step and links in another; a get, and an insert of the value that stands there, only read."""
    s.rows('''
        begin insert a 1    slot 1
        step 1              moved
        dump                end 0
        step 1              old -
        dump                pair __sled__default a 1
                            end 1
        begin get a         slot 2
        step 2              value 1
        begin insert a 1    slot 3
        step 3              old 1
        begin insert b 2    slot 4
        step 4              moved
        step 4              old -
        flush               flushed 2
    ''')
    s.note('A swap links an equal value, and a conflict does not.')
    s.new()
    s.rows('''
        begin cas a - -     slot 1
        step 1              moved
        step 1              swapped
        begin insert a 1    slot 2
        step 2              moved
        step 2              old -
        begin cas a 1 1     slot 3
        step 3              moved
        step 3              swapped
        flush               flushed 3
        begin cas a - 2     slot 4
        step 4              conflict 1 2
        begin cas a 2 -     slot 5
        step 5              conflict 1 -
        begin cas b 1 2     slot 6
        step 6              conflict - 2
        begin remove b      slot 7
        step 7              old -
        flush               flushed 0
        begin remove a      slot 8
        step 8              moved
        step 8              old 1
        flush               flushed 1
        dump                end 0
    ''')


@case
def opening_flushes(s):
    """Opening flushes: after it there is nothing to flush, and no crash takes anything back."""
    s.rows('''
        recovered           no
        flush               flushed 0
        insert a 1          old -
        crash 1             recovered
        recovered           yes
        flush               flushed 0
        insert b 2          old -
        reopen              opened
        recovered           yes
        flush               flushed 0
        crash 0             recovered
        dump                pair __sled__default a 1
                            pair __sled__default b 2
                            end 2
        insert c 3          old -
        recover             opened
        flush               flushed 0
        crash 0             recovered
        get c               value 3
        insert d 4          old -
        pages               level 1 4
                            end 1
        crash 0             recovered
        get d               value -
    ''')
    s.note('A count of the pages is no opening, and flushes nothing. A store is new until it was made from what an earlier one left.')
    s.new()
    s.rows('''
        recovered           no
        insert a 1          old -
        reopen              opened
        recovered           no
        get a               value 1
        crash 0             recovered
        recovered           yes
        get a               value 1
    ''')
    s.new()
    s.line('recovered', 'no')
    s.line('recover', 'opened')
    s.line('recovered', 'yes')
    s.line('dump', 'end 0')


@case
def a_crash_keeps_what_was_flushed_and_a_beginning_of_the_rest(s):
    """A crash leaves what was flushed, and as many of the actions since as it keeps, from the first on."""
    three = pair('a', 1), pair('b', 2), pair('c', 3)
    for keep, left in [(0, 1), (1, 2), (2, 3), (9, 3), (GREATEST, 3)]:
        s.new()
        s.rows('''
            flush           flushed 0
            insert a 1      old -
            flush           flushed 1
            insert b 2      old -
            insert c 3      old -
        ''')
        s.line(f'crash {keep}', 'recovered')
        s.line('dump', *three[:left], f'end {left}')
    s.note('More is kept than there is, and nothing.')
    s.new()
    s.rows('''
        insert a 1                      old -
        crash 18446744073709551615      recovered
        get a                           value 1
        insert b 2                      old -
        crash 0                         recovered
        get b                           value -
    ''')
    s.note('The second action that is kept is the insert of b: the two calls between did none.')
    s.new()
    s.rows('''
        insert a 1      old -
        insert a 1      old 1
        get a           value 1
        insert b 2      old -
        crash 2         recovered
        dump            pair __sled__default a 1
                        pair __sled__default b 2
                        end 2
    ''')
    s.note('Removals and swaps are taken back.')
    for keep, left in [(0, [pair('a', 1)]), (1, [pair('a', 2)]), (2, []), (9, [])]:
        s.new()
        s.rows('''
            insert a 1      old -
            flush           flushed 1
            cas a 1 2       swapped
            remove a        old 2
        ''')
        s.line(f'crash {keep}', 'recovered')
        s.line('dump', *left, f'end {len(left)}')


@case
def a_crash_leaves_a_map_that_was_kept(s):
    """After each line of a few a crash keeps none to three actions."""
    lines = [('insert a 1', 'old -'), ('insert b 2', 'old -'), ('insert a 3', 'old 1'), ('flush', 'flushed 3'),
             ('insert c 4', 'old -'), ('get a', 'value 3')]
    one, one_two = [pair('a', 1)], [pair('a', 1), pair('b', 2)]
    three_two, three_two_four = [pair('a', 3), pair('b', 2)], [pair('a', 3), pair('b', 2), pair('c', 4)]
    # after so many of the lines: what a crash leaves that keeps none, one, two, three actions
    kept = [
        [[], [], [], []],
        [[], one, one, one],
        [[], one, one_two, one_two],
        [[], one, one_two, three_two],
        [three_two, three_two, three_two, three_two],
        [three_two, three_two_four, three_two_four, three_two_four],
        [three_two, three_two_four, three_two_four, three_two_four],
    ]
    for count in range(7):
        for keep in range(4):
            s.new()
            for line, wanted in lines[:count]:
                s.line(line, wanted)
            s.line(f'crash {keep}', 'recovered')
            s.line('dump', *kept[count][keep], f'end {len(kept[count][keep])}')
