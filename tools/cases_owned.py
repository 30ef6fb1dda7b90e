"""Calls of the database itself, with no machine round it."""
from cases_flights import below, seventeen
from script import case, key, pair


@case
def owned_calls_answer_as_those_of_a_machine(s):
    """An insert, a removal and a swap of the database itself answer what the map says, and write only where there is something
    to write."""
    s.rows('''
        owned insert %01%02%03 %00    old -
        owned insert %01%02%03 %01    old %00
        get %01%02%03                 value %01
        owned remove %01%02%03        old %01
        owned remove %01%02%03        old -
        owned cas %01 - %0a           swapped
        owned cas %01 %0a %14         swapped
        owned cas %01 %1e %28         conflict %14 (
        owned cas %01 %14 -           swapped
        read %01                      value -
        owned flush                   flushed 6
        dump                          end 0
    ''')
    s.note('An equal value and an absent key are not written, but by a swap.')
    s.rows('''
        owned set a 1          old -
        owned set a 1          old 1
        owned insert a 1       old 1
        owned del b            old -
        owned remove b         old -
        owned flush            flushed 1
        owned cas a 2 1        conflict 1 1
        owned cas b 2 -        conflict - -
        owned flush            flushed 0
        owned cas a 1 1        swapped
        owned cas b - -        swapped
        owned flush            flushed 2
        owned del a            old 1
        owned set % %          old -
        owned set %2d -        bad line 29: `-` is no byte string: `!` to `~` but for `%` stand for themselves, any other byte and a `-` alone as % and two lower-case hexadecimal digits
        owned set %2d %2d      old -
        owned cas %2d - %2d    conflict %2d %2d
        owned cas %2d %2d -    swapped
        owned flush            flushed 4
        flush                  flushed 0
        dump                   pair __sled__default % %
                               end 1
    ''')


@case
def slots_end_at_an_owned_call(s):
    """A call of the database itself ends every slot, and they are counted from 1 again; a line that cannot be read ends none."""
    for line, printed in (('owned insert b 1', 'old -'), ('owned set b 1', 'old 1'), ('owned remove b', 'old 1'), ('owned del b', 'old -'),
                          ('owned cas b 1 2', 'conflict - 2'), ('owned pop-min', 'pair -'), ('owned pop-max', 'pair -'), ('owned clear', 'done'), ('owned batch b -', 'done'),
                          ('owned flush', 'flushed 2')):
        s.begin(1, 'insert a 1')
        s.begin(2, 'get a')
        s.moves(1)
        s.line(line, printed)
        s.rows('''
            step 1       no slot
            finish 2     no slot
            abandon 1    no slot
            turns 2      no slot
            get a        value -
        ''')
    s.begin(1, 'insert a 1')
    for line in ('owned', 'owned get a', 'owned insert a', 'owned set a 1 2', 'owned remove a b', 'owned cas a 1', 'owned flush 1', 'owned pop-min 1',
                 'owned clear a', 'owned pop', 'owned step 1',
                 'owned begin get a', 'owned insert - 1', 'owned del %2', 'owned cas a %zz 1', 'owned '):
        s.ask(line)
        s.line('turns 1', 'number 0')
    s.line('finish 1', 'old -')
    s.note('So does one that is refused.')
    s.rows('''
        begin get a                    slot 2
        handle other __sled__default 1    done
        owned insert a 2               refused E2
        step 2                         no slot
        handle sledsh __sled__default 1    done
        begin get a                    slot 1
        step 1                         value 1
    ''')


@case
def an_owned_call_of_a_tree_that_is_not_there_is_refused(s):
    """A handle of another database, of another name or of another number is refused, and changes nothing. The handle stays
    current."""
    s.line('owned insert a 1', 'old -')
    another, gone = 'refused E2', 'refused E1'
    for handle, refusal in (('other __sled__default 1', another), ('other __sled__default 2', another), ('sledsh t 1', gone), ('sledsh __sled__default 2', gone)):
        s.line(f'handle {handle}', 'done')
        for line in ('insert a 2', 'set a 2', 'remove a', 'del a', 'cas a 1 2', 'pop-min', 'pop-max', 'clear', 'batch a 2'):
            s.line(f'owned {line}', refusal)
        s.line('get a', refusal)
    s.line('owned flush', 'flushed 1')
    s.line('handle sledsh __sled__default 1', 'done')
    s.line('owned cas a 1 2', 'swapped')
    s.line('dump', pair('a', '2'), 'end 1')
    s.note('Without a database every call is refused.')
    s.line('new refuse 1', 'refused E4')
    for line in ('insert a 1', 'set a 1', 'remove a', 'del a', 'cas a 1 2', 'pop-min', 'pop-max', 'clear', 'batch a 1', 'flush'):
        s.line(f'owned {line}', 'refused E8')
    s.line('reopen', 'opened')
    s.line('owned insert a 1', 'old -')


@case
def an_owned_call_goes_on_with_what_slots_left_half_done(s):
    """A call in a slot is stopped after each of its steps that split or merge pages by a call of the database itself, which
    finds all pairs and mends what it meets on its way."""
    for steps in range(9):
        s.new()
        s.insert(*below(17))
        s.line('flush', 'flushed 17')
        s.begin(1, f'insert {key(17)} x')
        s.moves(1, min(steps, 7))
        if steps == 8:
            s.line('step 1', 'old -')
        s.line(f'owned set {key(17)} {key(17)}', 'old x' if steps == 8 else 'old -')
        s.line('step 1', 'no slot')
        s.holds(*below(18))
        s.pages((1, 2), (2, 10))
    for steps in range(13):
        s.new()
        s.insert(*below(18))
        s.remove(*below(18, 11)[::-1])
        s.pages((1, 2), (2, 8))
        s.begin(1, f'remove {key(10)}')
        s.moves(1, min(steps, 11))
        if steps == 12:
            s.line('step 1', f'old {key(10)}')
        s.line(f'owned del {key(10)}', 'old -' if steps == 12 else f'old {key(10)}')
        s.holds(*below(10))
        s.pages((1, 1), (1, 10))


@case
def a_refused_owned_call_is_made_again(s):
    """Each call of the store that an insert and a removal make is refused in turn. The maps are as before, what was mended
    stays, and the same call made again is decided."""
    s.note('An insert that splits the only leaf makes five: the right half, the left half, a new root, its name, and the link.')
    for refused in range(5):
        s.new(3 + 17 + refused + 1)
        s.insert(*below(17))
        s.line(f'owned insert {key(17)} {key(17)}', 'refused E4')
        s.holds(*below(17))
        s.line(f'owned insert {key(17)} {key(17)}', 'old -')
        s.holds(*below(18))
        s.pages((1, 2), (2, 10))
    s.note('A removal that merges two leaves makes six: the intention, the cap, the receipt, the confirmation, the freeing, and the link.')
    for refused in range(6):
        s.new(3 + 22 + 7 + refused + 1)
        s.insert(*below(18))
        s.remove(*below(18, 11)[::-1])
        s.line(f'owned remove {key(10)}', 'refused E4')
        s.holds(*below(11))
        s.line(f'owned remove {key(10)}', f'old {key(10)}')
        s.holds(*below(10))
        s.pages((1, 1), (1, 10))
    s.note('A page that cannot be read is told; a flush that is refused flushes nothing.')
    s.rows('''
        new                    opened
        owned insert a 1       old -
        reopen unreadable 1    opened
        owned insert a 2       refused E4
        owned remove b         refused E4
        owned cas a 1 2        refused E4
        recover                opened
        read a                 value 1
        new refuse 5           opened
        owned insert a 1       old -
        owned flush            refused E4
        crash 0                recovered
        get a                  value -
    ''')


@case
def a_crash_after_owned_calls_keeps_a_beginning(s):
    """What was decided since the last flush is kept from the front, as many actions as the crash is told."""
    for keep, left in ((0, 'a'), (1, 'ab'), (9, 'abc')):
        s.new()
        s.line('owned insert a a', 'old -')
        s.line('owned flush', 'flushed 1')
        s.line('owned insert b b', 'old -')
        s.line('owned set c c', 'old -')
        s.line(f'crash {keep}', 'recovered')
        s.holds(*left)
    s.note('An insert that splits is there only with its last action, and a removal that merges is too.')
    for keep in range(6):
        seventeen(s)
        s.line(f'owned insert {key(17)} {key(17)}', 'old -')
        s.line(f'crash {keep}', 'recovered')
        s.holds(*below(18 if keep == 5 else 17))
    for keep in range(7):
        s.new()
        s.insert(*below(18))
        s.remove(*below(18, 11)[::-1])
        s.ask('flush')
        s.line(f'owned remove {key(10)}', f'old {key(10)}')
        s.line(f'crash {keep}', 'recovered')
        s.holds(*below(10 if keep == 6 else 11))


@case
def owned_pops_take_the_pairs_from_both_ends(s):
    """The database itself takes out the least and the greatest pair, and clears the tree, over one leaf and over several; a crash
    keeps a beginning."""
    for count in (6, 40):
        s.new()
        s.insert(*below(count))
        s.begin(1, f'remove {key(3)}')
        s.moves(1)
        for n in range(2):
            s.line('owned pop-min', f'pair {key(n)} {key(n)}')
            s.line('owned pop-max', f'pair {key(count - 1 - n)} {key(count - 1 - n)}')
        s.line('step 1', 'no slot')
        s.holds(*below(count - 2, 2))
        s.ask('flush')
        s.line('owned flush', 'flushed 0')
        s.line('owned clear', 'done')
        for line in ('owned pop-min', 'owned pop-max'):
            s.line(line, 'pair -')
        s.line('owned clear', 'done')
        s.line('len', 'number 0')
        s.line('crash 1', 'recovered')
        s.holds(*below(count - 2, 3))
    s.note('A merge that was left half done is gone on with.')
    for steps in range(12):
        s.new()
        s.insert(*below(18))
        s.remove(*below(18, 11)[::-1])
        s.begin(1, f'remove {key(10)}')
        s.moves(1, steps)
        s.line('owned pop-max', f'pair {key(10)} {key(10)}')
        s.holds(*below(10))
        s.pages((1, 1), (1, 10))
    s.note('One that is refused changes nothing, but that a clear keeps what is gone.')
    for line in ('pop-min', 'pop-max', 'clear'):
        s.new(7)
        s.insert('a', 'b', 'c')
        s.line(f'owned {line}', 'refused E4')
        s.holds('a', 'b', 'c')
    s.new(8)
    s.insert('a', 'b', 'c')
    s.rows('''
        owned clear    refused E4
        len            number 2
        first          pair b b
        owned clear    done
        dump           end 0
    ''')
