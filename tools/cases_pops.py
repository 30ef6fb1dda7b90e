"""Whole calls that take pairs out: pops of both ends, and clears."""
from cases_flights import below
from oracle import Shell
from script import case, expect, key, pair

FORTY = below(40)


def calls_of(*lines):
    """How many calls of the store these lines make from its making on."""
    shell = Shell()
    for line in lines:
        shell.run(line)
    return shell.store.calls


@case
def pops_take_the_pairs_from_both_ends(s):
    """A pop takes out the pair with the least or the greatest key, and answers it, until there is none."""
    for name, order in (('max', (5, 4, 3, 2, 1, 0)), ('min', (0, 1, 2, 3, 4, 5))):
        s.new()
        for n in range(6):
            s.line(f'insert {key(n)} {key(10 * n)}', 'old -')
        for n in order:
            s.line(f'pop-{name}', f'pair {key(n)} {key(10 * n)}')
            s.line(f'has {key(n)}', 'no')
        s.line(f'pop-{name}', 'pair -')
        s.line('len', 'number 0')
    s.new()
    s.insert(*below(6))
    for n, m in ((0, 5), (1, 4), (2, 3)):
        s.line('pop-min', f'pair {key(n)} {key(n)}')
        s.line('pop-max', f'pair {key(m)} {key(m)}')
    s.rows("""
        pop-min     pair -
        pop-max     pair -
        clear       done
        insert % %  old -
        pop-max     pair % %
        flush       flushed 14
        pop-min     pair -
        clear       done
        flush       flushed 0
    """)
    s.note('Each pair is taken out by one action.')
    s.insert('a', 'b', 'c')
    s.line('flush', 'flushed 3')
    s.line('pop-min', 'pair a a')
    s.line('flush', 'flushed 1')
    s.line('pop-max', 'pair c c')
    s.line('flush', 'flushed 1')
    s.line('dump', pair('b'), 'end 1')


@case
def a_clear_takes_out_all_pairs(s):
    """After a clear there is no pair, and the tree is used as before."""
    for count in (1, 6, 40, 300):
        s.new()
        s.insert(*(f'k{n:03}' for n in range(count)))
        if count > 2:
            s.line('pop-min', 'pair k000 k000')
            s.line('pop-min', 'pair k001 k001')
        s.rows("""
            clear            done
            len              number 0
            empty            yes
            first            pair -
            pop-max          pair -
            clear            done
            dump             end 0
            insert k000 x    old -
            read k000        value x
        """)


@case
def pops_go_on_with_what_slots_left_half_done(s):
    """A call in a slot waits after each of its steps that split or merge pages, and a pop comes between. The slot stays, and its
    call is decided as if it began then."""
    for steps in range(12):
        for name, found, left, old in (('max', 10, below(10), '-'), ('min', 0, below(10, 1), key(10))):
            s.new()
            s.insert(*below(18))
            s.remove(*below(18, 11)[::-1])
            s.pages((1, 2), (2, 8))
            s.begin(1, f'remove {key(10)}')
            s.moves(1, steps)
            s.line(f'pop-{name}', f'pair {key(found)} {key(found)}')
            s.line('finish 1', f'old {old}')
            s.holds(*left)
    for steps in range(8):
        s.new()
        s.insert(*below(17))
        s.begin(1, f'insert {key(17)} {key(17)}')
        s.moves(1, steps)
        s.line('pop-max', f'pair {key(16)} {key(16)}')
        s.line('finish 1', 'old -')
        s.holds(*below(16), key(17))
        s.line('begin get a', 'slot 2')
        s.line('clear', 'done')
        s.line('finish 2', 'value -')
        s.line('dump', 'end 0')


@case
def a_clear_that_is_refused_keeps_a_beginning(s):
    """Each call of the store that a clear makes is refused in turn. What is gone are the least keys, and a clear made again
    takes the others out."""
    before = calls_of(*(f'insert {k} {k}' for k in FORTY))
    whole = calls_of(*(f'insert {k} {k}' for k in FORTY), 'clear') - before
    expect(whole >= 40, 'a clear of 40 pairs makes 40 links', whole)
    gone = 0
    for refused in range(whole):
        s.new(before + refused + 1)
        s.insert(*FORTY)
        s.line('clear', 'refused E4')
        left = s.ask('len')
        expect(int(left[0][7:]) in (40 - gone, 39 - gone), 'one key more at most', left)
        gone = 40 - int(left[0][7:])
        s.holds(*FORTY[gone:])
        s.line('clear', 'done')
        s.line('len', 'number 0')
    expect(gone == 39, 'the last call takes the last key out', gone)


@case
def a_pop_that_is_refused_changes_nothing(s):
    """A pop is refused for a handle of another tree or database, for a page that cannot be read, and for a fault of the store."""
    s.rows("""
        insert a 1                       old -
        handle other __sled__default 1   done
        pop-min                          refused E2
        pop-max                          refused E2
        clear                            refused E2
        handle sledsh t 1                done
        pop-min                          refused E1
        pop-max                          refused E1
        clear                            refused E1
        handle sledsh __sled__default 1  done
        reopen unreadable 1              opened
        pop-min                          refused E4
        pop-max                          refused E4
        clear                            refused E4
        recover                          opened
        recover refuse 2                 opened
        pop-min                          refused E4
        read a                           value 1
        pop-max                          pair a 1
        new refuse 1                     refused E4
        pop-min                          refused E8
        pop-max                          refused E8
        clear                            refused E8
    """)


@case
def a_crash_after_a_clear_keeps_a_beginning(s):
    """A crash after a clear leaves the pairs of some moment of it: those that were not yet taken out, from the least up."""
    actions = None
    for keep in (0, 1, 2, 7, 8, 9, 13, 14, 15, 16, 17, 18, 19, 20, 30, 40, 50, 60, 99):
        s.new()
        s.insert(*FORTY)
        s.ask('flush')
        s.line('clear', 'done')
        s.line(f'crash {keep}', 'recovered')
        if keep <= 8:
            s.holds(*FORTY[keep:])
        s.ask('dump')
        s.line('clear', 'done')
        s.line('pop-min', 'pair -')
    s.note('A pop is in the store as soon as it was answered, and kept once it was flushed.')
    s.new()
    s.insert(*below(3))
    s.rows("""
        flush      flushed 3
        pop-max    pair %02 %02
        flush      flushed 1
        pop-min    pair %00 %00
        crash 0    recovered
    """)
    s.holds(*below(2))


@case
def the_words_of_pops_take_no_words(s):
    """Pops and clears are made on the current tree, in no slot."""
    s.rows("""
        pop-min a        bad line 2: `pop-min` takes no words
        pop-max 1        bad line 3: `pop-max` takes no words
        clear %          bad line 4: `clear` takes no words
        pop              bad line 5: `pop` is no command; did you mean `pop-min`? `help` lists them
        begin pop-min    bad line 6: `pop-min` does not follow `begin`; `help` lists what does
        begin clear      bad line 7: `clear` does not follow `begin`; `help` lists what does
        pop-min          pair -
    """)
