"""Store calls that are refused, pages that cannot be read, openings that are refused, crashes amid every stage."""
from cases_flights import below, both, eight_and_three, seventeen, seventeen_and_three
from cases_levels import short
from oracle import Shell
from script import case, crowd_case, expect, pair


@case
def a_refused_link_changes_nothing_and_the_call_is_made_again(s):
    """To open makes three calls of the store, and the fourth is the link of the insert."""
    s.rows('''
        new refuse 4        opened
        begin insert a 1    slot 1
        finish 1            refused E4
        step 1              no slot
        get a               value -
        insert a 1          old -
        get a               value 1
    ''')
    s.note('Without a slot, and step by step.')
    s.rows('''
        new refuse 4        opened
        insert a 1          refused E4
        get a               value -
        insert a 1          old -
        new refuse 4        opened
        begin insert a 1    slot 1
        step 1              moved
        turns 1             number 1
        step 1              refused E4
        turns 1             no slot
        abandon 1           no slot
        dump                end 0
        flush               flushed 0
        insert a 1          old -
        crash 1             recovered
        get a               value 1
    ''')
    s.note('A call that changes nothing makes none, so it is not refused.')
    s.rows('''
        new refuse 4        opened
        get a               value -
        remove a            old -
        cas a 1 2           conflict - 2
        cas a - -           refused E4
        cas a - -           swapped
    ''')


@case
def each_refused_store_call_is_told_and_made_again(s):
    """A few calls beside one in flight, where each call of the store is refused in turn: the call that made it is told so,
    all else is as before, and it is made again."""
    script = [('insert a 1', 'old -', 4, ''), ('insert b 2', 'old -', 5, 'a=1'), ('insert a 3', 'old 1', 6, 'a=1 b=2'),
              ('flush', 'flushed 3', 7, 'a=3 b=2'), ('insert c 4', 'old -', 8, 'a=3 b=2'), ('get a', 'value 3', 0, '')]
    for refused in range(1, 10):
        if refused <= 3:
            s.line(f'new refuse {refused}', 'refused E4')
            s.line('get a', 'refused E8')
            s.line('reopen', 'opened')
        else:
            s.new(refused)
        s.begin(1, 'get a')
        slot = 1
        for line, answer, call, before in script:
            if call == refused:
                if line == 'flush':
                    s.line('flush', 'refused E4')
                else:
                    slot += 1
                    s.begin(slot, line)
                    s.line(f'finish {slot}', 'refused E4')
                    s.line(f'step {slot}', 'no slot')
                    slot += 1
                    s.begin(slot, 'get a')
                    s.line(f'abandon {slot}', 'abandoned')
                pairs = [p.split('=') for p in before.split()]
                s.line('dump', *(pair(k, v) for k, v in pairs), f'end {len(pairs)}')
                s.line('turns 1', 'number 0')
            s.line(line, answer)
            s.line('turns 1', 'number 0')
        s.line('dump', pair('a', 3), pair('b', 2), pair('c', 4), 'end 3')
        s.line('step 1', 'value 3')


@case
def openings_that_are_refused(s):
    """To open an empty store makes three calls. Where one is refused the pages are given back, and opened again."""
    closed = '''
        insert a 1          refused E8
        get a               refused E8
        remove a            refused E8
        cas a - 1           refused E8
        begin get a         refused E8
        step 1              no slot
        finish 1            no slot
        abandon 1           no slot
        turns 1             no slot
        flush               refused E8
        dump                refused E8
        recovered           refused E8
        pages               refused E8
    '''
    works = '''
        begin insert a 1    slot 1
        finish 1            old -
        dump                pair __sled__default a 1
                            end 1
        flush               flushed 1
        pages               level 1 1
                            end 1
    '''
    for refused in 1, 2, 3:
        s.line(f'new refuse {refused}', 'refused E4')
        s.rows(closed)
        s.line('reopen', 'opened')
        s.line('recovered', 'no')
        s.line('flush', 'flushed 0')
        s.rows(works)
    s.note('All three in turn: each opening makes anew what is not there yet.')
    s.line('new refuse 1 3 6', 'refused E4')
    s.line('reopen', 'refused E4')
    s.line('reopen', 'refused E4')
    s.line('get a', 'refused E8')
    s.line('reopen', 'opened')
    s.rows(works)
    s.note('A crash and a new store take the pages that were given back, too.')
    for refused in 1, 2, 3:
        for line, printed in [('crash 0', 'recovered'), ('crash 9', 'recovered'), ('recover', 'opened'), ('new', 'opened')]:
            s.line(f'new refuse {refused}', 'refused E4')
            s.line('get a', 'refused E8')
            s.line(line, printed)
            s.line('recovered', 'no' if line == 'new' else 'yes')
            s.rows(works)
    s.note('A tree is there, so that to open makes one call, the flush. What was not flushed stays as it was.')
    s.new()
    s.rows('''
        insert a 1          old -
        begin insert b 2    slot 1
        reopen refuse 5     refused E4
        get a               refused E8
        step 1              no slot
        reopen              opened
        get a               value 1
        flush               flushed 0
        insert b 2          old -
        reopen refuse 9     refused E4
        dump                refused E8
        crash 0             recovered
        dump                pair __sled__default a 1
                            end 1
        insert c 3          old -
        recover refuse 1    refused E4
        get a               refused E8
        reopen refuse 2 4   refused E4
        reopen              opened
        insert d 4          refused E4
        insert d 4          old -
        dump                pair __sled__default a 1
                            pair __sled__default c 3
                            pair __sled__default d 4
                            end 3
    ''')


@case
def a_refused_flush_leaves_all_waiting(s):
    """A flush that is refused makes nothing durable, and loses nothing."""
    for keep, left in [(0, 0), (1, 1), (2, 2)]:
        s.rows('''
            new refuse 6 7      opened
            insert a a          old -
            insert b b          old -
            begin get a         slot 1
            flush               refused E4
            flush               refused E4
            turns 1             number 0
            get b               value b
            step 1              value a
        ''')
        s.line(f'crash {keep}', 'recovered')
        s.holds(*['a', 'b'][:left])
    s.rows('''
        new refuse 5        opened
        insert a 1          old -
        flush               refused E4
        insert b 2          old -
        flush               flushed 2
        crash 0             recovered
        dump                pair __sled__default a 1
                            pair __sled__default b 2
                            end 2
    ''')


@case
def calls_of_the_store_are_counted(s):
    """The numbers of refused calls count the calls of the store from its making, refused ones too; a crash makes it anew. Each
    `refuse` stands in place of the one before."""
    s.note('A store that a crash left refuses nothing, and counts from 1.')
    s.rows('''
        new refuse 6 7 8    opened
        insert a 1          old -
        insert b 2          old -
        crash 9             recovered
        insert c 3          old -
        insert d 4          old -
        insert e 5          old -
        insert f 6          old -
        insert g 7          old -
        insert h 8          old -
        flush               flushed 6
    ''')
    s.note('To open is call 1 of what is left, the insert call 2.')
    s.rows('''
        recover refuse 2    opened
        insert a 2          refused E4
        insert a 2          old 1
        recover refuse 3 2  opened
        insert a 3          refused E4
        insert a 3          refused E4
        insert a 3          old 2
    ''')
    s.note('A second one stands in place of the first, and one without numbers keeps it: calls 5, 6 and 7 are the openings.')
    s.rows('''
        recover refuse 8            opened
        insert a 4                  old 3
        insert a 5                  old 4
        insert a 6                  old 5
        reopen refuse 6             opened
        insert a 7                  refused E4
        insert a 7                  old 6
        reopen refuse 10 12         opened
        insert a 8                  old 7
        reopen                      refused E4
        reopen                      opened
        insert a 9                  refused E4
        insert a 9                  old 8
        get a                       value 9
    ''')
    s.note('Calls 8 and 9 are those of numbers long past and of none: they are never made.')
    s.rows('''
        new                                         opened
        reopen refuse 1 2 3 0                       opened
        insert a 1                                  old -
        reopen refuse 18446744073709551615          opened
        insert a 2                                  old 1
        flush                                       flushed 1
    ''')


@case
def the_mark_is_set_before_the_opening(s):
    """To set ids aside is a call of the store, and no action."""
    s.rows('''
        insert a 1                          old -
        begin get a                         slot 1
        reopen mark 5                       opened
        step 1                              no slot
        flush                               flushed 0
        get a                               value 1
        reopen mark 6                       opened
        reopen mark 18446744073709551615    opened
        crash 0                             recovered
        get a                               value 1
        new refuse 4                        opened
        reopen mark 7                       refused E4
        get a                               refused E8
        reopen mark 7                       opened
        get a                               value -
    ''')


def is_refused(s, k, wanted, *slots):
    """A call at a key is refused by a page that cannot be read; the calls in flight stay, and nothing changed."""
    for line in f'get {k}', f'insert {k} x', f'remove {k}', f'cas {k} - x':
        s.line(line, 'refused E4')
    s.line(f'begin get {k}', f'slot {s.shell.begun + 1}')
    slot = s.shell.begun
    for printed in wanted:
        s.line(f'step {slot}', printed)
    s.line(f'step {slot}', 'no slot')
    s.line('flush', 'flushed 0')


@case
def pages_that_cannot_be_read(s):
    """Pages are counted from 1 in the order in which they were made. A call that comes to one that cannot be read is refused
    there, and nothing changes; other calls go on."""
    s.note('The root, which is the first leaf.')
    s.rows('''
        insert a 1              old -
        reopen unreadable 1     opened
    ''')
    is_refused(s, 'a', ['refused E4'])
    s.rows('''
        dump                    refused E4
        pages                   refused E4
        crash 0                 recovered
        get a                   value 1
        reopen unreadable 9     opened
        get a                   value 1
        reopen unreadable 7 1   opened
        get a                   refused E4
        reopen                  opened
        get a                   refused E4
        recover                 opened
        get a                   value 1
    ''')
    s.note('The leaf on the right: a walk comes to it in its second step.')
    s.new()
    s.insert(*below(18))
    s.line('reopen unreadable 2', 'opened')
    is_refused(s, '%09', ['moved', 'refused E4'])
    s.line('dump', 'refused E4')
    s.line('get %03', 'value %03')
    s.line('insert %03%00 %03%00', 'old -')
    s.line('remove %03%00', 'old %03%00')
    s.line('recover', 'opened')
    s.holds(*below(18))
    s.note('The root over both leaves.')
    s.line('reopen unreadable 3', 'opened')
    is_refused(s, '%03', ['refused E4'])
    s.line('dump', 'refused E4')
    s.line('recover', 'opened')
    s.holds(*below(18))
    s.note('The leaf on the left.')
    s.line('reopen unreadable 1', 'opened')
    is_refused(s, '%03', ['moved', 'refused E4'])
    s.line('dump', 'refused E4')
    s.line('get %09', 'value %09')
    s.note('The merging child, before it is capped and after it.')
    for turns in 3, 5:
        eight_and_three(s)
        s.begin(1, 'remove %0a')
        s.moves(1, turns)
        s.line('reopen unreadable 2', 'opened')
        is_refused(s, '%00', ['moved', 'refused E4'])
        s.line('recover', 'opened')
        s.holds(*below(11))
        s.remove('%0a')
        s.holds(*below(10))
    s.note('The page before the merging child, in the search; and a child that was received needs it no less.')
    for turns, steps in (3, 3), (5, 2), (7, 2):
        eight_and_three(s)
        s.begin(1, 'remove %0a')
        s.moves(1, turns)
        s.line('reopen unreadable 1', 'opened')
        s.begin(1, 'get %09')
        s.moves(1, steps)
        s.line('step 1', 'refused E4')
        s.line('get %09', 'refused E4')
        s.line('dump', 'refused E4')
        s.line('recover', 'opened')
        s.holds(*below(11))
        s.remove('%0a')
        s.holds(*below(10))
    s.note('A page by `next`: the right half of a split that was given up, before it has a pointer.')
    seventeen(s)
    s.begin(1, 'get %00')
    s.moves(1, 3)
    s.line('reopen unreadable 2', 'opened')
    s.begin(1, 'get %09')
    s.goes_on(1, 0, 1, 1, 0)
    s.line('step 1', 'refused E4')
    s.line('get %00', 'value %00')
    s.line('get %09', 'refused E4')


@case
def page_numbers_are_given_once(s):
    """A page number is not given again, also after a crash that lost its page, and not where the page was freed."""
    s.insert(*below(18))
    s.note('The two leaves are pages 1 and 2, and the root is page 3. The crash leaves page 1 alone; then come 4 and 5.')
    s.line('crash 0', 'recovered')
    s.insert(*below(18))
    s.line('reopen unreadable 2 3', 'opened')
    s.holds(*below(18))
    s.line('reopen unreadable 4', 'opened')
    is_refused(s, '%09', ['moved', 'refused E4'])
    s.line('get %03', 'value %03')
    s.line('recover', 'opened')
    s.line('reopen unreadable 5', 'opened')
    is_refused(s, '%03', ['refused E4'])
    s.line('recover', 'opened')
    s.note('Page 4 merges and is freed. The next leaf is page 6.')
    s.remove(*below(18, 9)[::-1])
    s.line('get %08', 'value %08')
    s.pages((1, 1), (1, 9))
    s.insert(*below(18, 9))
    s.line('reopen unreadable 4', 'opened')
    s.holds(*below(18))
    s.line('reopen unreadable 6', 'opened')
    is_refused(s, '%09', ['moved', 'refused E4'])


def each_store_call_refused(s, prepare, line, answer, calls, keys, more):
    """A line makes so many calls of the store after what was prepared. Each of them is refused in turn: the line is refused,
    nothing has changed, the line is made again, and all is as if nothing had been refused."""
    for number in range(calls + 1):
        prepare(s)
        s.line(f'reopen refuse {s.store.calls + 2 + number}', 'opened')
        s.begin(1, 'get %00')
        if number < calls:
            s.line(line, 'refused E4')
            s.holds(*keys)
        s.line(line, answer)
        s.holds(*more)
        s.line('finish 1', 'value %00')
        s.line('turns 1', 'no slot')
        s.line('crash 99', 'recovered')
        s.holds(*more)


@case
def each_store_call_of_a_split_is_refused(s):
    """The insert that splits a leaf makes five calls of the store, each of which is refused in turn."""
    each_store_call_refused(s, seventeen, 'insert %11 %11', 'old -', 5, below(17), below(18))


@case
def each_store_call_of_a_merge_is_refused(s):
    """The removal that merges two leaves makes six calls of the store, and nine where a leaf splits first; each is refused in
    turn."""
    each_store_call_refused(s, eight_and_three, 'remove %0a', 'old %0a', 6, below(11), below(10))
    each_store_call_refused(s, seventeen_and_three, 'remove %0a', 'old %0a', 9, both(11), both(10))


@case
def calls_are_refused_while_others_are_in_flight(s):
    """Four inserts split one leaf together. In turn each call of the store that they make is refused: one insert is refused
    and its slot ends, the others go on, and what was not refused is there."""
    for number in range(1, 40):
        seventeen(s)
        s.line(f'reopen refuse {s.store.calls + 1 + number}', 'opened')
        made = s.store.calls
        for slot in range(1, 5):
            s.begin(slot, f'insert %11%{slot:02x} %11%{slot:02x}')
        left, refused = list(range(1, 5)), []
        turn = 0
        while left:
            slot = left[turn * 3 % len(left)]
            turn += 1
            printed = s.ask(f'step {slot}')
            if printed != ['moved']:
                left.remove(slot)
                s.line(f'turns {slot}', 'no slot')
            if printed == ['refused E4']:
                refused.append(slot)
                for other in left:
                    s.ask(f'turns {other}')
        s.holds(*below(17), *(f'%11%{slot:02x}' for slot in range(1, 5) if slot not in refused))
        expect(len(refused) <= 1, refused)
        if s.store.calls - made < number:
            expect(not refused and number > 15, number)
            break
        expect(refused, number)
        for slot in refused:
            s.insert(f'%11%{slot:02x}')
        s.holds(*below(17), *(f'%11%{slot:02x}' for slot in range(1, 5)))


@case
def a_crash_amid_every_stage(s):
    """The insert that makes the most actions of those that grow three levels, and the removal that makes the most of those
    that shrink them: a crash at each of their actions, then all is read, and the call is made again."""
    shell = Shell()

    def most(lines):
        """Of these lines the one that does the most actions, and how many."""
        counts = []
        for line in lines:
            shell.run('flush')
            shell.run(line)
            counts.append((len(shell.store.recent), line))
        return max(counts)

    grow = [f'insert {short(n)} {short(n)}' for n in range(150)]
    shrink = [f'remove {short(n)}' for n in range(149, 0, -1)]
    grown, inserts = most(grow)
    shrunk, removes = most(shrink)
    expect((grown, shrunk) == (8, 11), grown, shrunk)

    def keys(lines):
        gone = {line.split()[1] for line in lines if line.startswith('remove')}
        return sorted({line.split()[1] for line in lines} - gone)

    for lines, line, actions in ((grow[:grow.index(inserts)], inserts, grown),
                                 (grow + shrink[:shrink.index(removes)], removes, shrunk)):
        s.new()
        for other in lines:
            s.ask(other)
        s.ask('flush')
        for keep in range(actions + 1):
            s.ask(line)
            s.line(f'crash {keep}', 'recovered')
            left = keys(lines + ([line] if keep == actions else []))
            if keep in (4, actions - 1, actions):
                s.holds(*left)
            else:
                s.ask('pages')
                for k in left[::16]:
                    s.line(f'get {k}', f'value {k}')
            if keep in (0, actions):
                continue
            s.note('From the same pages again.')
            s.new()
            for other in lines:
                s.ask(other)
            s.ask('flush')
        s.ask('pages')
        s.ask(line)
        s.holds(*keys(lines + [line]))


@crowd_case
def words_of_many_calls_that_cannot_be_read(s):
    """A line of the program `test_crowd` that cannot be read changes nothing, and the next one is read."""
    s.line('insert a 1', 'old -')
    s.begin(1, 'get a')
    for line in ('crowd 1 2', 'begin scan .. ..', 'load', 'load 1 2', 'load 1 2 3 4', 'find 1', 'find 1 -', 'overtake 1', 'overtake 1 2 3',
                 'reads 1', 'pages 1', 'why 1', 'turns', 'turns 01', 'new refuse 1', 'batch a', 'batch - 1', 'batch a 1 ', 'run', 'run step', 'run step 1,', 'run step 1, tree t', 'run step 1, batch a', 'run batch - 1', 'run drop t', 'drop',
                 'drop -', 'len 1', 'read', 'read -', 'read a b', 'range ..', 'range a z', 'range [a (', 'range .. .. ..', 'prefix', 'merge a 1', 'draw', 'quit', 'get', ' get a'):
        s.line(line, f'bad line {len(s.text) + 1}')
        s.line('turns 1', 'number 0')
    s.line('step 1', 'value 1')
    s.line('dump', pair('a', 1), 'end 1')


# Lines that cannot be read.

UNREADABLE = [
    ' ', '\r', 'get a\r', 'get  a', ' get a', 'get a ', 'get', 'get a b', 'get -', 'get %4', 'get %4A', 'get %g0', 'get a%',
    'get %%', 'get \t', 'get \x7f', 'get \x80', 'get \xff', 'get \x00', 'insert a', 'insert a -', 'insert - a',
    'insert a b c', 'INSERT a b', '%67et a', 'begin', 'begin ', 'begin flush', 'begin begin get a', 'begin get',
    'begin get -', 'begin insert a', 'step', 'step a', 'step 01', 'step +1', 'step -', 'step -1', 'step %31',
    'step 18446744073709551616', 'step 1 2', 'finish', 'finish 00', 'abandon', 'abandon 1 1', 'flush 1', 'flush ', 'crash',
    'crash x', 'dump 1', 'dum', 'dumps', 'remove', 'remove -', 'remove a b', 'removed a', 'cas', 'cas a', 'cas a -',
    'cas - a b', 'cas a - %4', 'cas a %4 -', 'cas a - b -', 'cas a  b', 'cas a b ', 'begin remove', 'begin remove -',
    'begin cas a -', 'begin cas - - -',
    # of the shell alone
    'turns', 'turns a', 'turns 1 2', 'new 1', 'new refuse', 'new refuse a', 'new refuse 1 -1', 'new refuse 1  2',
    'reopen 1', 'reopen refuse', 'reopen refuse 1 x', 'reopen unreadable', 'reopen unreadable -', 'reopen mark',
    'reopen mark x', 'reopen mark 1 2', 'reopen mark 18446744073709551616', 'recover 1', 'recover refuse',
    'recover mark 1', 'recovered 1', 'pages 1', 'pages ', 'crowd 1 2', 'help none', 'help a b c', 'help tests all',
    'quit ', 'quit 1', ' # no comment', ' quit', 'begin turns 1', 'begin new', 'begin crash 1', 'begin dump', 'new ',
]


@case
def lines_that_cannot_be_read(s):
    """A line that cannot be read changes nothing, and the next one is read. Lines are counted from 1, comments and empty lines
    too."""
    s.line('insert a 1', 'old -')
    s.begin(1, 'insert b 2')
    s.moves(1)
    for line in UNREADABLE:
        printed = s.ask(line)
        expect(printed[0].startswith(f'bad line {len(s.text)}: '), repr(line), printed)
        s.line('get a', 'value 1')
    s.ask('')
    s.ask('# a comment')
    s.ask('')
    printed = s.ask('get')
    expect(printed[0].startswith(f'bad line {len(s.text)}: '), printed)
    s.line('turns 1', 'number 1')
    s.line('step 1', 'old -')
    s.did(2)
    s.line('dump', pair('a', 1), pair('b', 2), 'end 2')
    s.line('reopen mark 7', 'opened')
    printed = s.ask('reopen mark 6')
    expect(printed == [f'bad line {len(s.text)}: `6` is below the mark, which is 7'], printed)
    s.begin(1, 'get a')
    s.note('A bad line takes no pages out: the call is still in flight.')
    s.ask('reopen mark 0')
    s.line('step 1', 'value 1')
    s.line('crash 0', 'recovered')
    printed = s.ask('reopen mark 6')
    expect(printed == [f'bad line {len(s.text)}: `6` is below the mark, which is 7'], printed)
    s.line('new', 'opened')
    s.line('reopen mark 6', 'opened')


@case
def a_refusal_says_why(s):
    """`why` prints the text of the last refusal: what was asked for that there is not, and which tree, store or memory it was."""
    s.rows("""
        why                             why -
        insert a 1                      old -
        why                             why -
        merge a 2                       refused E2
        why                             why unsupported: must set a merge operator on this Tree before calling merge by calling Tree::set_merge_operator
        begin merge a 2                 refused E2
        owned merge a 2                 refused E2
        import t b 1 b 2                refused E2
        why                             why unsupported: import is overwriting existing data
        import-type list t c 3          refused E2
        why                             why unsupported: unknown collection type
        drop __sled__default            refused E2
        why                             why unsupported: cannot remove the core structures
        owned import t c 3              bad line 15: `import` does not follow `owned`; `help` lists what does
        why                             why unsupported: cannot remove the core structures
        handle other __sled__default 1  done
        get a                           refused E2
        why                             why unsupported: handle of another database
        merge a 2                       refused E2
        why                             why unsupported: handle of another database
        handle sledsh gone 7            done
        range .. ..                     refused E1
        why                             why collection not found
        len                             refused E1
        handle other gone 7             done
        watch a                         refused E2
        why                             why unsupported: handle of another database
        reopen                          opened
        why                             why unsupported: handle of another database
        operator short                  done
        merge a 2                       refused E6
        why                             why no memory
        update a short                  refused E6
        reopen mark 18446744073709551615    opened
        id                              refused E2
        why                             why unsupported: ids used up
        owned drop __sled__default      refused E2
        why                             why unsupported: cannot remove the core structures
    """)
    s.ask('new refuse 1')
    s.line('get a', 'refused E8')
    s.line('why', 'why closed')
    s.line('dump', 'refused E8')
    s.line('why', 'why closed')


@case
def a_session_ends_at_quit(s):
    """Lines behind `quit` are not read."""
    s.line('insert a 1', 'old -')
    s.text += ['quit', 'get a', 'no line', 'dump']


@case
def a_bad_line_may_be_the_last(s):
    """A bad line may be the last, without a line end."""
    s.line('get a', 'value -')
    s.line('get', 'bad line 3: `get` takes K, one word')
    s.end = ''


@case
def what_names_no_tree_is_refused(s):
    """What names a tree of another database, or a number or a name that the database does not have, is refused. Calls in flight
    go on."""
    s.rows('''
        handle sledsh __sled__default 1    done
        insert a 1                         old -
        begin insert a 2                   slot 1
        handle sledsh __sled__default 2    done
        get a                              refused E1
        begin get a                        refused E1
        flush                              flushed 1
        handle sledsh other 1              done
        insert a 3                         refused E1
        step 1                             moved
        has a                              refused E1
        range .. ..                        refused E1
        handle other __sled__default 1     done
        get a                              refused E2
        len                                refused E2
        remove a                           refused E2
        begin cas a 1 -                    refused E2
        handle other other 7               done
        get a                              refused E2
        flush                              flushed 0
        dump                               pair __sled__default a 1
                                           end 1
        step 1                             old 1
        handle sledsh __sled__default 1    done
        begin get a                        slot 2
        finish 2                           value 2
    ''')
    s.note('The default tree is current after an opening.')
    s.rows('''
        handle % % 0                       done
        get a                              refused E2
        reopen                             opened
        get a                              value 2
        handle sledsh - 1                  bad line 32: `-` is no byte string: `!` to `~` but for `%` stand for themselves, any other byte and a `-` alone as % and two lower-case hexadecimal digits
        handle sledsh __sled__default      bad line 33: `handle` takes DATABASE NAME N, three words
        handle sledsh __sled__default -1   bad line 34: `-1` is no number: decimal digits without leading zeros
        get a                              value 2
    ''')
