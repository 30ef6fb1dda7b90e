"""What all keys of a page begin with, which is kept once, and what each of them has behind that."""
from script import case, expect


@case
def a_page_keeps_once_what_all_its_keys_begin_with(s):
    """A write of a key that has a part of it alone makes that shorter, and the removal of that key longer. What is printed is
    that first, and then each key's rest."""
    s.rows('''
        rests 1             rests %
        insert user:1 a     old -
        rests 1             rests user:1 %
        insert user:31 c    old -
        rests 1             rests user: 1 31
        insert user:2 b     old -
        rests 1             rests user: 1 2 31
        get use             value -
        get user;           value -
        gt use              pair user:1 a
        gt user;            pair -
        lt use              pair -
        lt user;            pair user:31 c
        insert use d        old -
        rests 1             rests use % r:1 r:2 r:31
        get use             value d
        get us              value -
        lt user:1           pair use d
        remove use          old d
        rests 1             rests user: 1 2 31
        get use             value -
        insert user:2 e     old b
        cas user:1 a f      swapped
        rests 1             rests user: 1 2 31
        insert user: g      old -
        rests 1             rests user: % 1 2 31
        remove user:        old g
        remove user:1       old f
        remove user:2       old e
        rests 1             rests user:31 %
        get user:3          value -
        get user:31         value c
        get user:311        value -
        remove user:31      old c
        rests 1             rests %
        insert % h          old -
        rests 1             rests % %
        insert a i          old -
        rests 1             rests % % a
        batch % - a - %20x j %20y k    done
        rests 1             rests %20 x y
        pop-min             pair %20x j
        rests 1             rests %20y %
        clear               done
        rests 1             rests %
    ''')
    s.note('More of one key, and keys that are long.')
    long = 'abcdefghijklmnopqrstuvwxyz' * 3
    for at, k in enumerate((long + 'q', long + 'r', long + 'rr')):
        s.line(f'insert {k} {at}', 'old -')
    s.line('rests 1', f'rests {long} q r rr')
    s.line(f'insert {long[:30]} x', 'old -')
    s.line('rests 1', f'rests {long[:30]} % {long[30:]}q {long[30:]}r {long[30:]}rr')
    s.line(f'remove {long[:30]}', 'old x')
    s.line(f'remove {long}r', 'old 1')
    s.line('rests 1', f'rests {long} q rr')
    s.line(f'range .. ..', f'pair {long}q 0', f'pair {long}rr 2', 'end 2')
    s.note('Each tree has pages of its own, and a page that is not there has no keys.')
    s.rows('''
        tree t              tree t
        rests 2             rests %
        insert user:1 a     old -
        insert user:2 b     old -
        rests 2             rests user: 1 2
        rests 3             none
        rests 0             none
        drop t              yes
        rests 2             none
    ''')
    s.bad('rests', '`rests` takes PID, one word')
    s.bad('rests 1 2', '`rests` takes PID, one word')
    s.bad('rests x', '`x` is no number: decimal digits without leading zeros')
    s.bad('rests user:', '`user:` is no number: decimal digits without leading zeros')


def name(number):
    return f'user:{number:03}'


@case
def halves_keep_what_their_own_keys_begin_with(s):
    """After a split each of the pages keeps what its own keys begin with, and so does an index. The first key of the first index of a level is the
    empty one, so that its keys begin with nothing."""
    for at in range(17):
        s.line(f'insert {name(at)} {at}', 'old -')
    s.line('rests 1', 'rests user:0 ' + ' '.join(f'{at:02}' for at in range(17)))
    s.line('insert user:017 17', 'old -')
    s.line('rests 1', 'rests user:00 ' + ' '.join(str(at) for at in range(8)))
    s.line('rests 2', 'rests user:0 ' + ' '.join(f'{at:02}' for at in range(8, 18)))
    s.line('rests 3', 'rests % % user:008')
    s.note('The leaf to the right is merged into the first one again.')
    for at in range(8, 16):
        s.line(f'remove {name(at)}', f'old {at}')
    s.line('rests 1', 'rests user:0 ' + ' '.join(f'{at:02}' for at in (*range(8), 16, 17)))
    s.line('rests 2', 'none')
    s.line('rests 3', 'rests % %')
    s.note('Three levels: the second index of the middle one keeps what its keys begin with.')
    s.new()
    for at in range(160):
        s.line(f'insert {name(at)} {at}', 'old -')
    told = [s.ask(f'rests {pid}') for pid in range(1, s.store.pids + 1)]
    indexes = [pid for pid, view in s.store.pages.items() if not view.node.leaf]
    expect(len(indexes) == 3 and [told[pid - 1][0].split()[1] for pid in indexes].count('%') == 2, indexes, told)
    s.ask('draw')
    for at in range(0, 160, 7):
        s.line(f'get {name(at)}', f'value {at}')
    s.line('get user:', 'value -')
    s.line('lt user:', 'pair -')
    s.line('gt user:', 'pair user:000 0')
    s.line('gt user:159', 'pair -')


@case
def a_crash_leaves_what_keys_began_with(s):
    """A crash leaves a page with the keys that it had, and what all of them begin with; an opening too."""
    s.rows('''
        insert user:1 a     old -
        insert user:2 b     old -
        flush               flushed 2
        insert use c        old -
        remove use          old c
        insert usa d        old -
        rests 1             rests us a er:1 er:2
        crash 2             recovered
        rests 1             rests user: 1 2
        insert usa d        old -
        crash 0             recovered
        rests 1             rests user: 1 2
        insert use c        old -
        crash 1             recovered
        rests 1             rests use % r:1 r:2
        reopen              opened
        rests 1             rests use % r:1 r:2
        remove user:1       old a
        remove use          old c
        rests 1             rests user:2 %
    ''')
    s.note('A page is told where no database is open, and a page that cannot be read is not.')
    s.rows('''
        flush               flushed 2
        recover refuse 1    refused E4
        rests 1             rests user:2 %
        get user:2          refused E8
        recover             opened
        reopen unreadable 1    opened
        rests 1             refused E4
        why                 why io fault 2
        get user:2          refused E4
        recover             opened
        rests 1             rests user:2 %
    ''')


@case
def rests_of_pages_of_somebody_else(s):
    """Pages of an image are told as they are, also where they are refused: entries that do not ascend keep what all their keys begin with too."""
    s.rows('''
        page 1 leaf % user:5 2 open user:1 a user:2 b user:31 c    noted
        page 2 leaf user:5 % - open user:5 d    noted
        page 3 index % % - open - % 1 user:5 2    noted
        root __sled__default 3    noted
        image               opened
        rests 1             rests user: 1 2 31
        rests 2             rests user:5 %
        rests 3             rests % % user:5
        get user:5          value d
        rests 1             rests user: 1 2 31 5
        rests 2             none
        rests 3             rests % %
        insert use e        old -
        rests 1             rests use % r:1 r:2 r:31 r:5
    ''')
    s.rows('''
        page 1 leaf % % - open user:31 c user:1 a user:2 b    noted
        root __sled__default 1    noted
    ''')
    expect(s.ask('image')[0].startswith('corrupt'), s.wanted[-1])
    s.line('rests 1', 'rests user: 31 1 2')
    s.line('get user:1', 'refused E8')
