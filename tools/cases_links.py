"""As what pages are kept: a base, and links over it, of which the ninth folds."""
from script import case, expect


@case
def a_page_is_kept_as_a_base_and_its_links(s):
    """A write is a link over the base of its page, and the ninth folds: the base is the page after all nine then, and there is no link. What
    changes nothing is no link."""
    s.line('parts 1', 'parts 0 0')
    for at, k in enumerate('bcdefghi', 1):
        s.line(f'insert {k} {at}', 'old -')
        s.line('parts 1', f'parts 0 {at}')
    s.rows('''
        insert j 9          old -
        parts 1             parts 9 0
        insert k 10         old -
        parts 1             parts 9 1
        insert k 10         old 10
        parts 1             parts 9 1
        remove a            old -
        get b               value 1
        cas b 2 3           conflict 1 3
        parts 1             parts 9 1
        remove b            old 1
        parts 1             parts 9 2
        cas c 2 3           swapped
        update c append x   value 3x
        batch c 4 c 5 d 6   done
        parts 1             parts 9 6
        pop-min             pair c 5
        parts 1             parts 9 7
        flush               flushed 18
        parts 1             parts 9 7
        reopen              opened
        parts 1             parts 9 7
        insert d 7          old 6
        insert d 8          old 7
        parts 1             parts 8 0
        parts 2             none
        parts 0             none
    ''')
    s.note('Each tree has pages of its own; those of one that was dropped are gone. They are told as they are, also where no database is open.')
    s.rows('''
        tree t              tree t
        parts 2             parts 0 0
        insert a 1          old -
        parts 2             parts 0 1
        begin insert a 2    slot 1
        parts 2             parts 0 1
        finish 1            old 1
        parts 2             parts 0 2
        flush               flushed 6
        recover refuse 1    refused E4
        parts 2             parts 0 2
        get a               refused E8
        recover             opened
        parts 1             parts 8 0
        drop t              yes
        parts 2             none
        new                 opened
        parts 1             parts 0 0
    ''')
    s.bad('parts', '`parts` takes PID, one word')
    s.bad('parts x', '`x` is no number: decimal digits without leading zeros')


def kept(writes):
    """What is told of a page after so many links that each set the one key it has."""
    return f'parts {int(writes > 8)} {writes % 9}'


@case
def a_crash_takes_links_and_folds_back(s):
    """Each crash leaves a page as it was kept after so many of its links, whether it takes links back, one fold or two; and the links that come
    then stand over what it left."""
    for keep in range(21):
        s.new()
        for at in range(1, 21):
            s.line(f'insert a {at}', 'old ' + (str(at - 1) if at > 1 else '-'))
        s.line('parts 1', kept(20))
        s.line(f'crash {keep}', 'recovered')
        s.line('parts 1', kept(keep))
        s.line('get a', f'value {keep or "-"}')
        for at in range(keep + 1, keep + 5):
            s.line('insert a x' if at == keep + 1 else f'insert a {at}', 'old ' + ('x' if at == keep + 2 else str(at - 1) if at > 1 else '-'))
            s.line('parts 1', kept(at))
    s.note('The same with a flush after five links, which no crash takes back.')
    for keep in range(16):
        s.new()
        for at in range(1, 21):
            s.line(f'insert a {at}', 'old ' + (str(at - 1) if at > 1 else '-'))
            if at == 5:
                s.line('flush', 'flushed 5')
        s.line(f'crash {keep}', 'recovered')
        s.line('parts 1', kept(keep + 5))
        s.line('crash 0', 'recovered')
        s.line('parts 1', kept(keep + 5))
        s.line('insert a y', f'old {keep + 5}')
        s.line('crash 0', 'recovered')
        s.line('parts 1', kept(keep + 5))


LETTERS = 'bcdefghijklmnopqrs'


@case
def links_are_drawn_where_that_is_asked_for(s):
    """A split puts new bases in the place of a page, and the pointer to the new page too; what a merge does to its child and to their index are
    links. `draw links` tells of each page how many entries its base has, and how many links are kept over it."""
    s.line('draw links', 'level 0', 'leaf 1 from % to .. base 0 links 0:')
    for n, k in enumerate(LETTERS, 1):
        s.line(f'insert {k} {n}', 'old -')
    left = ' '.join(f'{k}={n}' for n, k in enumerate(LETTERS[:8], 1))
    right = ' '.join(f'{k}={n}' for n, k in enumerate(LETTERS[8:], 9))
    s.line('draw links', 'level 0', 'index 3 from % to .. base 2 links 0: %->1 j->2', 'level 1', f'leaf 1 under 3 from % to j next 2 base 8 links 0: {left}',
           f'leaf 2 under 3 from j to .. base 9 links 1: {right}')
    for k in LETTERS[9:14]:
        s.line(f'remove {k}', f'old {LETTERS.index(k) + 1}')
    s.line('draw links', 'level 0', 'index 3 from % to .. base 2 links 0: %->1 j->2', 'level 1', f'leaf 1 under 3 from % to j next 2 base 8 links 0: {left}',
           'leaf 2 under 3 from j to .. base 9 links 6: j=9 p=15 q=16 r=17 s=18')
    s.note('A removal behind which the right leaf is merged, drawn after each of its steps, and after a crash at each of its actions.')
    for keep in range(7):
        s.new()
        for n, k in enumerate(LETTERS, 1):
            s.line(f'insert {k} {n}', 'old -')
        for k in LETTERS[9:16]:
            s.line(f'remove {k}', f'old {LETTERS.index(k) + 1}')
        s.ask('flush')
        s.begin(1, 'remove s')
        while s.ask('step 1') == ['moved']:
            if keep == 0:
                s.ask('draw links')
        s.line(f'crash {keep}', 'recovered')
        s.ask('draw links')
    top = 'index 3 from % to .. base 2 links 2: %->1'
    s.line('draw links', 'level 0', top, 'level 1', f'leaf 1 under 3 from % to .. base 11 links 1: {left} j=9 r=17')


@case
def links_that_fold(s):
    """Writes of one page that fold four times, among them a batch, a removal and a clear."""
    for at in range(1, 12):
        s.line(f'insert a {at}', 'old ' + (str(at - 1) if at > 1 else '-'))
    s.rows('''
        batch b 1 c 2 d 3 e 4 f 5 a %    done
        remove b            old 1
    ''')
    for at in range(12):
        s.line(f'insert c {at}', 'old ' + (str(at - 1) if at else '2'))
    s.rows('''
        clear               done
        insert a 1          old -
    ''')


@case
def each_refused_call_and_crash_over_links(s):
    """Over writes of which some fold, each call of the store is refused in turn, and a crash keeps each number of actions in turn."""
    for word in 'each-refusal', 'each-crash':
        printed = s.ask(f'{word} links_that_fold.lines')
        expect(printed[0].endswith(('all the same', 'each a beginning')), printed)
    s.ask('run links_that_fold.lines')
    s.line('parts 1', 'parts 1 0')
    s.new()
    s.note('A link and a fold that are refused leave the page as it was kept.')
    for refused in range(4, 16):
        s.new(refused)
        for at in range(1, 13):
            if at + 3 == refused:
                s.line('parts 1', kept(at - 1))
                s.line(f'insert a {at}', 'refused E4')
                s.line('parts 1', kept(at - 1))
            s.line(f'insert a {at}', 'old ' + (str(at - 1) if at > 1 else '-'))
            s.line('parts 1', kept(at))
