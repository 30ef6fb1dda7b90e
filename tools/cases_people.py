"""What the shell has for people: the tree that stays current over a crash, other names of lines, what is said of a mistyped one, files of lines
that are run, and pairs for a first look."""
from script import case, expect


@case
def a_crash_leaves_the_same_tree_current(s):
    """After a crash the tree is current again that was so before, where a tree of its name is there; else the default tree is, and the line
    says so."""
    s.rows('''
        tree birds          tree birds
        insert owl x        old -
        flush               flushed 3
        crash 0             recovered
        get owl             value x
        insert jay y        old -
        crash 0             recovered
        get jay             value -
        tree fish           tree fish
        insert eel z        old -
        crash 1             recovered, tree __sled__default
        get owl             value -
        crash 9             recovered
        tree birds          tree birds
        group birds wren w ; - kite k    done
        crash 9             recovered
        group birds wren v ; - kite j    done
        old-tree birds      tree birds
        get kite            value j
    ''')
    s.note('A tree that was dropped is current by its name, where the crash brings it back; and one that was made anew since.')
    s.rows('''
        flush               flushed 4
        drop birds          yes
        get kite            refused E1
        crash 0             recovered
        get kite            value j
        drop birds          yes
        crash 9             recovered, tree __sled__default
        tree birds          tree birds
        drop birds          yes
        tree birds          tree birds
        old-tree birds      tree birds
        get kite            refused E1
        crash 9             recovered
        get kite            value -
    ''')
    s.note('Other openings make the default tree current, as they ever did. A tree whose name is any bytes stays, too.')
    s.rows('''
        reopen              opened
        get wren            value -
        tree birds          tree birds
        recover             opened
        insert a 1          old -
        tree %00%20         tree %00%20
        flush               flushed 3
        crash 0             recovered
        insert b 2          old -
        dump                pair %00%20 b 2
                            pair __sled__default a 1
                            end 2
    ''')
    s.note('A handle of another database stands for a name, too; where an opening was refused no tree was current.')
    s.rows('''
        handle other birds 7    done
        get wren                refused E2
        crash 9                 recovered
        get wren                value -
        tree birds              tree birds
        recover refuse 1        refused E4
        get wren                refused E8
        crash 0                 recovered
        names                   name %00%20
                                name __sled__default
                                name birds
                                end 3
        get a                   value 1
    ''')


@case
def lines_have_other_names(s):
    """What sled and others call `insert`, `remove`, `range` and `names` is read, too; `iter` gives all pairs, and `version` says which shell it
    is."""
    s.rows('''
        set b 2             old -
        put a 1             old -
        put c 3             old -
        set b 4             old 2
        del c               old 3
        del c               old -
        get b               value 4
        tree t              tree t
        set x %20           old -
        ls                  name __sled__default
                            name t
                            end 2
        trees               name __sled__default
                            name t
                            end 2
        tree __sled__default    tree __sled__default
        version             sledsh 0.1.0
    ''')
    s.same('iter', 'range .. ..')
    s.same('scan .. ..', 'range .. ..')
    s.same('scan (a ..', 'range (a ..')
    s.line('tree u', 'tree u')
    s.line('iter', 'end 0')
    s.line('drop u', 'yes')
    s.line('iter', 'refused E1')
    s.line('set a 1', 'refused E1')
    for line, why in [('set a', '`set` takes K V, two words'), ('del', '`del` takes K, one word'), ('scan a b', '`a` is no bound: write [a'),
                      ('ls 1', '`ls` takes no words'), ('begin set a 1', '`set` does not follow `begin`; `help` lists what does')]:
        s.bad(line, why)


NEAR = [('INSERT a b', 'insert'), ('Get a', 'get'), ('inser a b', 'insert'), ('insertt a b', 'insert'), ('isnert a b', 'insert'), ('inzert a b', 'insert'),
        ('dum', 'dump'), ('dumps', 'dump'), ('removed a', 'remove'), ('rem a', 'remove'), ('delete a', 'del'), ('iterate', 'iter'), ('crush 1', 'crash'),
        ('flsuh', 'flush'), ('pop-mni', 'pop-min'), ('tre t', 'tree'), ('lst', 'lt'), ('LS', 'ls'), ('bat a 1', 'batch')]
FAR = ['crowd 1 2', 'a', 'xy', 'select', '1', '%20', '-', 'tt', 'deletion-of-all', 'help%20']


@case
def a_mistyped_word_is_near_to_a_command(s):
    """Of a word that is no command the line says which one it may have been meant to be: one that it is but for small and capital letters, one
    that differs in a letter, or one that begins as it does. Of a word that is near to none it says nothing."""
    for line, near in NEAR:
        s.bad(line, f'`{line.split(" ")[0]}` is no command; did you mean `{near}`? `help` lists them')
    for line in FAR:
        ask = s.ask(line)
        expect(len(ask) == 1 and 'is no command' in ask[0], line, ask)
    s.line('len', 'number 0')


SPACE = '; a space inside a word is spelled %20'


@case
def a_word_too_many_may_be_a_space(s):
    """A line with a word too many says how a space inside a word is spelled, where the line takes byte strings; one with too few does not."""
    for line, why in [
            ('insert owl hello world', f'`insert` takes K V, two words{SPACE}'), ('insert owl', '`insert` takes K V, two words'),
            ('get Bad Ems', f'`get` takes K, one word{SPACE}'), ('get', '`get` takes K, one word'),
            ('cas a b c d', f'`cas` takes K OLD NEW, three words{SPACE}'), ('tree my birds', f'`tree` takes NAME, one word{SPACE}'),
            ('begin insert a b c', f'`begin insert` takes K V, two words{SPACE}'), ('watch a b', f'`watch` takes P, one word{SPACE}'),
            ('batch a hello world', f'`batch` takes K NEW .., pairs{SPACE}'), ('batch a', '`batch` takes K NEW .., pairs'),
            ('import t a hello world', f'`import` takes NAME K V .., one word and pairs{SPACE}'),
            ('import t a', '`import` takes NAME K V .., one word and pairs'),
            ('update a append hello world', f'`update` takes K HOW, two words or three{SPACE}'),
            ('update a append', '`update` takes K HOW, two words or three'), ('root a b 1', f'`root` takes NAME PID, two words{SPACE}'),
            ('step 1 2', '`step` takes N, one word'), ('range .. .. ..', '`range` takes LO HI, two words'), ('len 1', '`len` takes no words'),
            ('crash 1 2', '`crash` takes N, one word')]:
        s.bad(line, why)
    s.rows('''
        insert Bad%20Ems hello%20world    old -
        first                             pair Bad%20Ems hello%20world
        update Bad%20Ems append %20!      value hello%20world%20!
    ''')


@case
def lines_of_a_dump(s):
    """The lines that `dump lines` printed of two trees and an empty one."""
    s.rows('''
        tree %2d                  tree %2d
        tree __sled__default      tree __sled__default
        insert % 1                old -
        insert %20 %25            old -
        insert %2d %2d            old -
        insert a %                old -
        tree t%20t                tree t%20t
        insert a 2                old -
        insert b %00%ff           old -
    ''')


AGAIN = ['tree %2d', 'tree __sled__default', 'insert % 1', 'insert %20 %25', 'insert %2d %2d', 'insert a %', 'tree t%20t', 'insert a 2', 'insert b %00%ff']


@case
def a_dump_is_made_again_by_its_lines(s):
    """`dump lines` prints lines that make all trees and pairs again, of any bytes, also those of an empty tree. They are read from a file, and
    by `sledrun` too."""
    s.line('dump lines', 'tree __sled__default')
    s.rows('''
        insert b 2                   old -
        insert % 1                   old -
        batch a % %2d %2d %20 %25    done
        remove b                     old 2
        tree t%20t                   tree t%20t
        insert a 2                   old -
        insert b %00%ff              old -
        tree %2d                     tree %2d
    ''')
    s.line('dump lines', *AGAIN)
    dump = s.ask('dump')
    s.new()
    s.line('run lines_of_a_dump.lines', *(line if line.startswith('tree') else 'old -' for line in AGAIN))
    s.line('dump', *dump)
    s.line('dump lines', *AGAIN)
    s.note('Where there is no database it is refused.')
    s.rows('''
        recover refuse 1   refused E4
        dump lines         refused E8
    ''')


@case
def lines_that_a_file_has(s):
    """Lines, of which one cannot be read, two have others run, and one ends the session before the last."""
    s.line('insert a 1', 'old -')
    s.bad('insert x', '`insert` takes K V, two words')
    s.ask('')
    s.line('run few_writes_and_a_flush.lines', 'old 1', 'old -', 'done', 'tree t', 'old -', 'flushed 9')
    s.line('each-crash few_writes_that_are_cleared.lines', 'crashes 14, each a beginning')
    s.line('get x', 'value 1')
    s.text += ['quit', 'insert y 2']


@case
def lines_of_a_crash(s):
    """Crashes and a new store, to be run over another store as well."""
    s.rows('''
        insert y 4              old -
        crash 0                 recovered
        get y                   value -
        tree u                  tree u
        crash 1                 recovered, tree __sled__default
        get y                   value -
        new                     opened
        insert z 1              old -
    ''')


@case
def a_file_of_lines_is_run(s):
    """`run` has the lines of a file answered one after the other, over the store as it is. Those that cannot be read are counted by their place in
    the file, and `quit` ends the file alone. In a file no others are run."""
    s.line('insert a 0', 'old -')
    s.line('run few_writes_and_a_flush.lines', 'old 0', 'old -', 'done', 'tree t', 'old -', 'flushed 10')
    s.line('get x', 'value 1')
    there = "does not stand in a file that a line has run"
    s.line('run lines_that_a_file_has.lines', 'old -', 'bad line 3 of the file: `insert` takes K V, two words', f'bad line 5 of the file: `run` {there}',
           f'bad line 6 of the file: `each-crash` {there}', 'value 1')
    s.line('get y', 'value -')
    s.line('insert y 3', 'old -')
    s.line('run lines_of_a_crash.lines', 'old 3', 'recovered', 'value -', 'tree u', 'recovered, tree __sled__default', 'value -', 'opened', 'old -')
    s.line('dump', 'pair __sled__default z 1', 'end 1')
    s.bad('run', '`run` takes FILE, one word')
    s.bad('run nothing.lines', '`nothing.lines` cannot be read')
    s.bad('run no_lines.lines x', '`run` takes FILE, one word; a space inside a word is spelled %20')
    s.line('run no_lines.lines')


@case
def a_tree_is_filled_for_a_first_look(s):
    """`fill` inserts so many pairs, whose keys sort as their numbers do. Each is an insert of its own, over what stands there."""
    s.rows('''
        fill 0                  filled 0
        fill 3                  filled 3
        dump                    pair __sled__default k000001 1
                                pair __sled__default k000002 2
                                pair __sled__default k000003 3
                                end 3
        crash 2                 recovered
        len                     number 2
        insert k000002 x        old 2
        watch %                 subscriber 1
        fill 3                  filled 3
        next 1                  event insert k000002 2
        next 1                  event insert k000003 3
        next 1                  event -
        fill 40                 filled 40
        pages                   level 1 4
                                level 4 16
                                end 2
        last                    pair k000040 40
        fill 1000               filled 1000
        len                     number 1000
        get k001000             value 1000
    ''')
    s.bad('fill', '`fill` takes N, one word')
    s.bad('fill 1000000', '`1000000` is more than 999999')
    s.note('It ends where one of them is refused; those before it are there.')
    s.rows('''
        new refuse 6            opened
        fill 9                  refused E4
        last                    pair k000002 2
        fill 9                  filled 9
        len                     number 9
        tree t                  tree t
        drop t                  yes
        fill 9                  refused E1
        fill 0                  filled 0
    ''')


@case
def the_keys_within_bounds_are_taken_out(s):
    """`remove-range` takes out all keys within two bounds, or none, and says how many. It is a group, and a call of the database itself, so that
    slots end."""
    for k in 'abcdefgh':
        s.line(f'insert {k} {k}', 'old -')
    s.rows('''
        flush                       flushed 8
        watch c                     subscriber 1
        begin get a                 slot 1
        remove-range [b (e          number 3
        step 1                      no slot
        next 1                      event remove c
        next 1                      event -
        flush                       flushed 5
        remove-range [b (e          number 0
        flush                       flushed 0
        owned remove-range (f ..    number 2
        remove-range .. ..          number 3
        empty                       yes
        remove-range (a (a          number 0
        batch a 1 b 2               done
        remove-range [b [a          number 0
        len                         number 2
    ''')
    s.note('A crash keeps all of it or nothing: its begin, three writes and its end are five actions.')
    for keep in range(6):
        s.new()
        s.line('batch a 1 b 2 c 3 d 4', 'done')
        s.line('flush', 'flushed 6')
        s.line('remove-range .. [c', 'number 3')
        s.line(f'crash {keep}', 'recovered')
        s.line('len', f'number {1 if keep == 5 else 4}')
    s.note('Where its tree is not there, or the store refuses its begin, nothing is taken out; a refusal midway closes the database.')
    s.rows('''
        tree t                      tree t
        drop t                      yes
        remove-range .. ..          refused E1
    ''')
    for refused, closes in (8, False), (9, True), (10, True), (11, True):
        s.new(refused)
        s.line('batch a 1 b 2', 'done')
        s.line('remove-range .. ..', 'refused E4')
        s.line('verify', 'refused E5' if closes else 'sound')
        s.line('recover', 'opened')
        s.line('len', 'number 2')
        s.line('remove-range .. ..', 'number 2')
        s.line('len', 'number 0')
    s.bad('remove-range a b', '`a` is no bound: write [a')
    s.bad('remove-range ..', '`remove-range` takes LO HI, two words')


@case
def how_large_all_trees_are(s):
    """`stats` says how many trees there are, their pages, the levels of the highest, and their pairs with the bytes of keys and values."""
    s.rows('''
        stats                   stats trees 1 pages 1 levels 1 pairs 0 key-bytes 0 value-bytes 0
        insert ab 12345         old -
        insert % %              old -
        stats                   stats trees 1 pages 1 levels 1 pairs 2 key-bytes 2 value-bytes 5
        tree t                  tree t
        stats                   stats trees 2 pages 2 levels 1 pairs 2 key-bytes 2 value-bytes 5
        fill 40                 filled 40
        stats                   stats trees 2 pages 6 levels 2 pairs 42 key-bytes 282 value-bytes 76
        begin insert k000041 x  slot 1
        drop t                  yes
        stats                   stats trees 1 pages 1 levels 1 pairs 2 key-bytes 2 value-bytes 5
        finish 1                refused E1
        stats                   stats trees 1 pages 1 levels 1 pairs 2 key-bytes 2 value-bytes 5
        reopen unreadable 1     opened
        stats                   refused E4
        recover refuse 1        refused E4
        stats                   refused E8
    ''')


@case
def a_range_is_taken_out_and_all_is_counted(s):
    """The keys within bounds are taken out of two leaves, and the pages of two trees are counted before and after: lines for
    `tests/refusals`, which refuses each request for memory of them."""
    letters = 'bcdefghijklmnopqr'
    s.line('batch ' + ' '.join(f'{k} {k}' for k in letters), 'done')
    s.line('get b', 'value b')
    s.rows('''
        tree t                      tree t
        batch % 12345 ulm %         done
        stats                       stats trees 2 pages 4 levels 2 pairs 19 key-bytes 20 value-bytes 22
        tree __sled__default        tree __sled__default
        owned watch %               subscriber 1
        owned remove-range (h [l    number 4
        owned next 1                event remove i
        owned next 1                event remove j
        owned next 1                event remove k
        owned next 1                event remove l
        owned next 1                event -
        stats                       stats trees 2 pages 4 levels 2 pairs 15 key-bytes 16 value-bytes 18
    ''')
