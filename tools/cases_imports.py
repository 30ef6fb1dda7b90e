"""Imports of pairs into trees by name."""
from cases_flights import below
from oracle import Shell
from script import case, expect, key, pair

DEFAULT = '__sled__default'


@case
def an_import_of_a_dump_has_the_same_dump(s):
    """What a database has is imported into a new one, which has the same then. A second time it is refused, and nothing changes."""
    s.rows('''
        insert a 1                                                     old -
        tree t                                                         tree t
        insert b 2                                                     old -
        dump                                                           pair __sled__default a 1
                                                                       pair t b 2
                                                                       end 2
        new                                                            opened
        import-all tree __sled__default a 1 ; tree t b 2               done
        dump                                                           pair __sled__default a 1
                                                                       pair t b 2
                                                                       end 2
        names                                                          name __sled__default
                                                                       name t
                                                                       end 2
        flush                                                          flushed 4
        import-all tree __sled__default a 1 ; tree t b 2               refused E2
        flush                                                          flushed 0
        dump                                                           pair __sled__default a 1
                                                                       pair t b 2
                                                                       end 2
        get a                                                          value 1
        tree t                                                         tree t
        get b                                                          value 2
    ''')


@case
def a_key_that_is_present_ends_an_import(s):
    """An import goes pair by pair. A key that is present is refused, with its own value and with another one; the pairs before it
    are in, and what comes behind it is not."""
    s.rows('''
        insert b 9                                 old -
        import __sled__default a 1 b 2 c 3         refused E2
        dump                                       pair __sled__default a 1
                                                   pair __sled__default b 9
                                                   end 2
        import __sled__default c 3 b 9 d 4         refused E2
        dump                                       pair __sled__default a 1
                                                   pair __sled__default b 9
                                                   pair __sled__default c 3
                                                   end 3
        import t a 1 a 1                           refused E2
        import t b 1 c 2 b 3                       refused E2
        import u                                   done
        dump                                       pair __sled__default a 1
                                                   pair __sled__default b 9
                                                   pair __sled__default c 3
                                                   pair t a 1
                                                   pair t b 1
                                                   pair t c 2
                                                   end 6
        names                                      name __sled__default
                                                   name t
                                                   name u
                                                   end 3
        import-all tree v ; tree t a 2 ; tree w    refused E2
        names                                      name __sled__default
                                                   name t
                                                   name u
                                                   name v
                                                   end 4
        flush                                      flushed 12
    ''')


@case
def types_are_tested_before_anything_is_imported(s):
    """A collection of a type that is not known is refused before the first one is taken in, and nothing changes."""
    s.rows('''
        import-all tree t a 1 ; map u b 2        refused E2
        import-type map t a 1                    refused E2
        import-type % t                          refused E2
        import-type Tree t                       refused E2
        import-type tree%20 t a 1                refused E2
        import-all map t a 1 ; tree u b 2        refused E2
        import-all tree t a 1 ; tree u b 2 ; trees v    refused E2
        names                                    name __sled__default
                                                 end 1
        flush                                    flushed 0
        import-type tree t a 1                   done
        import-type map t a 1                    refused E2
        import-type tree t a 1                   refused E2
        names                                    name __sled__default
                                                 name t
                                                 end 2
        dump                                     pair t a 1
                                                 end 1
    ''')


@case
def imports_of_any_bytes_and_many_pairs(s):
    """Names, keys and values are any byte strings; pairs need no order, and one name may come twice. Many pairs make many pages."""
    s.rows('''
        import % % % %2d %2d            done
        import %2d b 1 a 2 %00 3        done
        import-all tree t ; tree t a %3b ; tree t %3b a ; tree %    done
        dump                            pair % % %
                                        pair % %2d %2d
                                        pair %2d %00 3
                                        pair %2d a 2
                                        pair %2d b 1
                                        pair t ; a
                                        pair t a ;
                                        end 7
    ''')
    s.note('A byte string of a `;` stands for itself where there is one collection.')
    s.line('import ; ; ;', 'done')
    s.line('import-type tree ; a ;', 'done')
    s.line('import-all tree %3b b %3b', 'done')
    s.line('tree ;', 'tree ;')
    s.line('range .. ..', 'pair ; ;', 'pair a ;', 'pair b ;', 'end 3')
    s.new()
    keys = [key(41 * n % 100) for n in range(100)]
    s.line('import t ' + ' '.join(f'{k} {k}' for k in keys), 'done')
    s.line('tree t', 'tree t')
    s.line('len', 'number 100')
    s.line('first', 'pair %00 %00')
    s.line('last', 'pair c c')
    s.line('dump', *(pair(k, k, 't') for k in below(100)), 'end 100')
    expect(len(s.ask('pages')) == 3, 'the hundred pairs have two levels')
    s.line('import t ' + ' '.join(f'%ff{k} 1' for k in keys) + ' c 2 %ff 3', 'refused E2')
    s.line('tree t', 'tree t')
    s.line('len', 'number 200')


@case
def an_import_stands_beside_calls_in_flight(s):
    """An import is one step: no call in flight goes on meanwhile, and each finds afterwards what was imported. The current tree
    stays."""
    s.rows('''
        begin insert a 1            slot 1
        begin get b                 slot 2
        tree t                      tree t
        begin insert a 2            slot 3
        begin cas a - 3             slot 4
        step 1                      moved
        step 3                      moved
        step 4                      moved
        import __sled__default b 5 a 4      done
        get a                       value -
        import t a 6                done
        get a                       value 6
        step 1                      moved
        step 1                      moved
        step 1                      old 4
        step 2                      value 5
        finish 3                    old 6
        finish 4                    conflict 2 3
        drop t                      yes
        import t a 7                done
        get a                       refused E1
        tree t                      tree t
        get a                       value 7
        operator concat             done
        import t b 1                done
        merge b 2                   value 12
        dump                        pair __sled__default a 1
                                    pair __sled__default b 5
                                    pair t a 7
                                    pair t b 12
                                    end 4
    ''')
    s.note('What is half done in a tree is gone on with.')
    for steps in range(8):
        s.new()
        s.insert(*below(17))
        s.begin(1, 'insert %11 %11')
        s.moves(1, steps)
        s.line(f'import {DEFAULT} %12 %12 %10 %10', 'refused E2')
        s.line('finish 1', 'old -')
        s.holds(*below(19))


SCRIPT = [f'import-all tree t a 1 b 2 ; tree {DEFAULT} c 3 ; tree u', 'import t ' + ' '.join(f'{k} {k}' for k in below(17, 1)), 'import u x y']


@case
def each_store_call_of_an_import_is_refused(s):
    """Each call of the store that imports make is refused in turn: the trees that are open and the pairs that are in stay, the rest
    is imported then, and at the end all is there."""
    shell = Shell()
    for line in SCRIPT:
        shell.run(line)
    for number in range(shell.store.calls - 3):
        s.new(4 + number)
        refused = 0
        for line in SCRIPT:
            if s.ask(line) == ['refused E4']:
                refused += 1
                there = {pair for pair in s.shell.run('dump') if pair.startswith('pair')}
                s.ask('names')
                s.ask('dump')
                for part in line.removeprefix('import-all tree ').removeprefix('import ').split(' ; tree '):
                    name, *words = part.split(' ')
                    left = [f'{k} {v}' for k, v in zip(words[::2], words[1::2]) if pair(k, v, name) not in there]
                    s.line(' '.join(['import', name] + left), 'done')
        expect(refused == 1, number)
        s.ask('dump')
        expect(s.wanted[-1] == 'end 20', s.wanted[-1])
        s.ask('names')
        expect(s.wanted[-1] == 'end 3', s.wanted[-1])
        s.line('recover', 'opened')
        s.ask('dump')


@case
def each_crash_after_an_import_keeps_a_beginning(s):
    """A crash keeps of an import a beginning: trees that were opened, and pairs, one after the other."""
    shell = Shell()
    for line in SCRIPT:
        shell.run(line)
    for keep in range(len(shell.store.recent) + 1):
        s.new()
        for line in SCRIPT:
            s.line(line, 'done')
        s.line(f'crash {keep}', 'recovered')
        s.ask('names')
        s.ask('dump')


@case
def imports_that_cannot_be_read_or_made(s):
    """Lines that import and cannot be read, and imports without a database."""
    for line in ('import', 'import t a', 'import t a 1 b', 'import - a 1', 'import t - 1', 'import t a -', 'import t a %zz', 'import t a 1 ; u b', 'import-type',
                 'import-type tree', 'import-type tree t a', 'import-type - t', 'import-all', 'import-all tree', 'import-all tree t ;', 'import-all ; tree t',
                 'import-all tree t ; ; tree u', 'import-all tree t a ; tree u b', 'import-all tree t a 1 ; tree u b', 'import-all tree t a - ; tree u',
                 'import-all tree t a 1 ;tree u b', 'imports t', 'begin import t', 'owned import t a 1', 'import t  a', 'import t a 1 '):
        s.ask(line)
        expect(s.wanted[-1].startswith('bad line'), line, s.wanted[-1])
    s.line('names', f'name {DEFAULT}', 'end 1')
    s.did(0)
    s.note('An import of pairs that cannot be found or put in.')
    s.rows('''
        import t a 1 b 2               done
        reopen unreadable 2            opened
        import t c 3                   refused E4
        import-all tree u a 1 ; tree t c 3 ; tree v    refused E4
        names                          name __sled__default
                                       name t
                                       name u
                                       end 3
        recover                        opened
        import t c 3                   done
        dump                           pair t a 1
                                       pair t b 2
                                       pair t c 3
                                       pair u a 1
                                       end 4
        new refuse 1                   refused E4
        import t a 1                   refused E8
        import-type map t              refused E8
        import-all tree t ; tree u     refused E8
        reopen                         opened
        import t a 1                   done
    ''')
