"""Trees by name: opened, dropped and opened anew, and told by their names."""
from cases_flights import below
from script import case, expect, key, pair, word

DEFAULT = '__sled__default'


def tree(s, name):
    """A tree becomes current."""
    s.line(f'tree {name}', f'tree {name}')


def named(s, *names):
    """These are the names of all trees."""
    s.line('names', *(f'name {name}' for name in names), f'end {len(names)}')


def recovered(is_there):
    """What a crash prints where the current tree is there, or not."""
    return 'recovered' if is_there else f'recovered, tree {DEFAULT}'


@case
def a_tree_is_the_same_as_long_as_it_stands(s):
    """To open a tree that is there changes nothing, and asks nothing of the store. Each tree has pairs of its own."""
    s.rows('''
        tree t                  tree t
        flush                   flushed 2
        insert a 1              old -
        tree t                  tree t
        get a                   value 1
        tree __sled__default    tree __sled__default
        get a                   value -
        insert a 2              old -
        tree u                  tree u
        get a                   value -
        insert b 3              old -
        tree t                  tree t
        remove a                old 1
        insert c 4              old -
        pop-max                 pair c 4
        len                     number 0
        old-tree t              tree t
        insert d 5              old -
        tree __sled__default    tree __sled__default
        first                   pair a 2
        last                    pair a 2
        dump                    pair __sled__default a 2
                                pair t d 5
                                pair u b 3
                                end 3
    ''')
    s.did(1 + 1 + 2 + 1 + 1 + 1 + 1 + 1)
    s.note('A store call would be refused, and none is made.')
    s.new(6)
    s.rows('''
        tree t                  tree t
        tree t                  tree t
        tree __sled__default    tree __sled__default
        names                   name __sled__default
                                name t
                                end 2
        owned drop u            no
        owned drop __sled__default  refused E2
        insert a 1              refused E4
        insert a 1              old -
    ''')


@case
def an_older_tree_is_what_its_name_was_before(s):
    """`old-tree` makes current what the line `tree` before the last one got: a tree of before it was dropped, or the same one where
    it stands. Without such a line there is none."""
    s.rows('''
        old-tree t              bad line 2: `t` has no older tree: fewer than two lines `tree` named it since the opening
        tree t                  tree t
        old-tree t              bad line 4: `t` has no older tree: fewer than two lines `tree` named it since the opening
        insert a 1              old -
        tree t                  tree t
        tree u                  tree u
        old-tree t              tree t
        get a                   value 1
        old-tree u              bad line 10: `u` has no older tree: fewer than two lines `tree` named it since the opening
        get a                   value 1
        owned drop t            yes
        tree t                  tree t
        old-tree t              tree t
        get a                   refused E1
        tree t                  tree t
        old-tree t              tree t
        get a                   value -
        old-tree t              tree t
        get a                   value -
    ''')
    s.note('The default tree is there from the opening on, and after each opening it is the only one, but for the tree that a crash leaves current.')
    s.rows('''
        old-tree __sled__default    tree __sled__default
        insert a 2                  old -
        tree __sled__default        tree __sled__default
        get a                       value 2
        old-tree __sled__default    tree __sled__default
        get a                       value 2
    ''')
    for line, printed in ('reopen', 'opened'), ('recover', 'opened'), ('crash 99', 'recovered'), ('new', 'opened'):
        tree(s, 't')
        tree(s, 't')
        expect(s.ask(line)[0] == printed, line)
        s.ask('dump')
        s.ask('old-tree t')
        expect(s.wanted[-1].startswith('tree t' if line == 'crash 99' else 'bad line'), s.wanted[-1])
        s.line(f'old-tree {DEFAULT}', f'tree {DEFAULT}')
    s.note('What is refused names nothing anew.')
    s.rows('''
        new refuse 4                opened
        tree t                      refused E4
        tree t                      tree t
    ''')
    s.ask('old-tree t')
    expect(s.wanted[-1].startswith('bad line'), s.wanted[-1])
    s.line('owned id', 'number 1')
    tree(s, 't')
    s.line('old-tree t', 'tree t')
    s.line('owned drop t', 'yes')
    s.line('owned flush', 'flushed 4')
    tree(s, 't')
    s.line('old-tree t', 'tree t')
    s.line('get a', 'refused E1')


@case
def the_current_tree_stays_what_it_was(s):
    """To drop a tree leaves the current one current, whether it is the one that goes or another. An opening makes the default tree
    current, and numbers the trees by their names."""
    s.rows('''
        tree t                             tree t
        insert a 1                         old -
        tree u                             tree u
        insert a 2                         old -
        owned drop t                       yes
        get a                              value 2
        owned drop u                       yes
        get a                              refused E1
        tree v                             tree v
        insert a 3                         old -
        tree A                             tree A
        insert a 4                         old -
        handle sledsh A 5                  done
        get a                              value 4
        handle sledsh v 4                  done
        get a                              value 3
        handle sledsh __sled__default 1    done
        get a                              value -
        handle sledsh v 3                  done
        get a                              refused E1
        handle other v 4                   done
        get a                              refused E2
        reopen                             opened
        get a                              value -
        handle sledsh A 1                  done
        get a                              value 4
        handle sledsh __sled__default 2    done
        get a                              value -
        handle sledsh v 3                  done
        get a                              value 3
        tree B                             tree B
        handle sledsh B 4                  done
        empty                              yes
        handle sledsh B 2                  done
        empty                              refused E1
        crash 9                            recovered
        empty                              yes
        handle sledsh B 2                  done
        empty                              yes
    ''')


@case
def names_of_any_bytes_are_in_their_order(s):
    """Names are any byte strings, also the empty one, the one of a `-`, and long ones. They are told in byte order, and so are
    the pairs of their trees. Forty trees stand beside the default one."""
    names = [b'', b'-', b'--', b'%', b'\0', b'\0\0', b'\xff', b'\xff\xff', b' ', b'A', b'Z', b'a', b'__sled__defaul', b'__sled__default\0',
             b'__sled__defaulu', b'___', b't' * 300, b't' * 299 + b'u', b'\n', '\xe4'.encode()]
    names += [b'n%d' % n for n in range(40 - len(names))]
    for name in names:
        tree(s, word(name))
        s.line(f'insert {word(name)} 1', 'old -')
    every = sorted(names + [DEFAULT.encode()])
    for line in None, 'reopen', 'crash 9':
        if line:
            s.ask(line)
        named(s, *map(word, every))
        s.line('dump', *(pair(word(n), '1', word(n)) for n in every if n != DEFAULT.encode()), 'end 40')
    for name in names[::2]:
        s.line(f'owned drop {word(name)}', 'yes')
    for name in names:
        s.line(f'owned drop {word(name)}', 'no' if name in names[::2] else 'yes')
    named(s, DEFAULT)
    s.rows('''
        tree %        tree %
        insert a 1    old -
        tree %2d      tree %2d
        insert a 2    old -
        tree %20      tree %20
        insert a 3    old -
        dump          pair % a 1
                      pair %20 a 3
                      pair %2d a 2
                      end 3
        owned drop %  yes
        owned drop %  no
        owned drop %2d  yes
        owned drop %2d  no
        tree %2d      tree %2d
        empty         yes
        old-tree %2d  tree %2d
        get a         refused E1
    ''')


@case
def a_dump_goes_over_all_trees(s):
    """A dump has the pairs of all trees, by the names of the trees and then by their keys, over one leaf and over many."""
    keys = {'a': 40, 'b': 0, 'c': 17, 'd': 18, 'z': 100}
    for n in range(100):
        for name, count in keys.items():
            if n < count:
                s.line(f'tree {name}', f'tree {name}')
                s.line(f'insert {key(n)} {name}', 'old -')
    tree(s, 'b')
    tree(s, DEFAULT)
    s.insert('%ff', '%', 'm')
    every = [(DEFAULT, [('%', '%'), ('m', 'm'), ('%ff', '%ff')])] + [(n, [(k, n) for k in below(c)]) for n, c in keys.items()]
    lines = [pair(k, v, name) for name, pairs in every for k, v in pairs]
    s.line('dump', *lines, f'end {len(lines)}')
    for name, levels in ('a', 2), ('b', 1), ('c', 1), ('z', 2):
        tree(s, name)
        expect(len(s.ask('pages')) == levels + 1, name)
    s.ask('flush')
    s.line('owned drop z', 'yes')
    lines = lines[:-100]
    s.line('dump', *lines, f'end {len(lines)}')
    s.line('crash 0', 'recovered')
    s.ask('dump')
    expect(s.wanted[-1] == f'end {len(lines) + 100}', s.wanted[-1])
    s.note('A page that cannot be read refuses the whole of it, whichever tree it is of.')
    s.new()
    tree(s, 't')
    s.insert('a')
    tree(s, 'u')
    s.insert('b')
    s.line('reopen unreadable 2', 'opened')
    s.line('dump', 'refused E4')
    s.line('names', f'name {DEFAULT}', 'name t', 'name u', 'end 3')
    tree(s, 'u')
    s.line('get b', 'value b')
    tree(s, 't')
    s.line('get a', 'refused E4')
    s.line('owned drop t', 'refused E4')
    tree(s, DEFAULT)
    s.line('owned drop u', 'yes')
    s.line('dump', 'refused E4')


@case
def a_tree_is_found_among_a_thousand(s):
    """A thousand trees with a pair each: every one has its own, and after an opening each is found by its name."""
    for n in (389 * place % 1000 for place in range(1000)):
        tree(s, f't{n:03d}')
        s.line(f'insert k v{n}', 'old -')
    for n in range(0, 1000, 97):
        tree(s, f't{n:03d}')
        s.line('get k', f'value v{n}')
    s.line('flush', 'flushed 3000')
    s.line('reopen', 'opened')
    for n in range(3, 1000, 83):
        tree(s, f't{n:03d}')
        s.line('get k', f'value v{n}')
        s.line(f'owned drop t{n:03d}', 'yes')
        s.line('get k', 'refused E1')
    s.ask('names')
    expect(s.wanted[-1] == 'end 988', s.wanted[-1])
    s.line('crash 12', 'recovered')
    s.ask('names')
    tree(s, 't500')
    s.line('cas k v500 x', 'swapped')


@case
def openings_and_drops_are_kept_with_their_names(s):
    """Of an opening a crash keeps nothing before the name stands, and of a drop everything before the name is out."""
    for keep, names in (0, ()), (1, ()), (2, 't'), (3, 't'), (9, 't'):
        s.new()
        tree(s, 't')
        s.line('insert a 1', 'old -')
        s.line(f'crash {keep}', recovered(names))
        named(s, DEFAULT, *names)
        s.line('dump', *[pair('a', 1, 't')] * (keep > 2), f'end {keep > 2:d}')
    for keep in range(6):
        s.new()
        tree(s, 't')
        s.insert(*below(18))
        s.ask('flush')
        s.line('owned drop t', 'yes')
        s.line('get %00', 'refused E1')
        s.line(f'crash {keep}', recovered(keep == 0))
        named(s, DEFAULT, *'t' * (keep == 0))
        tree(s, 't')
        s.line('len', f'number {18 if keep == 0 else 0}')
    s.note('A drop that was not flushed, the name opened anew, and a pair in the new tree.')
    for keep, value in (0, '1'), (1, '-'), (2, '-'), (3, '-'), (4, '-'), (5, '2'):
        s.new()
        tree(s, 't')
        s.line('insert a 1', 'old -')
        s.ask('flush')
        s.line('owned drop t', 'yes')
        tree(s, 't')
        s.line('insert a 2', 'old -')
        s.line(f'crash {keep}', recovered(keep in (0, 4, 5)))
        named(s, DEFAULT, *'t' * (keep in (0, 4, 5)))
        tree(s, 't')
        s.line('get a', f'value {value}')


@case
def an_owned_drop_ends_the_slots(s):
    """A drop by a call of the database itself ends all slots; the current tree stays what it was."""
    s.rows('''
        tree t                        tree t
        insert a 1                    old -
        begin get a                   slot 1
        tree __sled__default          tree __sled__default
        begin insert b 2              slot 2
        tree t                        tree t
        owned drop u                  no
        step 1                        no slot
        finish 2                      no slot
        begin get a                   slot 1
        owned drop __sled__default    refused E2
        step 1                        no slot
        get a                         value 1
        begin get a                   slot 1
        owned drop t                  yes
        step 1                        no slot
        get a                         refused E1
        owned insert a 1              refused E1
        owned drop t                  no
        tree t                        tree t
        owned insert a 2              old -
        old-tree t                    tree t
        owned remove a                refused E1
        owned flush                   flushed 8
        dump                          pair t a 2
                                      end 1
    ''')
