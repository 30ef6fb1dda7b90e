"""Trees that are dropped by name, also under calls in flight, and ids beside them."""
import random
from cases_flights import below
from cases_levels import numbered
from cases_names import DEFAULT, named, tree
from oracle import GREATEST, Shell
from script import case, crowd_case, expect, pair

# Lines that make a call on the current tree, and a direct read of it.
CALLS = ('insert x 2', 'get x', 'remove x', 'cas x 1 2', 'begin insert x 2', 'begin get x', 'begin remove x', 'begin cas x - 1', 'begin scan .. ..',
         'begin scan-back [b [a', 'operator keep',
         'merge x 1', 'begin merge x 1', 'has x', 'read x', 'lt x', 'gt x', 'first', 'last', 'len', 'empty', 'range .. ..', 'range-back [a (b',
         'range-ends .. ..', 'prefix x', 'prefix-back %', 'keys .. ..', 'keys-back .. ..', 'values .. ..', 'values-back .. ..', 'pop-min',
         'pop-max', 'clear', 'batch', 'batch x 2', 'group - x 2', 'owned batch', 'owned batch x 2', 'owned insert x 2', 'owned set x 2', 'owned remove x', 'owned del x', 'owned cas x 1 2', 'owned merge x 1',
         'owned pop-min', 'owned pop-max', 'owned clear')


@case
def a_tree_that_was_dropped_is_refused_by_its_old_value(s):
    """A tree that was dropped is refused by what named it, also after its name is opened anew. The new tree is empty."""
    s.rows('''
        tree t                  tree t
        insert x 1              old -
        drop t                  yes
        get x                   refused E1
        drop t                  no
        tree t                  tree t
        get x                   value -
        insert x 2              old -
        old-tree t              tree t
        get x                   refused E1
        drop __sled__default    refused E2
        tree t                  tree t
        get x                   value 2
        names                   name __sled__default
                                name t
                                end 2
        dump                    pair t x 2
                                end 1
    ''')
    s.note('So is each call that is made on it. The other calls go on.')
    for anew in False, True:
        s.new()
        s.rows('''
            tree t                  tree t
            insert x 1              old -
            drop t                  yes
        ''')
        if anew:
            s.rows('''
                tree t                  tree t
                insert x 3              old -
                operator concat         done
                old-tree t              tree t
            ''')
        for line in CALLS:
            s.line(line, 'refused E1')
        s.line('pages', 'refused E1')
        s.line('id', 'number 1')
        s.line('recovered', 'no')
        s.line('dump', *[pair('x', 3, 't')] * anew, f'end {anew:d}')
        s.ask('flush')
        s.line('drop u', 'no')
        s.line(f'tree {DEFAULT}', f'tree {DEFAULT}')
        s.line('insert x 4', 'old -')


@case
def each_tree_has_an_operator_of_its_own(s):
    """An operator is given to one tree. It goes with the tree, and a new tree of that name has none."""
    s.rows('''
        tree t                  tree t
        operator concat         done
        merge a 1               value 1
        tree __sled__default    tree __sled__default
        merge a 1               refused E2
        operator before         done
        merge a 1               value 1
        merge a 2               value 21
        tree t                  tree t
        merge a 2               value 12
        begin merge a 3         slot 1
        tree u                  tree u
        begin merge a 3         refused E2
        tree t                  tree t
        drop t                  yes
        merge a 3               refused E1
        tree t                  tree t
        merge a 3               refused E2
        operator max            done
        merge a 3               value 3
        step 1                  refused E1
        tree __sled__default    tree __sled__default
        owned merge a 3         value 321
        tree t                  tree t
        owned merge a 2         value 3
    ''')


# Dropping under calls in flight.

@case
def a_call_in_flight_in_a_dropped_tree_is_refused(s):
    """A call in flight whose tree was dropped is refused at its next step, and its slot ends, also where the name was opened anew
    before. How often it went on is still told, and it can be given up."""
    for anew in False, True:
        s.new()
        s.rows('''
            tree t              tree t
            begin insert a 1    slot 1
            begin get a         slot 2
            begin remove a      slot 3
            begin cas a - 1     slot 4
            begin insert b 2    slot 5
            step 1              moved
            step 5              moved
            drop t              yes
        ''')
        if anew:
            tree(s, 't')
            s.line('begin get a', 'slot 6')
        s.rows('''
            turns 1             number 1
            step 1              refused E1
            step 1              no slot
            turns 1             no slot
            finish 2            refused E1
            finish 2            no slot
            step 3              refused E1
            turns 4             number 0
            abandon 4           abandoned
            abandon 4           no slot
            finish 5            refused E1
            flush               flushed %d
        ''' % (4 + 2 * anew))
        if anew:
            s.line('step 6', 'value -')
        s.line('dump', 'end 0')
    s.note('A drop between two calls of other trees.')
    s.new()
    s.rows('''
        begin insert a 1          slot 1
        tree t                    tree t
        begin insert a 2          slot 2
        tree u                    tree u
        begin insert a 3          slot 3
        step 1                    moved
        step 2                    moved
        step 3                    moved
        drop t                    yes
        step 1                    old -
        step 2                    refused E1
        step 3                    old -
        tree __sled__default      tree __sled__default
        dump                      pair __sled__default a 1
                                  pair u a 3
                                  end 2
    ''')


@crowd_case
def a_list_of_steps_goes_over_a_drop(s):
    """A list of steps of calls of three trees, one of which was dropped meanwhile: its step is refused, and those of the others are
    decided."""
    s.rows('''
        begin insert a 1          slot 1
        tree t                    tree t
        begin insert a 2          slot 2
        tree u                    tree u
        begin insert a 3          slot 3
        step 1                    moved
        step 2                    moved
        step 3                    moved
        drop t                    yes
        run step 1, step 2, step 3    value -
                                  refused E1
                                  value -
        tree __sled__default      tree __sled__default
        dump                      pair __sled__default a 1
                                  pair u a 3
                                  end 2
    ''')


def dropped_under(s, line, steps, prepare, others):
    """A call in tree t goes so many steps, and its tree is dropped. It is refused, and calls in other trees go on to their ends."""
    s.new()
    for name in 't', 'u', DEFAULT:
        tree(s, name)
        prepare(s)
    for slot, name in enumerate(('t', 'u', DEFAULT, 't'), 1):
        tree(s, name)
        s.begin(slot, line)
    for _ in range(steps):
        for slot in 1, 2, 3:
            s.moves(slot)
    s.ask('flush')
    s.line('drop t', 'yes')
    s.line('step 1', 'refused E1')
    s.line('step 1', 'no slot')
    s.line('finish 4', 'refused E1')
    tree(s, 't')
    s.line('dump', *(pair(k, k, name) for name in (DEFAULT, 'u') for k in others), f'end {2 * len(others)}')


def goes_to_its_end(s, answer, left, levels):
    """The calls in the other trees go to their ends, and leave these keys."""
    s.line('finish 2', answer)
    while s.ask('step 3') == ['moved']:
        pass
    expect(s.wanted[-1] == answer, s.wanted[-1])
    lines = [pair(k, k, name) for name in (DEFAULT, 'u') for k in left]
    s.line('dump', *lines, f'end {len(lines)}')
    s.line('crash 999', 'recovered')
    s.line('dump', *lines, f'end {len(lines)}')
    for name in 'u', DEFAULT:
        tree(s, name)
        s.pages(*levels)
    tree(s, 't')
    s.line('empty', 'yes')


@case
def a_tree_is_dropped_at_every_stage_of_a_split(s):
    """The insert that splits a leaf goes on seven times. After each of its steps its tree is dropped under it; the same inserts in two
    other trees go on to their ends."""
    for steps in range(8):
        dropped_under(s, 'insert %11 %11', steps, lambda s: s.insert(*below(17)), below(17))
        goes_to_its_end(s, 'old -', below(18), ((1, 2), (2, 10)))


@case
def a_tree_is_dropped_at_every_stage_of_a_merge(s):
    """The removal that merges two leaves goes on eleven times. After each of its steps its tree is dropped under it; the same removals
    in two other trees go on to their ends."""
    def prepare(s):
        s.insert(*below(18))
        s.remove(*below(18, 11)[::-1])

    for steps in range(12):
        dropped_under(s, 'remove %0a', steps, prepare, below(11))
        goes_to_its_end(s, 'old %0a', below(10), ((1, 1), (1, 10)))


@case
def the_pages_of_a_dropped_tree_are_freed(s):
    """To drop a tree takes its name out, and then frees its pages one by one, from the leaves up. What stands half done is found
    where it is reached, and a page that nothing leads to any more is left."""
    s.new()
    tree(s, 't')
    s.did(2)
    s.line('drop t', 'yes')
    s.did(2)
    for count, pages in (17, 1), (18, 3), (25, 3), (26, 4):
        tree(s, 't')
        s.insert(*below(count))
        s.ask('flush')
        s.line('drop t', 'yes')
        s.did(1 + pages)
    s.note('After each step of an insert that splits the only leaf, and of a removal that merges two.')
    for line, build, counts in (('insert %11 %11', 17, (1, 1, 1, 2, 2, 3, 3, 3)), ('remove %0a', 18, (3,) * 7 + (2,) * 5)):
        for steps, pages in enumerate(counts):
            s.new()
            tree(s, 't')
            s.insert(*below(build))
            if build == 18:
                s.remove(*below(18, 11)[::-1])
            s.begin(1, line)
            s.moves(1, steps)
            s.ask('flush')
            s.line('drop t', 'yes')
            s.did(1 + pages)
            s.line('step 1', 'refused E1')
            named(s, DEFAULT)


@case
def a_tree_whose_pages_cannot_be_read_is_dropped_or_stays(s):
    """A drop reads the first page of each level before the name goes: where one cannot be read it is refused, and the tree
    stays. Another page that cannot be read ends the freeing of its level, and the tree is gone."""
    for pid, printed in (2, 'refused E4'), (3, 'yes'), (4, 'refused E4'), (5, 'yes'), (99, 'yes'):
        s.new()
        tree(s, 't')
        s.insert(*below(27))
        s.line(f'reopen unreadable {pid}', 'opened')
        tree(s, 't')
        s.begin(1, 'insert x x')
        s.line('drop t', printed)
        named(s, DEFAULT, *['t'] * (printed != 'yes'))
        s.line('turns 1', 'number 0')
        if printed == 'yes':
            s.line('step 1', 'refused E1')
            s.did({3: 3, 5: 4, 99: 5}[pid])
        else:
            s.ask('step 1')
            s.did(0)
        s.line('recover', 'opened')
        tree(s, 't')
        s.ask('len')


# Refusals.

@case
def to_open_and_to_drop_are_refused_by_the_store(s):
    """To open makes three calls of the store. A new tree takes two more: a page, and the name; to drop it takes the name out and then
    frees its page."""
    s.rows('''
        new refuse 4    opened
        tree t          refused E4
        names           name __sled__default
                        end 1
        tree t          tree t
        flush           flushed 2
    ''')
    s.note('A name that is refused leaves a page without one.')
    s.rows('''
        new refuse 5    opened
        tree t          refused E4
        names           name __sled__default
                        end 1
        insert a 1      old -
        flush           flushed 2
        tree t          tree t
        flush           flushed 2
        get a           value -
    ''')
    s.note('Where the name cannot be taken out the tree stays.')
    s.rows('''
        new refuse 6    opened
        tree t          tree t
        drop t          refused E4
        names           name __sled__default
                        name t
                        end 2
        begin get a     slot 1
        step 1          value -
        drop t          yes
        flush           flushed 4
    ''')
    s.note('A page that cannot be freed is left, and the tree is gone all the same.')
    s.rows('''
        new refuse 7    opened
        tree t          tree t
        drop t          yes
        names           name __sled__default
                        end 1
        flush           flushed 3
        get a           refused E1
        tree t          tree t
        get a           value -
    ''')
    s.note('Without a database every call is refused. What was refused while it was open changed nothing.')
    s.rows('''
        new refuse 1         refused E4
        tree t               refused E8
        drop t               refused E8
        id                   refused E8
        names                refused E8
        owned drop t         refused E8
        owned id             refused E8
        old-tree t           bad line 42: `t` has no older tree: fewer than two lines `tree` named it since the opening
        reopen               opened
        names                name __sled__default
                             end 1
        tree t               tree t
    ''')


SCRIPT = ['id', 'tree t', 'insert a 1', *(f'insert {k} {k}' for k in below(18)), 'tree u', 'insert b 2', 'drop t', 'tree t', 'insert c 3',
          f'tree {DEFAULT}', 'insert d 4', 'id', 'drop u', 'flush', 'tree u', 'insert e 5', 'drop t', 'id', 'drop t']


@case
def each_store_call_of_trees_by_name_is_refused(s):
    """A few trees are opened, filled and dropped, where each call of the store is refused in turn. What was refused changed nothing,
    and is made again; only what is refused after a name is gone is not told."""
    shell = Shell()
    clean = [shell.run(line) for line in SCRIPT]
    calls = shell.store.calls - 3
    told = 0
    for number in range(calls):
        s.new(4 + number)
        for line, answer in zip(SCRIPT, clean):
            before = s.shell.run('dump'), s.shell.run('names')
            printed = s.ask(line)
            if printed == ['refused E4']:
                told += 1
                expect((s.shell.run('dump'), s.shell.run('names')) == before, line)
                printed = s.ask(line)
            if not line.startswith('flush'):
                expect(printed == answer, line, printed, answer)
        named(s, DEFAULT, 'u')
        s.line('dump', pair('d', 4), pair('e', 5, 'u'), 'end 2')
        s.line('recover', 'opened')
        s.line('dump', pair('d', 4), pair('e', 5, 'u'), 'end 2')
    expect(calls - told == 5, 'the calls that free pages are not told', calls, told)


@case
def each_crash_of_trees_by_name_keeps_a_beginning(s):
    """A few trees are opened, filled and dropped. A crash keeps what was decided up to some moment: a tree is there with its name,
    and goes with it."""
    lines = [line for line in SCRIPT if line != 'flush']
    shell = Shell()
    for line in lines:
        shell.run(line)
    for keep in range(len(shell.store.recent) + 1):
        s.new()
        for line in lines:
            s.ask(line)
        s.ask(f'crash {keep}')
        s.ask('names')
        s.ask('dump')
        s.line('id', 'number 4097')
        if keep % 5 == 0:
            tree(s, 't')
            s.line('insert z z', 'old -')
            s.ask('drop u')
            s.ask('dump')
            s.line('get z', 'value z')


# Ids.

@case
def ids_are_given_beside_calls_in_flight(s):
    """`id` gives the next id and ends no slot. Ids rise over crashes and openings, and never come again."""
    s.rows('''
        id                  number 1
        begin insert a 1    slot 1
        step 1              moved
        id                  number 2
        owned id            number 3
        step 1              no slot
        begin insert a 1    slot 1
        tree t              tree t
        id                  number 4
        drop t              yes
        id                  number 5
        step 1              moved
        step 1              old -
        flush               flushed 5
        id                  number 6
        flush               flushed 0
        crash 0             recovered, tree __sled__default
        id                  number 4097
        owned id            number 4098
        reopen              opened
        id                  number 8193
        recover             opened
        id                  number 12289
        pages               level 1 1
                            end 1
        id                  number 12290
        new                 opened
        id                  number 1
    ''')
    s.note('Row by row: two ids, a crash that keeps nothing, and the next.')
    s.rows('''
        new          opened
        id           number 1
        id           number 2
        crash 0      recovered
        id           number 4097
    ''')
    s.note('Where none can be set aside an id is refused, and was not given.')
    s.rows('''
        new refuse 4            opened
        begin get a             slot 1
        id                      refused E4
        id                      number 1
        step 1                  value -
        reopen mark 18446744073709551614    opened
        id                      number 18446744073709551615
        id                      refused E2
        owned id                refused E2
        id                      refused E2
        crash 9                 recovered
        id                      refused E2
        insert a 1              old -
    ''')
    s.new()
    s.line(f'reopen mark {GREATEST}', 'opened')
    s.line('id', 'refused E2')


# Calls of the database itself, lines that cannot be read, and a mixture.

@case
def names_that_cannot_be_read(s):
    """Lines of trees by name and of ids that cannot be read change nothing: the current tree and the slots stay."""
    tree(s, 't')
    s.line('insert a 1', 'old -')
    s.begin(1, 'get a')
    for line in ('tree', 'tree ', 'tree -', 'tree a b', 'tree %zz', 'tree %A0', 'Tree t', 'treess', 'old-tree', 'old-tree -', 'old-tree t u', 'old-tree ',
                 'old', 'drop', 'drop ', 'drop -', 'drop t t', 'drop %', 'id 1', 'id ', 'ids', 'names t', 'owned drop', 'owned drop -', 'owned drop t u',
                 'owned id 1', 'owned tree t', 'owned names', 'owned old-tree t', 'begin tree t', 'begin drop t', 'begin id'):
        s.ask(line)
        expect(line == 'drop %' or s.wanted[-1].startswith('bad line'), line)
        s.line('turns 1', 'number 0')
        s.line('get a', 'value 1')
    s.line('step 1', 'value 1')


def mixture(s, seed, count):
    """Lines at random over four names and their trees of before, with crashes and openings."""
    dice = random.Random(seed)
    names = ['t', 'u', '%', DEFAULT]
    for _ in range(count):
        roll = dice.randrange(100)
        k, v = numbered(dice.randrange(30)), dice.randrange(3)
        call = dice.choice((f'insert {k} {v}',) * 3 + (f'remove {k}', f'get {k}', f'cas {k} {dice.choice((0, 1, "-"))} {v}'))
        if roll < 12:
            s.ask(f'tree {dice.choice(names)}')
        elif roll < 16:
            s.ask(f'old-tree {dice.choice(names)}')
        elif roll < 19:
            s.ask(f'{dice.choice(("drop", "drop", "owned drop"))} {dice.choice(names)}')
        elif roll < 50:
            s.ask(call)
        elif roll < 60:
            s.ask(f'begin {call}')
        elif roll < 86:
            s.ask(f'step {dice.randrange(max(s.shell.begun - 6, 1), s.shell.begun + 2)}')
        elif roll < 90:
            s.ask(f'{dice.choice(("finish", "abandon"))} {dice.randrange(max(s.shell.begun - 6, 1), s.shell.begun + 2)}')
        elif roll < 93:
            s.ask(dice.choice(('len', 'first', 'last', 'pop-min', 'pop-max', 'range .. ..')))
        elif roll < 96:
            s.ask(dice.choice(('id', 'names', 'flush', 'dump')))
        elif roll == 96:
            s.ask(f'crash {dice.randrange(40)}')
            s.ask('dump')
        elif roll == 97:
            s.ask(dice.choice(('reopen', 'recover', 'owned flush')))
    s.ask('dump')
    s.ask('names')


@case
def trees_by_name_in_a_mixture(s):
    """Lines at random over four names, their trees of before, calls in flight, crashes and openings."""
    for seed in range(4):
        s.new()
        mixture(s, seed, 500)
