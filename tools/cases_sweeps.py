"""Lines that are run with each call of the store refused in turn, and with a crash after each of their actions."""
from cases_images import ACCEPTED, note
from oracle import TREE
from script import case, expect, key


def many(s):
    """Keys that split and merge pages, scans of them, a batch, pops, and a tree that is made, filled, cleared and dropped. Every value is its
    key."""
    for number in range(40):
        s.line(f'owned insert {key(number)} {key(number)}', 'old -')
    s.begin(1, f'scan [{key(3)} ({key(20)}')
    for number in range(3, 20):
        s.line('finish 1', f'pair {key(number)} {key(number)}')
    s.line('finish 1', 'end')
    s.begin(2, 'scan-back .. ..')
    for number in range(39, 20, -1):
        s.line('finish 2', f'pair {key(number)} {key(number)}')
    for number in range(39, 9, -1):
        s.line(f'owned remove {key(number)}', f'old {key(number)}')
    s.line('owned batch' + ''.join(f' {key(number)} {key(number)}' for number in range(100, 120)), 'done')
    s.line('owned pop-min', f'pair {key(0)} {key(0)}')
    s.line('owned pop-max', f'pair {key(119)} {key(119)}')
    s.line('tree t', 'tree t')
    for number in range(20):
        s.line(f'owned insert {key(number)} {key(number)}', 'old -')
    s.line('owned clear', 'done')
    s.line('owned drop t', 'yes')


@case
def many_writes(s):
    """Keys that split and merge pages, scans of them, a batch, pops, and a tree that is made, filled, cleared and dropped."""
    many(s)


@case
def many_writes_and_a_flush(s):
    """The same lines, and a flush behind them."""
    many(s)
    s.ask('owned flush')
    expect(s.wanted[-1].startswith('flushed '), s.wanted[-1])


@case
def few_writes_and_a_flush(s):
    """Two pairs, a batch, another tree, and a flush."""
    s.rows('''
        insert a 1          old -
        insert b 2          old -
        batch c 3 d 4       done
        tree t              tree t
        insert x 1          old -
        flush               flushed 9
    ''')


@case
def few_writes_that_are_cleared(s):
    """Two pairs, a batch that is cleared, and another tree."""
    s.rows('''
        insert a 1          old -
        insert b 2          old -
        batch c 3 d 4       done
        clear               done
        tree t              tree t
        insert x 1          old -
    ''')


@case
def an_import_of_three_pairs(s):
    """A batch, and an import of two trees, which is not one group."""
    s.line('batch b 1', 'done')
    s.line('import-all tree x a 1 b 2 ; tree y a 1', 'done')


@case
def imports_into_a_new_tree_and_into_one_that_there_is(s):
    """Imports of several pairs: into a new tree, into one that there is, of several trees by one call, over a pair that is present, and of
    another type. Pages split on the way."""
    s.rows(f'''
        insert b 1                                          old -
        import x a 1 b 2 c 3                                done
        import x d 4 e 5                                    done
        import {TREE.decode()} a 0 c 2                      done
        import-type tree y k 1 j 2                          done
        import-all tree z ; tree z a 1 b 2 ; tree y a 3 ; tree w c 4 %3b %3b   done
        import x f 6 c 7 g 8                                refused E2
        import-all tree x h 1 ; tree y l 1 a 2 m 3 ; tree v a 1   refused E2
        import-type trees x i 1 j 2                         refused E2
        import-all tree x i 1 ; trees x j 2                 refused E2
        import t                                            done
        clear                                               done
        owned clear                                         done
    ''')
    s.line('import n' + ''.join(f' {key(number)} {key(number)}' for number in range(40)), 'done')
    s.ask('dump')


@case
def a_write_beside_a_page_that_cannot_be_read(s):
    """The default tree cannot be read, so that no dump has all pairs, and another tree is written."""
    s.rows('''
        tree t                  tree t
        reopen unreadable 1     opened
        tree t                  tree t
        insert x 1              old -
        insert y 2              old -
    ''')


@case
def a_clear_that_is_refused(s):
    """A tree that was dropped is not cleared, and one of its name is made by an import."""
    s.rows('''
        tree t              tree t
        insert a 1          old -
        drop t              yes
        clear               refused E1
        owned clear         refused E1
        import t a 1 b 2    done
    ''')


def image_file(at):
    """A case that writes to one of the well-formed images."""
    root, pages, words, said = ACCEPTED[at]

    def writes(s):
        note(s, *pages, f'root {TREE.decode()} {root}')
        s.line('image', 'opened')
        for number in range(30, 44):
            s.insert(key(number))
        for line in 'insert %09%00 x', 'remove %00', 'insert %00%00 y', 'batch %0a - %00%01 z', 'pop-max', 'pop-min':
            s.ask(line)
        for number in range(43, 31, -1):
            s.ask(f'remove {key(number)}')
        s.ask('clear')
    writes.__doc__ = f'Writes to an image. {said}'
    writes.__name__ = f'writes_to_an_image_of_{IMAGES[at]}'
    return case(writes)


IMAGES = ['an_empty_leaf', 'two_leaves', 'one_pointer', 'a_merging_child', 'a_merging_leaf', 'a_received_leaf', 'a_confirmed_index', 'a_page_that_nobody_names']

for at in range(len(ACCEPTED)):
    image_file(at)


@case
def each_refused_call_of_many_writes_changes_nothing(s):
    """Each call of the store is refused in turn. The line that is told so is made again, and all answers and all pairs are the same. The two
    pages of a dropped tree that are not freed are not told."""
    s.note('To open makes calls 1 to 3; the inserts are 4 and 5, the batch 6 to 9, the tree 10 and 11, its insert 12, the flush 13.')
    s.line('each-refusal few_writes_and_a_flush.lines', 'calls 13, refused 13, all the same')
    s.line('each-refusal no_lines.lines', 'calls 3, refused 3, all the same')
    s.ask('each-refusal many_writes_and_a_flush.lines')
    s.ask('each-refusal many_writes.lines')


@case
def each_crash_of_many_writes_keeps_a_beginning(s):
    """A crash keeps each number of actions in turn. The pages that it leaves pass the check, and the pairs are those after one of the
    lines, or those within a clear, later ones where it keeps more."""
    s.note('Two inserts, a batch of four actions, four pairs that are cleared, a tree that is made by two, and its insert.')
    s.line('each-crash few_writes_that_are_cleared.lines', 'crashes 14, each a beginning')
    s.line('each-crash few_writes_and_a_flush.lines', 'crashes 1, each a beginning')
    s.line('each-crash no_lines.lines', 'crashes 1, each a beginning')
    s.ask('each-crash many_writes.lines')
    for name in IMAGES:
        s.ask(f'each-crash writes_to_an_image_of_{name}.lines')


@case
def each_crash_of_an_import_keeps_its_first_pairs(s):
    """A crash keeps each number of actions of imports in turn. The pairs are those after one of the lines, or after a pair of an import; a tree
    that an import opened may be there without one."""
    s.note('The batch has three actions, each of the two trees two, and each pair one.')
    s.line('each-crash an_import_of_three_pairs.lines', 'crashes 11, each a beginning')
    s.ask('each-crash imports_into_a_new_tree_and_into_one_that_there_is.lines')
    s.note('A tree is made by two actions and gets a pair, is dropped by two, is made again, and gets two pairs.')
    s.line('each-crash a_clear_that_is_refused.lines', 'crashes 10, each a beginning')


@case
def what_differs_is_told_where_lines_are_run_again(s):
    """An import that is refused midway keeps the pairs before, so that it is refused where it is made again. Where a page cannot be read, no
    pairs are known of which a crash keeps a beginning."""
    s.note('To open makes calls 1 to 3, the batch 4 to 6, the tree 7 and 8, its pairs 9 and 10.')
    s.line('each-refusal an_import_of_three_pairs.lines', 'call 10: line 2 is `refused E2` and not `done`')
    s.note('An opening makes all durable, so that the first action is the first pair.')
    s.line('each-crash a_write_beside_a_page_that_cannot_be_read.lines', 'crash 1: no beginning')


@case
def lines_that_run_others_leave_the_store_alone(s):
    """The store, the slots and the subscribers of the session stay as they are, whatever is run beside them. What cannot be run is a line
    that cannot be read."""
    s.insert('a')
    s.line('tree t', 'tree t')
    s.insert('b')
    s.begin(1, 'insert b 2')
    s.moves(1)
    s.line('watch %', 'subscriber 1')
    s.line('each-refusal few_writes_and_a_flush.lines', 'calls 13, refused 13, all the same')
    s.line('each-crash few_writes_that_are_cleared.lines', 'crashes 14, each a beginning')
    s.line('turns 1', 'number 1')
    s.line('finish 1', 'old b')
    s.line('next 1', 'event insert b 2')
    s.line('get b', 'value 2')
    s.line('flush', 'flushed 5')
    for line in 'each-refusal', 'each-crash', 'each-refusal a b', 'each-crash %4', 'owned each-crash no_lines.lines', 'each':
        s.ask(line)
        expect(s.wanted[-1].startswith('bad line'), line, s.wanted[-1])
    for line, why in [('each-refusal nothing.lines', '`nothing.lines` cannot be read'), ('each-crash %ff', '`%ff` cannot be read'),
                      ('each-crash lines_of_images_that_cannot_be_read.lines', 'the file has a line that cannot be read'),
                      ('each-refusal lines_that_run_others_leave_the_store_alone.lines', 'the file has a line that cannot be read'),
                      ('each-refusal writes_to_an_image_of_two_leaves.lines', 'the file has a line that makes another store')]:
        s.ask(line)
        expect(s.wanted[-1].endswith(': ' + why), line, s.wanted[-1])
    s.line('get b', 'value 2')
