"""Groups of writes: batches on a tree, and on several trees together."""
import random
from cases_events import fill, sees, watch
from cases_flights import below, eight_and_three, seventeen
from cases_levels import short
from cases_names import DEFAULT, tree
from script import case, crowd_case, expect, key, pair


def written(keys, value=None):
    """The words of a batch that gives each key this value, or itself."""
    return ' '.join(f'{k} {k if value is None else value}' for k in keys)


@case
def a_batch_brings_its_events_in_the_order_of_its_keys(s):
    """A batch brings an event for each key that it changes, in the order of the keys, once all are written. A key that keeps its value
    and an absent one that is taken out bring none."""
    s.rows('''
        insert key_0 val_0                            old -
        watch %                                       subscriber 1
        batch key_a 1 key_b 2 key_c 3 key_0 -         done
        next 1                                        event remove key_0
        next 1                                        event insert key_a 1
        next 1                                        event insert key_b 2
        next 1                                        event insert key_c 3
        next 1                                        event -
        dump                                          pair __sled__default key_a 1
                                                      pair __sled__default key_b 2
                                                      pair __sled__default key_c 3
                                                      end 3
        watch key_b                                   subscriber 2
        batch key_c - key_b 2 key_a 4 key_0 - key_d 5    done
        next 1                                        event insert key_a 4
        next 1                                        event remove key_c
        next 1                                        event insert key_d 5
        next 1                                        event -
        next 2                                        event -
        owned batch key_bb 6 key_b - key_aa 7         done
        owned next 2                                  event remove key_b
        owned next 2                                  event insert key_bb 6
        owned next 2                                  event -
        next 1                                        event insert key_aa 7
        next 1                                        event remove key_b
        next 1                                        event insert key_bb 6
        next 1                                        event -
    ''')


@case
def a_batch_writes_each_key_once(s):
    """Of each key the last write of a batch stands. An empty batch and one that changes nothing do nothing: they make no call of the
    store, and bring no event."""
    s.rows('''
        watch %                   subscriber 1
        batch a 1 a - a 2         done
        flush                     flushed 3
        get a                     value 2
        next 1                    event insert a 2
        next 1                    event -
        batch                     done
        owned batch               done
        batch a 2                 done
        batch a 1 b 3 a 2 b -     done
        batch a - c - a 2         done
        owned batch a 2 b - c -   done
        flush                     flushed 0
        next 1                    event -
        batch a 2 b 3 c -         done
        flush                     flushed 3
        next 1                    event insert b 3
        next 1                    event -
        batch a - b -             done
        flush                     flushed 4
        dump                      end 0
    ''')
    s.note('Keys and values are any byte strings. Only a value may be none, which is not the byte string of that one byte.')
    s.rows('''
        batch % % %2d %2d %00%ff %00    done
        dump                      pair __sled__default % %
                                  pair __sled__default %00%ff %00
                                  pair __sled__default %2d %2d
                                  end 3
        batch % - %2d - %00%ff -  done
        batch ; ;                 done
        batch %3b -               done
        dump                      end 0
    ''')
    s.note('A leaf that is too long is not split for a batch that changes nothing, and the store refuses nothing of it.')
    seventeen(s)
    s.line(f'reopen refuse {s.store.calls + 2}', 'opened')
    s.line(f'batch %03 %03 {key(17)} -', 'done')
    s.line('batch', 'done')
    s.pages((1, 17))
    s.line(f'insert {key(17)} {key(17)}', 'refused E4')


@case
def a_batch_that_is_refused_midway_closes_the_database(s):
    """To open makes three calls of the store; the fourth begins the group of a batch, and up to its refusal nothing changes. Where a later
    one is refused the database is closed, and its pages, recovered and opened again, have nothing of the batch."""
    for line in 'batch a 1 b 2', 'owned batch a 1 b 2', 'group - a 1 b 2':
        s.new(4)
        s.line(line, 'refused E4')
        s.line('why', 'why io fault 1')
        s.line('get a', 'value -')
        s.line('flush', 'flushed 0')
        s.line(line, 'done')
        s.line('dump', pair('a', 1), pair('b', 2), 'end 2')
        s.note('The first link, the second one, and the seal.')
        for number in 5, 6, 7:
            s.new(number)
            s.line(line, 'refused E4')
            s.line('get a', 'refused E8')
            s.line('why', 'why closed')
            s.line(line, 'refused E8')
            s.line('recover', 'opened')
            s.line('get a', 'value -')
            s.line('dump', 'end 0')
            s.line(line, 'done')
            s.line('dump', pair('a', 1), pair('b', 2), 'end 2')
    s.note('Three new keys.')
    for opening in 'recover', 'crash 9', 'crash 4', 'crash 0':
        s.new(8)
        s.line('batch a 1 b 2 c 3', 'refused E4')
        s.line('get a', 'refused E8')
        s.ask(opening)
        s.line('dump', 'end 0')
    s.note('What was decided before the batch is kept as far as the crash says, and none of it stands in the way.')
    for keep, left in ((0, 0), (1, 1), (2, 2), (3, 2), (9, 2)):
        s.new(8)
        s.insert('x', 'y')
        s.line('batch a 1 x - b 2 c 3', 'refused E4')
        s.line('dump', 'refused E8')
        s.line(f'crash {keep}', 'recovered')
        s.holds(*['x', 'y'][:left])


@case
def a_batch_is_made_where_1024_events_wait(s):
    """1022 events wait for a subscriber. A batch of three new keys is made, and the oldest event is missed. Of a batch of more keys than
    may wait the last 1024 events wait. One that is refused, and one that changes nothing, misses none."""
    watch(s, 1, '%')
    fill(s, 1022)
    s.line('batch b 1 c 1 d 1', 'done')
    s.line('next 1', 'event missed 1')
    sees(s, 1, *(f'insert a {n % 2 + 1}' for n in range(1, 1022)), 'insert b 1', 'insert c 1', 'insert d 1')
    s.line('batch ' + written(short(n) for n in range(1030)), 'done')
    s.line('next 1', 'event missed 6')
    sees(s, 1, *(f'insert {short(n)} {short(n)}' for n in range(6, 1030)))
    for refused in 0, 2:
        s.new()
        s.line('insert a 2', 'old -')
        s.line(f'reopen refuse {s.store.calls + 2 + 1024 + refused}', 'opened')
        watch(s, 1, '%')
        watch(s, 2, 'b')
        for n in range(1024):
            s.line(f'insert a {n % 2 + 1}', f'old {2 - n % 2}')
        s.line('batch a 2 b -', 'done')
        s.line('batch b 1 c 1', 'refused E4')
        s.line('next 1', 'event insert a 1')
        s.line('next 2', 'event -')
        s.line('batch b 1 c 1', 'refused E8' if refused else 'done')
        s.line('next 1', 'event insert a 2' if refused else 'event missed 1')


@case
def a_crash_leaves_forty_keys_of_a_batch_or_none(s):
    """A batch of forty new keys on an empty tree splits pages as it goes. A crash that keeps all of its actions leaves all keys, and any
    other one none."""
    line, keys = f'batch {written(below(40))}', below(40)
    s.note('Forty links, what splits the leaf three times, and the begin and the seal.')
    actions = 40 + 4 + 3 + 3 + 2
    for keep in range(actions + 1):
        s.line(line, 'done')
        if keep == 0:
            s.pages((1, 4), (4, 16))
        s.line(f'crash {keep}', 'recovered')
        if keep < actions:
            s.line('dump', 'end 0')
        else:
            s.holds(*keys)
    s.line('recovered', 'yes')
    s.note('A flush after it makes it durable.')
    s.new()
    s.line(line, 'done')
    s.did(actions)
    s.line('crash 0', 'recovered')
    s.holds(*keys)


@case
def a_crash_amid_seventy_writes_leaves_none(s):
    """A batch of seventy new keys, and a group of seventy in two trees: a crash that keeps all actions but the last, or fewer, leaves none
    of them."""
    words = [short(number) for number in range(70)]
    for line in f'batch {written(words)}', f'group - {written(words[:35])} ; t {written(words[35:])}':
        for missing in 20, 1, 0:
            s.new()
            tree(s, 't')
            tree(s, DEFAULT)
            s.line('flush', 'flushed 2')
            s.line(line, 'done')
            s.line(f'crash {len(s.store.recent) - missing}', 'recovered')
            s.line('len', 'number 0' if missing else f'number {35 if "group" in line else 70}')


@case
def a_crash_keeps_a_batch_as_one_call(s):
    """Of an insert, a batch and another insert a crash keeps a beginning, of which the batch is one part."""
    for keep, left in [(0, ''), (1, 'x'), (2, 'x'), (3, 'x'), (4, 'x'), (5, 'abx'), (6, 'abxy'), (9, 'abxy')]:
        s.new()
        s.insert('x')
        s.line('batch a a b b', 'done')
        s.insert('y')
        s.line(f'crash {keep}', 'recovered')
        s.holds(*left)
    s.note('Two batches, one of which takes out what the other one wrote.')
    for keep, left in [(3, ''), (4, 'ab'), (7, 'ab'), (8, 'bc')]:
        s.new()
        s.line('batch a a b b', 'done')
        s.line('batch c c a -', 'done')
        s.line(f'crash {keep}', 'recovered')
        s.holds(*left)


# Groups, each after what is prepared, with the trees that are opened then: how many calls of the store it makes, which are as many
# actions, and what a dump has before and after it.

def seventeen_and_t(s):
    """Seventeen pairs in a leaf of the default tree, and one pair in the tree t; all was flushed."""
    seventeen(s)
    tree(s, 't')
    s.line('insert x x', 'old -')
    s.did(3)


SPLITS = (seventeen, (), f'batch {written(below(19, 17))}', 1 + 5 + 1 + 1, below(17), below(19), [], [])
MERGES = (eight_and_three, (), 'batch %0a - %0b %0b', 1 + 6 + 1 + 1, below(11), [*below(10), '%0b'], [], [])
TWO_TREES = (seventeen_and_t, ('t', DEFAULT), f'group t a 1 x - ; - {written(below(19, 17))} %00 - ; t b 2', 1 + 2 + 5 + 2 + 1 + 1,
             below(17), below(19, 1), [pair('x', 'x', 't')], [pair('a', 1, 't'), pair('b', 2, 't')])


def has(s, keys, others):
    s.line('dump', *(pair(k) for k in keys), *others, f'end {len(keys) + len(others)}')


@case
def each_store_call_of_a_group_is_refused(s):
    """Each call of the store that a group makes is refused in turn, where a leaf splits, where two leaves merge, and over two trees. Where
    the begin is refused nothing changes; else the database is closed, and opened again none of its trees has anything of the group. Then
    the group is made. The pages of a closed database are well formed, but that a group is open in them."""
    for prepare, trees, line, calls, keys, after, others, others_after in SPLITS, MERGES, TWO_TREES:
        for number in range(calls + 1):
            prepare(s)
            s.line(f'reopen refuse {s.store.calls + 2 + number}', 'opened')
            for name in trees:
                tree(s, name)
            s.begin(1, 'get %03')
            watch(s, 1, '%')
            s.line(line, 'refused E4' if number < calls else 'done')
            if number == 0:
                has(s, keys, others)
                s.line(line, 'done')
            elif number < calls:
                s.line('next 1', 'event -')
                s.line('verify', 'refused E5')
                s.line(line, 'refused E8')
                s.line('finish 1', 'refused E8')
                s.line('crash 99', 'recovered')
                has(s, keys, others)
                for name in trees:
                    tree(s, name)
                s.line(line, 'done')
            if number in (0, calls):
                s.line('finish 1', 'value %03')
            has(s, after, others_after)
            s.line('crash 99', 'recovered')
            has(s, after, others_after)


@case
def each_crash_in_a_group_leaves_all_or_nothing(s):
    """A crash at each action of a group, where a leaf splits, where two leaves merge, and over two trees, leaves every tree as before
    the group; but one that keeps its last action leaves all of them as after it."""
    for prepare, trees, line, calls, keys, after, others, others_after in SPLITS, MERGES, TWO_TREES:
        for keep in range(calls + 1):
            prepare(s)
            if trees:
                tree(s, DEFAULT)
            s.line(line, 'done')
            has(s, after, others_after)
            s.line(f'crash {keep}', 'recovered')
            has(s, *((after, others_after) if keep == calls else (keys, others)))
    s.note('A crash after a refusal leaves nothing, whatever it keeps.')
    for number in 4, 9, 11:
        for keep in number - 1, number, 99:
            seventeen_and_t(s)
            s.line(f'reopen refuse {s.store.calls + 2 + number}', 'opened')
            tree(s, 't')
            tree(s, DEFAULT)
            s.line(TWO_TREES[2], 'refused E4')
            s.line(f'crash {keep}', 'recovered')
            has(s, below(17), [pair('x', 'x', 't')])


@case
def a_tree_may_stand_twice_in_a_group(s):
    """Of two batches on one tree the later one finds what the earlier one wrote: a key that both give a value brings two events."""
    s.rows('''
        watch %                                  subscriber 1
        group - k a ; - k b                      done
        flush                                    flushed 4
        next 1                                   event insert k a
        next 1                                   event insert k b
        next 1                                   event -
        get k                                    value b
        group - k b ; - k b                      done
        flush                                    flushed 0
        group - k - ; __sled__default k b        done
        flush                                    flushed 4
        next 1                                   event remove k
        next 1                                   event insert k b
        next 1                                   event -
        group __sled__default k a ; - k a j 1 ; - k b j -    done
        flush                                    flushed 6
        next 1                                   event insert k a
        next 1                                   event insert j 1
        next 1                                   event remove j
        next 1                                   event insert k b
        next 1                                   event -
        dump                                     pair __sled__default k b
                                                 end 1
    ''')
    s.note('With another tree between them, of which each has subscribers of its own.')
    s.rows('''
        tree t                                   tree t
        watch %                                  subscriber 2
        group - k 1 ; __sled__default k - l 1 ; t k 2 l 2 ; __sled__default l - ; t k 2    done
        next 1                                   event remove k
        next 1                                   event insert l 1
        next 1                                   event remove l
        next 1                                   event -
        next 2                                   event insert k 1
        next 2                                   event insert k 2
        next 2                                   event insert l 2
        next 2                                   event -
        dump                                     pair t k 2
                                                 pair t l 2
                                                 end 2
    ''')


@case
def two_trees_of_a_group_change_together(s):
    """A group over two trees is one change: a crash leaves both as they were, or both as they are then. A name stands for what the last
    line `tree` with it got, and `-` for the current tree."""
    for keep, left in (0, 0), (1, 0), (2, 0), (3, 0), (4, 1), (9, 1):
        s.new()
        tree(s, 't')
        tree(s, 'u')
        s.ask('flush')
        s.line('group t a 1 ; u b 2', 'done')
        s.line(f'crash {keep}', 'recovered')
        s.line('dump', *[pair('a', 1, 't'), pair('b', 2, 'u')] * left, f'end {2 * left}')
    s.rows('''
        new                             opened
        tree t                          tree t
        group                           bad line 46: `group` takes TREE K NEW .. ; .., one word and pairs in each part
        group t                         done
        group t ; -                     done
        group u a 1                     bad line 49: `u` names no tree: no line `tree` named it since the opening
        group t a 1 ; u a 1             bad line 50: `u` names no tree: no line `tree` named it since the opening
        group - a 1 ; __sled__default a 2    done
        drop t                          yes
        group __sled__default a 3       done
        group t a 3                     refused E1
        tree t                          tree t
        group t a 4 ; __sled__default a -    done
        old-tree t                      tree t
        group - a 5                     refused E1
        group t a 6 ; - a 5             refused E1
        group t a 7                     done
        dump                            pair t a 7
                                        end 1
        reopen                          opened
        group t a 8                     bad line 63: `t` names no tree: no line `tree` named it since the opening
        group __sled__default a 8       done
        import t b 1                    done
        group t a 8                     bad line 66: `t` names no tree: no line `tree` named it since the opening
        tree t                          tree t
        group t a 8 ; - b -             done
        dump                            pair __sled__default a 8
                                        pair t a 8
                                        end 2
    ''')


@case
def a_group_is_tested_before_anything_is_written(s):
    """First a closed database is refused, then a tree of another database wherever it stands in the group, and then one that was dropped.
    Nothing is done then, also where a part has no writes."""
    s.rows('''
        tree u                          tree u
        tree t                          tree t
        insert a 1                      old -
        watch %                         subscriber 1
        begin insert a 2                slot 1
        drop t                          yes
        flush                           flushed 7
        group u a 1 ; t a 1             refused E1
        group t a 1 ; u a 1             refused E1
        group u a 1 ; t                 refused E1
        batch                           refused E1
        batch a 1                       refused E1
        handle other u 2                done
        group u a 1 ; -                 refused E2
        why                             why unsupported: handle of another database
        group - a 1 ; u a 1             refused E2
        group t a 1 ; u a 1 ; - a 1     refused E2
        group - ; t a 1                 refused E2
        batch a 1                       refused E2
        batch                           refused E2
        group u a 1 ; t a 1             refused E1
        why                             why collection not found
        handle sledsh u 9               done
        group - a 1 ; t a 1             refused E1
        batch                           refused E1
        flush                           flushed 0
        turns 1                         number 0
        owned batch                     refused E1
        turns 1                         no slot
        handle other u 2                done
        owned batch                     refused E2
        owned batch a 1                 refused E2
        next 1                          event -
        dump                            end 0
    ''')
    s.note('The same on a closed database.')
    s.rows('''
        new refuse 9                    opened
        tree t                          tree t
        drop t                          yes
        tree __sled__default            tree __sled__default
        batch a 1                       refused E4
        batch                           refused E8
        group t a 1                     refused E8
        handle other t 2                done
        batch a 1                       refused E8
        group t ; -                     refused E8
        owned batch                     refused E8
        recover                         opened
        dump                            end 0
    ''')
    s.note('Without a database, and a page that cannot be read: nothing changes.')
    s.rows('''
        new refuse 1                    refused E4
        batch                           refused E8
        batch a 1                       refused E8
        owned batch a 1                 refused E8
        group - a 1                     refused E8
        group t a 1                     refused E8
        reopen                          opened
        tree t                          tree t
        insert a 1                      old -
        reopen unreadable 2             opened
        tree t                          tree t
        batch a 2                       refused E4
        group __sled__default a 1 ; - b 2    refused E4
        owned batch a 2                 refused E4
        tree __sled__default            tree __sled__default
        batch a 3                       done
        flush                           flushed 3
        group - a 4 ; t                 done
        dump                            refused E4
        recover                         opened
        dump                            pair __sled__default a 4
                                        pair t a 1
                                        end 2
    ''')


@case
def a_page_that_cannot_be_read_closes_a_batch_that_repairs(s):
    """The pages on the way to a key can be read, and so the batch begins. As its writes merge two pages they come to one that cannot be
    read, and the database is closed."""
    eight_and_three(s)
    s.line('reopen unreadable 1', 'opened')
    s.line('batch %0a %0a', 'done')
    s.line('batch %0a x', 'refused E4')
    s.line('why', 'why io fault 2')
    s.line('get %0a', 'refused E8')
    s.line('recover', 'opened')
    s.holds(*below(11))
    s.line('batch %0a -', 'done')
    s.holds(*below(10))
    s.pages((1, 1), (1, 10))


@case
def a_write_of_a_group_takes_hundreds_of_turns(s):
    """An index has a pointer to the first of forty empty leaves alone. A batch that writes behind the last one goes from leaf to leaf, and
    posts and merges as it goes."""
    words = ['%', *(key(byte) for byte in range(65, 104)), '%']
    for pid, (lo, hi) in enumerate(zip(words, words[1:]), 1):
        s.line(f'page {pid} leaf {lo} {hi} {pid + 1 if pid < 40 else "-"} open', 'noted')
    s.line('page 41 index % % - open - % 1', 'noted')
    s.line(f'root {DEFAULT} 41', 'noted')
    s.line('image', 'opened')
    s.line('batch z 1 zz 2', 'done')
    s.line('verify', 'sound')
    s.line('dump', pair('z', 1), pair('zz', 2), 'end 2')
    s.line(f'crash {len(s.store.recent) - 1}', 'recovered')
    s.line('dump', 'end 0')


@case
def calls_in_flight_go_on_after_a_group(s):
    """A group is one step: no call in flight goes on meanwhile. One that was begun before it goes on after it, and decides on the map
    then."""
    s.rows('''
        operator concat             done
        insert d 1                  old -
        begin insert a 1            slot 1
        begin get a                 slot 2
        begin remove b              slot 3
        begin cas c - 3             slot 4
        begin merge d 2             slot 5
        step 1                      moved
        step 4                      moved
        step 5                      moved
        batch a 4 b 5 c 6 d 7       done
        step 1                      moved
        turns 1                     number 2
        step 1                      moved
        step 1                      old 4
        step 2                      value 1
        finish 3                    old 5
        finish 4                    conflict 6 3
        finish 5                    value 72
        dump                        pair __sled__default a 1
                                    pair __sled__default c 6
                                    pair __sled__default d 72
                                    end 3
        begin insert a 2            slot 6
        begin get a                 slot 7
        step 6                      moved
        batch                       done
        batch a 1                   done
        step 6                      old 1
        step 7                      value 2
        begin insert a 3            slot 8
        step 8                      moved
        owned batch a 4             done
        step 8                      no slot
        get a                       value 4
    ''')
    s.note('What a call left half done in a tree the writes of a batch go on with, and the other way round.')
    for steps in range(8):
        seventeen(s)
        s.begin(1, f'insert {key(17)} x')
        s.moves(1, steps)
        s.line(f'batch {written(below(19, 17))} %00 -', 'done')
        s.line('finish 1', f'old {key(17)}')
        s.line(f'remove {key(17)}', 'old x')
        s.holds(*below(17, 1), key(18))
        s.pages((1, 2), (2, 10))
    for steps in range(12):
        eight_and_three(s)
        s.begin(1, 'remove %0a')
        s.moves(1, steps)
        s.line('batch %0a x %00 -', 'done')
        s.line('finish 1', 'old x')
        s.holds(*below(10, 1))


@case
def calls_in_flight_end_at_a_closed_database(s):
    """A call that was begun before a group that is refused midway is refused at its next step, and its slot ends; it can be given up
    as ever."""
    s.rows('''
        new refuse 6            opened
        insert a 1              old -
        begin insert a 2        slot 1
        begin get a             slot 2
        begin remove a          slot 3
        begin cas a 1 2         slot 4
        step 1                  moved
        step 3                  moved
        batch b 1 c 1           refused E4
        turns 1                 number 1
        turns 2                 number 0
        step 1                  refused E8
        step 1                  no slot
        turns 1                 no slot
        finish 2                refused E8
        finish 2                no slot
        abandon 3               abandoned
        abandon 3               no slot
        turns 4                 number 0
        step 5                  no slot
        abandon 4               abandoned
        begin get a             refused E8
        step 5                  no slot
        recover                 opened
        step 4                  no slot
        dump                    pair __sled__default a 1
                                end 1
    ''')
    s.note('Slots end at a call of the database itself, also where that is refused.')
    s.rows('''
        new refuse 5            opened
        begin get a             slot 1
        begin get a             slot 2
        owned batch a 1         refused E4
        turns 1                 no slot
        abandon 2               no slot
        step 2                  no slot
        get a                   refused E8
    ''')


# Lines that each ask a database for something.
ASKS = ('insert a 2', 'get a', 'remove a', 'cas a 1 2', 'merge a 1', 'begin insert a 2', 'begin get a', 'begin remove a', 'begin cas a - 1', 'begin merge a 1',
        'begin scan .. ..', 'begin scan-back [b [a',
        'operator keep', 'update a count', 'fetch a delete', 'has a', 'read a', 'lt b', 'gt %', 'first', 'last', 'len', 'empty', 'keys-back .. ..',
        'values .. ..', 'pop-min', 'pop-max', 'clear', 'batch', 'batch a 2', 'group -', 'group __sled__default a 2', 'import t', 'import __sled__default b 1',
        'import-type map t', 'tree t', 'tree __sled__default', 'drop t', 'drop __sled__default', 'names', 'id', 'watch %', 'flush', 'dump', 'pages', 'draw',
        'owned insert a 2', 'owned set a 2', 'owned remove a', 'owned del a', 'owned cas a 1 2', 'owned merge a 1', 'owned update a count', 'owned fetch a delete',
        'owned pop-min', 'owned pop-max', 'owned clear', 'owned batch', 'owned batch a 2', 'owned flush', 'owned drop t', 'owned drop __sled__default', 'owned id',
        'owned watch %')


@case
def what_serves_a_closed_database(s):
    """A closed database tells its subscribers what waits for them and gives them up, tells how often calls went on and gives these up, says
    whether it was recovered, and gives its pages back. All else is refused."""
    for opening in ('crash 99', 'recovered'), ('recover', 'opened'), ('crash 0', 'recovered'), ('new', 'opened'):
        s.new(7)
        s.insert('a')
        watch(s, 1, '%')
        watch(s, 2, '%')
        s.insert('b')
        s.begin(1, 'insert a 2')
        s.begin(2, 'get a')
        s.moves(1)
        s.line('batch c c d d a -', 'refused E4')
        s.line('turns 1', 'number 1')
        s.line('abandon 1', 'abandoned')
        s.line('recovered', 'no')
        s.line('next 1', 'event insert b b')
        s.line('next 1', 'event -')
        s.line('unwatch 2', 'done')
        s.line('next 2', 'event -')
        s.line('next 3', 'no subscriber')
        for line in ASKS if opening[0] == 'crash 99' else ('len', 'batch', 'owned id'):
            s.line(line, 'refused E8')
        for line in 'range .. ..', 'prefix-back %':
            s.line(line, 'refused E8')
        s.line('owned next 1', 'event -')
        s.line('owned unwatch 1', 'done')
        s.line('step 7', 'no slot')
        s.line('why', 'why closed')
        s.line(*opening)
        s.holds(*{'new': [], 'crash 0': []}.get(opening[0], ['a', 'b']))
        s.line('next 1', 'no subscriber')
        s.insert('c')
    s.note('Its pages are neither opened nor checked before they are recovered, since the group is open in them.')
    s.rows('''
        new refuse 5            opened
        watch %                 subscriber 1
        batch a 1               refused E4
        next 1                  event -
        reopen                  refused E5
        why                     why corruption 10
        next 1                  event -
        get a                   refused E8
        reopen mark 7           refused E5
        reopen unreadable 1     refused E5
        reopen refuse 99        refused E5
        verify                  refused E5
        recovered               no
        handle sledsh t 1       done
        get a                   refused E8
        recover                 opened
        recovered               yes
        id                      number 1
        verify                  sound
        dump                    end 0
        recover refuse 4        opened
        batch a 1               refused E4
        crash 1                 recovered
        batch a 1               done
        dump                    pair __sled__default a 1
                                end 1
    ''')


@case
def batches_that_cannot_be_read(s):
    """Lines of groups that cannot be read change nothing."""
    tree(s, 't')
    s.begin(1, 'get a')
    for line in ('batch a', 'batch a 1 b', 'batch - 1', 'batch - -', 'batch a %zz', 'batch %4 a', 'batch a 1 ', 'batch  a 1', 'batches a 1', 'begin batch a 1',
                 'owned batch a', 'owned batch - 1', 'owned batch a 1 b', 'owned group t a 1', 'group', 'group ;', 'group t ;', 'group ; t', 'group t ; ; t',
                 'group t a', 'group t a 1 b ; t', 'group t ; t a', 'group t - 1', 'group t a 1 ;t b 1', 'group %zz a 1', 'group v', 'group t a 1 ; v', 'group %2d a 1',
                 'group t a 1 ; - a', 'group t a %4', 'groups t'):
        s.ask(line)
        expect(s.wanted[-1].startswith('bad line'), line, s.wanted[-1])
        s.line('turns 1', 'number 0')
    s.line('dump', 'end 0')
    s.line('tree v', 'tree v')
    s.line('group v', 'done')
    s.line('step 1', 'value -')


@case
def groups_come_among_other_calls_at_random(s):
    """Lines at random: groups over two trees and single calls, some of them in flight, with subscribers, refused calls of the store,
    crashes and openings."""
    dice = random.Random(7)

    def some():
        return short(dice.randrange(40))

    def pairs(most):
        return ''.join(f' {some()} {dice.choice(["-", 1, 2, 3])}' for _ in range(dice.randint(0, most)))

    def opened():
        for line in 'tree t', 'watch %', f'tree {DEFAULT}', 'watch 0':
            s.ask(line)

    opened()
    for _ in range(1500):
        what = dice.random()
        if what < .2:
            s.ask(f'{dice.choice(["", "owned "])}batch{pairs(8)}')
        elif what < .35:
            s.ask('group ' + ' ; '.join(dice.choice(['-', 't', DEFAULT]) + pairs(4) for _ in range(dice.randint(1, 4))))
        elif what < .6:
            s.ask(f'{dice.choice(["", "", "begin "])}{dice.choice([f"insert {some()} 1", f"remove {some()}", f"get {some()}", f"cas {some()} 1 2"])}')
        elif what < .8:
            s.ask(f'{dice.choice(["step", "step", "finish", "abandon"])} {max(s.shell.begun - dice.randrange(3), 0)}')
        elif what < .9:
            s.ask(f'next {dice.choice([1, 2])}')
        elif what < .93:
            s.ask(f'tree {dice.choice(["t", DEFAULT])}')
        elif what < .95:
            s.ask(dice.choice(['flush', 'dump']))
        elif what < .98:
            s.ask(f'crash {dice.choice([0, dice.randrange(60), 999])}')
        else:
            s.ask(f'reopen refuse {s.store.calls + 3 + dice.randrange(20)}')
        if s.shell.closed:
            s.ask(dice.choice(['get a', 'step 1', 'next 1', 'batch a 1', 'reopen']))
            s.ask(dice.choice(['recover', f'crash {dice.randrange(60)}']))
        if not s.shell.subscribers:
            opened()
    s.ask('dump')


@crowd_case
def a_batch_reads_the_way_to_each_key(s):
    """A batch reads the pages on the way to each of its keys, from the index on that has it and the key before it, and once more as it
    writes those that it changes; but the first that it changes in a leaf it writes there."""
    s.insert(*below(18))
    s.line('get %00', 'value %00')
    s.ask('reads')
    s.line('batch', 'done')
    s.line('reads', 'reads 0')
    s.line('batch %00 %00 %11 %11 %ff -', 'done')
    s.line('reads', 'reads 4')
    s.line('batch %00 x %11 %11 %05 -', 'done')
    s.line('reads', 'reads 5')
    s.line('flush', 'flushed 26')
    s.line('batch %00 x %05 -', 'done')
    s.line('flush', 'flushed 0')
    s.line('begin insert %00 y', 'slot 1')
    s.moves(1, 2)
    s.ask('reads')
    s.line('batch %00 z', 'done')
    s.line('reads', 'reads 2')
    s.line('finish 1', 'old z')
    s.line('crash 2', 'recovered')
    s.line('get %00', 'value x')
    s.line('get %05', 'value -')
