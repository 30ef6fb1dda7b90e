"""Subscribers and their events."""
import random
from cases_fetch import eight
from cases_flights import below
from cases_levels import short
from script import case, expect, word

DEFAULT = '__sled__default'


def watch(s, number, prefix):
    s.line(f'watch {prefix}', f'subscriber {number}')


def sees(s, number, *events):
    """These events wait for a subscriber, and no others."""
    for event in events:
        s.line(f'next {number}', f'event {event}')
    s.line(f'next {number}', 'event -')


def steps_of(s, *calls):
    """What the steps of calls print, of one call after the other."""
    for call in calls:
        slot = s.shell.begun + 1
        s.begin(slot, call)
        while (printed := s.ask(f'step {slot}')) == ['moved']:
            yield printed
        yield printed


def fill(s, count=1024):
    """So many events come to a subscriber to all keys: a key gets two values in turn."""
    for n in range(count):
        s.line(f'insert a {n % 2 + 1}', f'old {2 - n % 2 if n else "-"}')


@case
def two_subscribers_hear_two_inserts(s):
    """Each of two subscribers to all keys hears of two inserts that the database makes by itself."""
    watch(s, 1, '%')
    watch(s, 2, '%')
    s.line('owned insert a 1', 'old -')
    s.line('owned insert b 2', 'old -')
    for number in 1, 2:
        sees(s, number, 'insert a 1', 'insert b 2')
    s.line('dump', 'pair __sled__default a 1', 'pair __sled__default b 2', 'end 2')


@case
def a_subscriber_sees_what_changes(s):
    """A subscriber sees each change of a key under its prefix. An insert of the value that stands and a removal of an absent key are
    none; a swap always is one."""
    s.rows('''
        watch %            subscriber 1
        insert a b         old -
        insert a b         old b
        cas a b b          swapped
        remove a           old b
        remove a           old -
        next 1             event insert a b
        next 1             event insert a b
        next 1             event remove a
        next 1             event -
        cas z - -          swapped
        next 1             event remove z
        next 1             event -
        cas z 1 2          conflict - 2
        get z              value -
        next 1             event -
        cas z - 1          swapped
        cas z 1 -          swapped
        next 1             event insert z 1
        next 1             event remove z
        next 1             event -
        insert % %         old -
        next 1             event insert % %
        insert %2d %2d     old -
        next 1             event insert %2d %2d
        next 1             event -
    ''')


@case
def a_slow_subscriber_misses_the_oldest_events(s):
    """At most 1024 events wait for a subscriber. Where one more comes the write goes on and the oldest event goes. The subscriber is
    told how many it missed before it takes the oldest that waits."""
    watch(s, 1, '%')
    for n in range(1025):
        s.line(f'insert {short(n)} {n}', 'old -')
    s.line(f'get {short(1024)}', 'value 1024')
    s.line('len', 'number 1025')
    s.line('next 1', 'event missed 1')
    sees(s, 1, *(f'insert {short(n)} {n}' for n in range(1, 1025)))
    s.note('Where 1024 came none is missed. An event that is taken makes room.')
    s.new()
    watch(s, 1, '%')
    fill(s)
    s.line('next 1', 'event insert a 1')
    s.line('insert b 1', 'old -')
    s.line('next 1', 'event insert a 2')
    s.line('insert c 1', 'old -')
    s.line('insert d 1', 'old -')
    s.line('next 1', 'event missed 1')
    sees(s, 1, *(f'insert a {n % 2 + 1}' for n in range(3, 1024)), 'insert b 1', 'insert c 1', 'insert d 1')


@case
def missed_events_are_counted_from_one_answer_to_the_next(s):
    """Of 1027 events three are missed. After that answer and the fourth event two more come, so the fifth is missed. Between two
    answers all are counted together, and to be told them makes no room."""
    def comes(*numbers):
        for n in numbers:
            s.line(f'insert {short(n)} {n}', 'old -')

    def takes(*numbers):
        for n in numbers:
            s.line('next 1', f'event insert {short(n)} {n}')

    watch(s, 1, '%')
    comes(*range(1, 1028))
    s.line('next 1', 'event missed 3')
    takes(4)
    comes(1028, 1029)
    s.line('next 1', 'event missed 1')
    takes(6)
    s.note('1023 wait: 7 to 1029.')
    comes(1030)
    takes(7)
    comes(1031, 1032, 1033, 1034)
    s.line('next 1', 'event missed 3')
    comes(1035)
    s.line('next 1', 'event missed 1')
    s.line('owned watch %', 'subscriber 2')
    comes(1036)
    s.line('owned next 1', 'event missed 1')
    takes(*range(13, 1037))
    s.line('next 1', 'event -')
    sees(s, 2, f'insert {short(1036)} 1036')
    s.note('All 3072 that came are told of 2048 missed ones, and then of those that wait.')
    comes(*range(1037, 1037 + 3072))
    s.line('next 1', 'event missed 2048')
    takes(*range(1037 + 2048, 1037 + 3072))
    s.line('next 1', 'event -')
    s.line('next 2', 'event missed 2048')


@case
def each_change_goes_on_where_1024_events_wait(s):
    """Where 1024 events wait, each line goes on that changes a key, and one event is missed for each that it brings. What brings none
    misses none."""
    s.rows('''
        operator concat     done
        insert k 5          old -
        watch %             subscriber 1
    ''')
    fill(s)
    s.rows('''
        insert k 5          old 5
        remove z            old -
        cas k 6 7           conflict 5 7
        owned set k 5       old 5
        owned del z         old -
        import __sled__default a 3    refused E2
        tree t              tree t
        insert k 1          old -
        drop t              yes
        tree __sled__default          tree __sled__default
        next 1              event insert a 1
        insert b 1          old -
        next 1              event insert a 2
        insert b 2          old 1
        insert c 1          old -
        next 1              event missed 1
        remove c            old 1
        next 1              event missed 1
        cas b 2 2           swapped
        next 1              event missed 1
        cas z - -           swapped
        next 1              event missed 1
        merge b 3           value 23
        next 1              event missed 1
        update b set 4      value 4
        fetch b delete      value 4
        next 1              event missed 2
        pop-min             pair a 2
        pop-max             pair k 5
        next 1              event missed 2
        pop-max             pair -
        clear               done
        import __sled__default e 1 f 2 g 3    done
        next 1              event missed 3
        import __sled__default h 1 f 3        refused E2
        next 1              event missed 1
        clear               done
        next 1              event missed 4
        owned set b 1       old -
        owned cas b 1 2     swapped
        owned merge b 3     value 23
        next 1              event missed 3
        owned update b append 4       value 234
        owned fetch b set 1           value 234
        owned pop-min       pair b 1
        owned insert c 1    old -
        owned pop-max       pair c 1
        owned insert d 1    old -
        owned del d         old 1
        owned insert d 1    old -
        owned clear         done
        next 1              event missed 9
    ''')
    expect([s.ask('next 1') for _ in range(1025)][-1] == ['event -'], 'as many waited')


@case
def each_subscriber_sees_the_keys_under_its_prefix(s):
    """Four subscribers to four prefixes see the keys that begin with them, each in the order in which the changes were decided. A
    call that is given up brings no event."""
    s.rows('''
        insert %00%01 x               old -
        insert %01%01%02 x            old -
        watch %00                     subscriber 1
        watch %00%01                  subscriber 2
        watch %01%02                  subscriber 3
        insert awft x                 old -
        watch %                       subscriber 4
        insert % x                    old -
        insert %00 x                  old -
        remove %00%01                 old x
        insert %00%01%02 x            old -
        remove %01%01%02              old x
        begin insert %01%01%02 x      slot 1
        step 1                        moved
        abandon 1                     abandoned
        insert %01%02%02 x            old -
    ''')
    sees(s, 4, 'insert % x', 'insert %00 x', 'remove %00%01', 'insert %00%01%02 x', 'remove %01%01%02', 'insert %01%02%02 x')
    sees(s, 1, 'insert %00 x', 'remove %00%01', 'insert %00%01%02 x')
    sees(s, 2, 'remove %00%01', 'insert %00%01%02 x')
    sees(s, 3, 'insert %01%02%02 x')
    s.note('A prefix is seen by itself, and not by a beginning of it.')
    s.new()
    watch(s, 1, 'ab')
    watch(s, 2, '%ff%ff')
    for k in ('a', 'ab', 'abc', 'ac', 'b', '%ff', '%ff%ff', '%ff%ff%ff', '%ff%fe'):
        s.line(f'insert {k} 1', 'old -')
    sees(s, 1, 'insert ab 1', 'insert abc 1')
    sees(s, 2, 'insert %ff%ff 1', 'insert %ff%ff%ff 1')


@case
def a_call_in_flight_is_decided_where_1024_events_wait(s):
    """Two inserts are in flight, and 1023 events wait. The one that comes too late reads anew and is decided as always; the oldest event
    is missed."""
    watch(s, 1, '%')
    fill(s, 1023)
    s.rows('''
        begin insert x 1    slot 1
        begin insert y 1    slot 2
        step 1              moved
        step 2              moved
        step 1              old -
        step 2              moved
        step 2              moved
        step 2              old -
        next 1              event missed 1
        get y               value 1
        len                 number 3
    ''')
    s.reaches('change is stale')
    s.line('next 1', 'event insert a 2')
    s.note('Each kind of call takes the steps that it takes where nobody watches.')
    printed = []
    for is_watched in True, False:
        s.new()
        s.line('operator concat', 'done')
        s.insert(*below(18))
        if is_watched:
            watch(s, 1, '%')
        fill(s)
        printed.append(list(steps_of(s, 'insert %10 1', 'remove %01', 'cas %02 %02 1', 'cas %03 %03 %03', 'merge %04 1', 'cas z - -', 'insert %05 %05', 'remove z',
                                     'cas %06 - 1', 'get %07')))
        if is_watched:
            s.line('next 1', 'event missed 6')
    expect(printed[0] == printed[1], *printed)


@case
def a_change_that_is_not_decided_misses_no_event(s):
    """Where 1024 events wait, none is missed before a change is decided: not as its call reads the leaf, not by a link that comes too
    late or that the store refuses, and not by a call that is given up."""
    watch(s, 1, '%')
    fill(s)
    s.rows('''
        begin insert b 1    slot 1
        begin insert b 2    slot 2
        begin insert c 1    slot 3
        step 1              moved
        step 2              moved
        step 3              moved
        next 1              event insert a 1
        step 1              old -
        next 1              event insert a 2
        insert d 1          old -
        step 2              moved
        abandon 3           abandoned
        next 1              event insert a 1
        insert e 1          old -
        step 2              moved
        next 1              event insert a 2
        insert f 1          old -
        step 2              moved
        step 2              moved
        step 2              old 1
        next 1              event missed 1
    ''')
    s.note('A link that the store refuses: its 1028th call, of which an opening makes three and an insert one.')
    s.new(1028)
    watch(s, 1, '%')
    fill(s)
    s.rows('''
        insert b 1          refused E4
        next 1              event insert a 1
        insert b 1          old -
        insert b 2          old 1
        next 1              event missed 1
    ''')
    s.note('A split, which the insert of a key makes first, brings no event.')
    s.new()
    s.insert(*below(15))
    watch(s, 1, '%')
    fill(s, 1023)
    s.insert('%0f')
    s.begin(1, 'insert %10 %10')
    s.moves(1, 7)
    s.line('next 1', 'event insert a 1')
    s.line('step 1', 'old -')
    s.line('next 1', 'event insert a 2')


@case
def events_come_in_the_order_of_decisions(s):
    """An event comes with the step that decides, whichever call began first; a link that is stale and a page that splits bring
    none."""
    s.rows('''
        watch %             subscriber 1
        begin insert a 1    slot 1
        begin insert a 2    slot 2
        begin remove a      slot 3
        step 1              moved
        step 2              moved
        next 1              event -
        step 2              old -
        step 1              moved
        next 1              event insert a 2
        next 1              event -
        step 1              moved
        step 3              moved
        step 1              old 2
        step 3              moved
        step 3              moved
        step 3              old 1
        next 1              event insert a 1
        next 1              event remove a
        next 1              event -
    ''')
    s.new()
    s.insert(*below(17))
    watch(s, 1, '%')
    s.begin(1, 'insert %11 %11')
    s.moves(1, 7)
    s.line('next 1', 'event -')
    s.line('step 1', 'old -')
    sees(s, 1, 'insert %11 %11')
    s.remove(*below(18, 11)[::-1])
    sees(s, 1, *(f'remove {k}' for k in below(18, 11)[::-1]))
    s.begin(2, 'remove %0a')
    s.moves(2, 11)
    s.line('next 1', 'event -')
    s.line('step 2', 'old %0a')
    sees(s, 1, 'remove %0a')
    s.note('A link that the store refuses brings none.')
    s.new(4)
    watch(s, 1, '%')
    s.rows('''
        insert a 1          refused E4
        next 1              event -
        insert a 1          old -
        next 1              event insert a 1
        next 1              event -
    ''')


@case
def subscribers_are_of_a_tree_and_end_at_an_opening(s):
    """A subscriber sees the changes of one tree. Events that wait when it is dropped can still be taken, and then there are none. An
    opening ends all subscribers, and they are counted from 1 again."""
    s.rows('''
        tree t                  tree t
        watch %                 subscriber 1
        tree __sled__default    tree __sled__default
        watch %                 subscriber 2
        insert x 2              old -
        tree t                  tree t
        insert x 1              old -
        next 2                  event insert x 2
        next 2                  event -
        insert y 1              old -
        drop t                  yes
        next 1                  event insert x 1
        watch %                 refused E1
        tree t                  tree t
        insert z 1              old -
        next 1                  event insert y 1
        next 1                  event -
        watch z                 subscriber 3
        remove z                old 1
        next 3                  event remove z
        next 1                  event -
        next 4                  no subscriber
        next 0                  no subscriber
        handle other t 1        done
        watch %                 refused E2
    ''')
    for line, printed in ('reopen', 'opened'), ('recover', 'opened'), ('crash 9', 'recovered'), ('new', 'opened'):
        s.line(line, printed)
        s.line('next 1', 'no subscriber')
        s.line('unwatch 1', 'no subscriber')
        s.line('insert e 1', 'old -')
        watch(s, 1, 'e')
        s.line('next 1', 'event -')
        s.line('remove e', 'old 1')
        watch(s, 2, 'f')
        sees(s, 1, 'remove e')
    s.note('Without a database there is no subscriber.')
    s.rows('''
        new refuse 1      refused E4
        watch %           refused E8
        next 1            no subscriber
        unwatch 1         no subscriber
        owned watch %     refused E8
        owned next 1      no subscriber
        owned unwatch 1   no subscriber
        reopen            opened
        next 1            no subscriber
        watch %           subscriber 1
    ''')


@case
def a_subscriber_that_is_given_up_gets_nothing(s):
    """A subscriber that is given up has no events any more and missed none, and its number is not given again."""
    watch(s, 1, '%')
    watch(s, 2, 'a')
    fill(s, 1025)
    s.line('unwatch 1', 'done')
    s.line('insert b x', 'old -')
    s.line('next 1', 'event -')
    s.line('insert a x', 'old 1')
    s.line('next 1', 'event -')
    s.line('unwatch 1', 'done')
    s.line('next 2', 'event missed 2')
    s.line('insert a y', 'old x')
    s.line('unwatch 2', 'done')
    s.line('insert a z', 'old y')
    s.line('next 2', 'event -')
    s.line('unwatch 3', 'no subscriber')
    s.line('unwatch 0', 'no subscriber')
    watch(s, 3, '%')
    s.line('remove a', 'old z')
    sees(s, 3, 'remove a')
    sees(s, 2)
    sees(s, 1)


@case
def a_slow_subscriber_holds_no_other_up(s):
    """Of two subscribers of one prefix one takes each event as it comes and misses none, and the other takes none and misses six. One
    of another prefix, to which fewer come, misses none."""
    watch(s, 1, '%')
    watch(s, 2, '%')
    watch(s, 3, '0')
    for n in range(1030):
        s.line(f'insert {short(n)} {n}', 'old -')
        s.line('next 2', f'event insert {short(n)} {n}')
    s.line('next 2', 'event -')
    s.line('next 1', 'event missed 6')
    s.line('next 1', f'event insert {short(6)} 6')
    sees(s, 3, *(f'insert {short(n)} {n}' for n in range(64)))
    s.note('What was missed is told after the tree was dropped too, and then what waits; after an opening there is no subscriber.')
    s.line('tree t', 'tree t')
    s.line('owned watch %', 'subscriber 4')
    fill(s, 1027)
    s.line('drop t', 'yes')
    s.line('next 4', 'event missed 3')
    sees(s, 4, *(f'insert a {n % 2 + 1}' for n in range(3, 1027)))
    s.line('recover', 'opened')
    s.line('next 1', 'no subscriber')


@case
def subscribers_of_one_prefix_each_see_its_keys(s):
    """Subscribers of one prefix each see a change, and so do those of the whole key, of its beginnings, and of the empty prefix; those of
    other prefixes and of longer ones do not. Where one is given up, the others of its prefix stay."""
    for number, prefix in enumerate(('ab', 'ab', 'abc', '%', 'b', 'abcd', 'ab%00', '%ff'), 1):
        watch(s, number, prefix)
    s.rows('''
        insert abc 1        old -
        insert ab 1         old -
        insert a 1          old -
        insert % 1          old -
        insert ab%00%00 1   old -
        insert b%00 1       old -
    ''')
    sees(s, 1, 'insert abc 1', 'insert ab 1', 'insert ab%00%00 1')
    sees(s, 3, 'insert abc 1')
    sees(s, 5, 'insert b%00 1')
    sees(s, 6)
    sees(s, 7, 'insert ab%00%00 1')
    sees(s, 8)
    s.note('One of two is given up, and the one of the longest prefix.')
    s.line('unwatch 1', 'done')
    s.line('unwatch 6', 'done')
    s.line('remove abc', 'old 1')
    s.line('insert abcd 1', 'old -')
    watch(s, 9, 'abcd')
    watch(s, 10, 'ab')
    s.line('remove abcd', 'old 1')
    s.line('insert abcde 1', 'old -')
    sees(s, 1)
    sees(s, 2, 'insert abc 1', 'insert ab 1', 'insert ab%00%00 1', 'remove abc', 'insert abcd 1', 'remove abcd', 'insert abcde 1')
    sees(s, 3, 'remove abc', 'insert abcd 1', 'remove abcd', 'insert abcde 1')
    sees(s, 6)
    sees(s, 9, 'remove abcd', 'insert abcde 1')
    sees(s, 10, 'remove abcd', 'insert abcde 1')
    s.note('The others of both prefixes are given up too, and each is watched anew. Another tree has subscribers of its own.')
    for number in 2, 10, 9, 4:
        s.line(f'unwatch {number}', 'done')
    s.line('insert ab 2', 'old 1')
    watch(s, 11, 'ab')
    s.line('insert ab 3', 'old 2')
    watch(s, 12, '%')
    s.line('tree t', 'tree t')
    s.line('insert ab 4', 'old -')
    watch(s, 13, 'ab')
    s.line('insert abcd 5', 'old -')
    s.line(f'tree {DEFAULT}', f'tree {DEFAULT}')
    s.line('insert ab 6', 'old 3')
    s.line('remove ab%00%00', 'old 1')
    sees(s, 2)
    sees(s, 4)
    sees(s, 7, 'remove ab%00%00')
    sees(s, 11, 'insert ab 3', 'insert ab 6', 'remove ab%00%00')
    sees(s, 12, 'insert ab 6', 'remove ab%00%00')
    sees(s, 13, 'insert abcd 5')


@case
def each_of_a_thousand_subscribers_sees_its_own_key(s):
    """A thousand subscribers, each of a prefix of its own. A change comes to the one of its prefix, and to those of the empty prefix."""
    for n in range(1000):
        watch(s, n + 1, short(n))
    watch(s, 1001, '%')
    for n in range(0, 1000, 7):
        s.line(f'insert {short(n)}x {n}', 'old -')
    s.line('insert 0 x', 'old -')
    for n in range(1000):
        sees(s, n + 1, *[f'insert {short(n)}x {n}'] * (n % 7 == 0))
    sees(s, 1001, *(f'insert {short(n)}x {n}' for n in range(0, 1000, 7)), 'insert 0 x')


@case
def subscribers_come_and_go_at_random(s):
    """Lines at random: keys of few bytes in two trees change, and subscribers to their beginnings come, are told what is next, and go."""
    dice = random.Random(15)
    numbers = []

    def some(most):
        return word(bytes(dice.choice(b'\x00ab\xff') for _ in range(dice.randint(0, most))))

    s.line('tree t', 'tree t')
    for _ in range(2000):
        what = dice.random()
        if what < .08:
            s.ask(f'{dice.choice(["", "owned "])}watch {some(3)}')
            numbers.append(len(s.shell.subscribers))
        elif what < .13 and numbers:
            s.ask(f'unwatch {numbers.pop(dice.randrange(len(numbers)))}')
        elif what < .45 and numbers:
            s.ask(f'next {dice.choice(numbers)}')
        elif what < .5:
            s.ask(f'tree {dice.choice(["t", DEFAULT])}')
        elif what < .8:
            s.ask(f'{dice.choice(["", "owned "])}insert {some(4)} {dice.randint(1, 3)}')
        elif what < .98:
            s.ask(f'{dice.choice(["", "owned "])}remove {some(4)}')
        else:
            s.ask(dice.choice(['pop-min', 'pop-max', 'names', 'clear']))
    for number in range(1, len(s.shell.subscribers) + 1):
        while s.ask(f'next {number}') != ['event -']:
            pass


@case
def merges_pops_and_imports_bring_events(s):
    """A merge brings an event with its new value, a pop and a clear one for each pair that they take out, an import one for each pair;
    to open and to drop a tree brings none."""
    s.rows('''
        merge k 1             refused E2
        begin merge k 1       refused E2
        watch %               subscriber 1
        merge k 1             refused E2
        begin merge k 1       refused E2
        next 1                event -
        operator concat       done
        merge k 1             value 1
        begin merge k 2       slot 1
        step 1                moved
        operator before       done
        step 1                value 21
        operator gone         done
        merge k 3             value -
        merge k 3             value -
        operator keep         done
        merge k 4             value 4
        merge k 5             value 4
        next 1                event insert k 1
        next 1                event insert k 21
        next 1                event remove k
        next 1                event remove k
        next 1                event insert k 4
        next 1                event insert k 4
        next 1                event -
        pop-min               pair k 4
        pop-max               pair -
        clear                 done
        next 1                event remove k
        next 1                event -
        import __sled__default b 2 a 1 c 3    done
        import t x 1          done
        next 1                event insert b 2
        next 1                event insert a 1
        next 1                event insert c 3
        next 1                event -
        import __sled__default d 4 a 1        refused E2
        pop-max               pair d 4
        owned pop-min         pair a 1
        clear                 done
        next 1                event insert d 4
        next 1                event remove d
        next 1                event remove a
        next 1                event remove b
        next 1                event remove c
        next 1                event -
        drop t                yes
        next 1                event -
    ''')
    s.note('A clear and an import are made whole where there is room for some of their events alone.')
    s.new()
    s.insert('b', 'c', 'd')
    watch(s, 1, '%')
    fill(s, 1022)
    s.rows('''
        clear                 done
        range .. ..           end 0
        next 1                event missed 2
        next 1                event insert a 1
        import __sled__default e 1 f 2    done
        range .. ..           pair e 1
                              pair f 2
                              end 2
        next 1                event missed 1
        next 1                event insert a 1
    ''')


@case
def fetches_always_bring_an_event(s):
    """An update and a fetch bring an event each, whatever they write, also where 1024 wait."""
    s.rows('''
        watch k                subscriber 1
        update k set 1         value 1
        fetch k set 1          value 1
        update k append 2      value 12
        fetch k delete         value 12
        update k delete        value -
        fetch k short          refused E6
        next 1                 event insert k 1
        next 1                 event insert k 1
        next 1                 event insert k 12
        next 1                 event remove k
        next 1                 event remove k
        next 1                 event -
    ''')
    for n in range(1024):
        s.line('update k count', f'value {eight(n)}')
    s.line('fetch k short', 'refused E6')
    s.line('update j count', f'value {eight(0)}')
    s.line('next 1', f'event insert k {eight(0)}')
    s.line('update k count', f'value {eight(1024)}')
    s.line('update k count', f'value {eight(1025)}')
    s.line('fetch k delete', f'value {eight(1025)}')
    s.line('owned update k count', f'value {eight(0)}')
    s.line('next 1', 'event missed 3')
    s.line('next 1', f'event insert k {eight(4)}')


@case
def owned_calls_of_subscribers_count_on(s):
    """Subscribers of calls of the database itself are counted with the others. They stay where slots end."""
    s.rows('''
        watch a                 subscriber 1
        begin insert ab 1       slot 1
        owned watch %           subscriber 2
        step 1                  no slot
        owned insert ab 1       old -
        begin insert c 1        slot 1
        owned next 1            event insert ab 1
        step 1                  no slot
        owned next 1            event -
        owned next 3            no subscriber
        owned flush             flushed 1
        next 2                  event insert ab 1
        watch %                 subscriber 3
        owned pop-min           pair ab 1
        owned next 3            event remove ab
        owned unwatch 2         done
        owned unwatch 4         no subscriber
        next 2                  event -
        next 1                  event remove ab
        owned watch c           subscriber 4
        insert c 1              old -
        next 4                  event insert c 1
        tree t                  tree t
        owned drop t            yes
        owned watch %           refused E1
    ''')


@case
def subscriber_lines_that_cannot_be_read(s):
    """Lines of subscribers that cannot be read change nothing."""
    watch(s, 1, '%')
    s.line('insert a 1', 'old -')
    for line in ('watch', 'watch -', 'watch a b', 'watch %zz', 'next', 'next -1', 'next 01', 'next 1 2', 'next a', 'unwatch', 'unwatch a', 'unwatch 1 1',
                 'owned watch', 'owned watch -', 'owned next', 'owned next a', 'owned unwatch', 'begin watch a', 'begin next 1', 'watchs a'):
        s.ask(line)
        expect(s.wanted[-1].startswith('bad line'), line, s.wanted[-1])
    sees(s, 1, 'insert a 1')
