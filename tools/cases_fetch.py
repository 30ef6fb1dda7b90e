"""Calls that read a value and write what is made of it."""
from cases_flights import below
from script import case, expect, key


def eight(number):
    """The word for the eight bytes of a number, the greatest first."""
    return ''.join(f'%{byte:02x}' if not 33 <= byte <= 126 or byte == 37 else chr(byte) for byte in number.to_bytes(8, 'big'))


@case
def a_counter_counts(s):
    """An update answers the value that it wrote, a fetch the one that it read. A counter goes from none to 0, and then up by one."""
    for n in range(4):
        s.line('update counter count', f'value {eight(n)}')
    s.line('get counter', f'value {eight(3)}')
    s.new()
    for n in range(4):
        s.line('fetch counter count', f'value {eight(n - 1) if n else "-"}')
    s.line('get counter', f'value {eight(3)}')
    s.note('It wraps, and a value of another length counts as 0.')
    s.line(f'insert n {eight(2**64 - 1)}', 'old -')
    s.line('update n count', f'value {eight(0)}')
    for other in ('a', '%', eight(7) + 'x', '1234567'):
        s.ask(f'insert n {other}')
        s.line('update n count', f'value {eight(1)}')


@case
def a_value_is_changed_in_each_way(s):
    """A value is counted, appended to, set and taken out. All of it is written, also what was there before."""
    s.rows('''
        update k append a       value a
        update k append b       value ab
        fetch k append c        value ab
        get k                   value abc
        fetch k set x           value abc
        update k set %          value %
        update k set %2d        value %2d
        fetch k set %2d         value %2d
        flush                   flushed 7
        update k delete         value -
        update k delete         value -
        fetch k delete          value -
        flush                   flushed 3
        get k                   value -
        fetch k set 1           value -
        fetch k delete          value 1
        dump                    end 0
        fetch k short           refused E6
        update k short          refused E6
        insert k 2              old -
        update k short          refused E6
        get k                   value 2
        flush                   flushed 3
    ''')


@case
def a_fetch_stands_beside_calls_in_flight(s):
    """A read and its write are one step. A call in flight that read before finds another version; an owned one ends the slots."""
    s.rows('''
        begin insert k 1        slot 1
        begin cas k - 2         slot 2
        step 1                  moved
        step 2                  moved
        update k set 3          value 3
        step 1                  moved
        step 2                  moved
        step 1                  moved
        step 1                  old 3
        fetch k append 4        value 1
        step 2                  conflict 14 2
        begin get k             slot 3
        owned update k append 5     value 145
        step 3                  no slot
        begin get k             slot 1
        owned fetch k delete    value 145
        step 1                  no slot
        begin get k             slot 1
        owned update k short    refused E6
        step 1                  no slot
        tree t                  tree t
        update k set 6          value 6
        drop t                  yes
        update k set 7          refused E1
        owned fetch k set 7     refused E1
        handle other t 1        done
        fetch k set 7           refused E2
        names                   name __sled__default
                                end 1
    ''')


@case
def fetches_split_and_merge_pages(s):
    """An update of a new key splits pages, one that takes a key out merges them, and what stands half done is gone on with."""
    for n in range(60):
        s.line(f'update {key(n)} append {key(n)}', f'value {key(n)}')
    expect(len(s.ask('pages')) == 3, 'there are two levels')
    for n in range(59, 3, -1):
        s.line(f'{"fetch" if n % 2 else "owned fetch"} {key(n)} delete', f'value {key(n)}')
    s.holds(*below(4))
    for steps in range(8):
        s.new()
        s.insert(*below(17))
        s.begin(1, 'insert %11 x')
        s.moves(1, steps)
        s.line('update %11 append %11', 'value %11')
        s.holds(*below(18))
        s.line('fetch %00 append a', 'value %00')
        s.ask('finish 1')


@case
def each_store_call_of_a_fetch_is_refused(s):
    """Each call of the store that an update makes is refused in turn: nothing has changed, and it is made again. A crash keeps it
    only with its last action."""
    for number in range(5):
        s.new(3 + 17 + number + 1)
        s.insert(*below(17))
        s.line('update %11 append %11', 'refused E4')
        s.holds(*below(17))
        s.line('fetch %11 append %11', 'value -')
        s.holds(*below(18))
    for keep in range(6):
        s.new()
        s.insert(*below(17))
        s.ask('flush')
        s.line('update %11 append %11', 'value %11')
        s.line(f'crash {keep}', 'recovered')
        s.holds(*below(18 if keep == 5 else 17))
    s.rows('''
        new                    opened
        insert a 1             old -
        reopen unreadable 1    opened
        update a count         refused E4
        fetch a delete         refused E4
        recover                opened
        fetch a delete         value 1
        new refuse 1           refused E4
        update a count         refused E8
        fetch a delete         refused E8
        owned update a count   refused E8
    ''')


@case
def fetches_that_cannot_be_read(s):
    """Lines that read and write and cannot be read."""
    s.rows('''
        update                  bad line 2: `update` takes K HOW, two words or three
        update k                bad line 3: `update` takes K HOW, two words or three
        update k add            bad line 4: `add` does not change a value: count, append V, set V, delete and short do
        fetch k count 1         bad line 5: `fetch` takes K HOW, two words or three
        fetch k append          bad line 6: `fetch` takes K HOW, two words or three
        fetch k set 1 2         bad line 7: `fetch` takes K HOW, two words or three; a space inside a word is spelled %20
        fetch k add 1           bad line 8: `add` does not change a value: count, append V, set V, delete and short do
        fetch k set -           bad line 9: `-` is no byte string: `!` to `~` but for `%` stand for themselves, any other byte and a `-` alone as % and two lower-case hexadecimal digits
        update - count          bad line 10: `-` is no byte string: `!` to `~` but for `%` stand for themselves, any other byte and a `-` alone as % and two lower-case hexadecimal digits
        owned update k          bad line 11: `owned update` takes K HOW, two words or three
        begin update k count    bad line 12: `update` does not follow `begin`; `help` lists what does
        flush                   flushed 0
    ''')
