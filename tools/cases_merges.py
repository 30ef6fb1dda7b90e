"""Merges by operators."""
from script import case, key


@case
def a_merge_joins_its_bytes_to_the_value(s):
    """A merge writes what the operator makes of the value that stands and its bytes, and replies with the new value."""
    s.rows('''
        merge k1 1          refused E2
        get k1              value -
        operator concat     done
        insert k1 0         old -
        merge k1 1          value 01
        merge k1 2          value 012
        get k1              value 012
        insert k1 3         old 012
        get k1              value 3
        remove k1           old 3
        merge k1 4          value 4
        get k1              value 4
    ''')


@case
def a_merge_in_a_tree_without_operator_is_refused(s):
    """Without an operator a merge is refused before it takes a slot, and nothing changes. No opening keeps operators."""
    s.rows('''
        insert k1 0         old -
        flush               flushed 1
        merge k1 1          refused E2
        begin merge k1 1    refused E2
        owned merge k1 1    refused E2
        flush               flushed 0
        begin get k1        slot 1
        finish 1            value 0
        operator concat     done
        owned merge k1 1    value 01
        merge k1 2          value 012
        begin merge k1 3    slot 1
        reopen              opened
        step 1              no slot
        merge k1 3          refused E2
        operator keep       done
        merge k1 3          value 012
        crash 9             recovered
        merge k1 3          refused E2
        get k1              value 012
    ''')


@case
def the_operator_that_is_set_last_counts(s):
    """A merge is decided by the operator that its tree has at the step that links it, with the value that stands then."""
    s.rows('''
        insert k1 0         old -
        operator concat     done
        begin merge k1 1    slot 1
        step 1              moved
        operator before     done
        step 1              value 10
        begin merge k1 2    slot 2
        insert k1 5         old 10
        step 2              moved
        operator max        done
        step 2              value 5
        begin merge k1 6    slot 3
        step 3              moved
        remove k1           old 5
        operator concat     done
        step 3              moved
        step 3              moved
        step 3              value 6
    ''')


@case
def merges_in_flight_at_one_key(s):
    """Two merges at one key step in turn: each is joined to what the other left, and neither is lost."""
    s.rows('''
        operator concat     done
        begin merge k a     slot 1
        begin merge k b     slot 2
        step 1              moved
        step 2              moved
        step 2              value b
        step 1              moved
        step 1              moved
        step 1              value ba
        begin merge k c     slot 3
        begin remove k      slot 4
        step 3              moved
        step 4              moved
        step 4              old ba
        step 3              moved
        step 3              moved
        step 3              value c
        get k               value c
    ''')


@case
def each_operator_is_what_it_says(s):
    """The operators: numbers add up and wrap, the greater by bytes is kept, the new before the old, the first is kept."""
    s.rows('''
        operator add        done
        merge n %00%00%00%00%00%00%00%02     value %00%00%00%00%00%00%00%02
        merge n %00%00%00%00%00%00%01%ff     value %00%00%00%00%00%00%02%01
        merge n %ff%ff%ff%ff%ff%ff%fd%ff     value %00%00%00%00%00%00%00%00
        merge n 7           value %00%00%00%00%00%00%00%00
        insert n 12         old %00%00%00%00%00%00%00%00
        merge n %00%00%00%00%00%00%00%01     value %00%00%00%00%00%00%00%01
        operator max        done
        merge m b           value b
        merge m a           value b
        merge m bb          value bb
        operator before     done
        merge m a           value abb
        operator keep       done
        merge m x           value abb
        merge f x           value x
        merge f y           value x
    ''')


@case
def a_merge_may_take_its_key_out(s):
    """An operator that leaves no value takes the key out, also one that is not there. It is linked all the same."""
    s.rows('''
        insert k 0          old -
        flush               flushed 1
        operator gone       done
        merge k 1           value -
        flush               flushed 1
        get k               value -
        merge k 1           value -
        flush               flushed 1
        dump                end 0
        operator keep       done
        insert k 0          old -
        flush               flushed 1
        merge k 1           value 0
        flush               flushed 1
    ''')


@case
def an_operator_without_memory_refuses_the_call(s):
    """An operator that has no memory refuses the merge, and nothing changes. Another operator serves the next one."""
    s.rows('''
        insert k 0          old -
        flush               flushed 1
        operator short      done
        merge k 1           refused E6
        owned merge k 1     refused E6
        begin merge k 1     slot 1
        step 1              moved
        step 1              refused E6
        step 1              no slot
        flush               flushed 0
        get k               value 0
        operator concat     done
        merge k 1           value 01
    ''')


@case
def merges_of_keys_that_split_pages(s):
    """Merges into many keys, among them one that is under way while its leaf splits."""
    s.line('operator concat', 'done')
    for k in range(16):
        s.line(f'merge {key(k)} a', 'value a')
    s.line(f'begin merge {key(12)} b', 'slot 1')
    s.moves(1)
    for k in range(16, 40):
        s.line(f'merge {key(k)} a', 'value a')
    s.ask('finish 1')
    s.line(f'get {key(12)}', 'value ab')
    for k in range(40):
        s.line(f'merge {key(k)} c', 'value abc' if k == 12 else 'value ac')
    s.ask('dump')
    s.line('operator gone', 'done')
    for k in range(40):
        s.line(f'merge {key(k)} x', 'value -')
    s.line('dump', 'end 0')


@case
def operators_that_cannot_be_read(s):
    """Lines of merges that cannot be read, and what is refused."""
    s.rows('''
        operator            bad line 2: `operator` takes OPERATOR, one word
        operator sum        bad line 3: `sum` is no operator: concat, add, max, before, keep, gone and short are
        merge k             bad line 4: `merge` takes K V, two words
        merge k %zz         bad line 5: `%zz` is no byte string: `!` to `~` but for `%` stand for themselves, any other byte and a `-` alone as % and two lower-case hexadecimal digits
        begin merge k       bad line 6: `begin merge` takes K V, two words
        handle other t 1    done
        operator concat     refused E2
        merge k 1           refused E2
        begin merge k 1     refused E2
        handle sledsh t 1   done
        operator concat     refused E1
        merge k 1           refused E1
    ''')
