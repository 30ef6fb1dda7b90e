"""Names of trees, and ids."""
from oracle import GREATEST
from script import case


@case
def the_names_of_all_trees_are_told(s):
    """A new database has the default tree. To tell the names no page is read, and no handle is asked for."""
    s.rows("""
        names                            name __sled__default
                                         end 1
        insert a 1                       old -
        handle sledsh t 1                done
        names                            name __sled__default
                                         end 1
        reopen unreadable 1              opened
        names                            name __sled__default
                                         end 1
        new refuse 1                     refused E4
        names                            refused E8
    """)


@case
def ids_rise_and_never_come_again(s):
    """Ids rise by one, from 1 on. 4096 are set aside at a time, durably, and after an opening they go on above all that were."""
    s.rows("""
        owned id        number 1
        owned id        number 2
        owned flush     flushed 0
        owned id        number 3
        crash 0         recovered
        owned id        number 4097
        reopen          opened
        owned id        number 8193
        recover         opened
        owned id        number 12289
        owned insert a 1  old -
        owned id        number 12290
        crash 0         recovered
        read a          value -
        owned id        number 16385
    """)
    s.note('4096 ids are set aside by one call of the store, and the next 4096 by the next.')
    s.new()
    for n in range(1, 4099):
        s.line('owned id', f'number {n}')
    s.line('reopen', 'opened')
    s.line('owned id', 'number 8193')


@case
def an_id_is_refused_where_none_can_be_set_aside(s):
    """An id that is refused was not given. While one is set aside it asks nothing of the store; the greatest id is the greatest
    number of 64 bits."""
    s.new()
    calls = s.shell.store.calls
    s.note('The call of the store that sets ids aside is refused, and the next is not.')
    s.new(calls + 1)
    s.rows("""
        owned id        refused E4
        owned id        number 1
        owned id        number 2
    """)
    s.new(calls + 2)
    s.rows("""
        owned id        number 1
        owned id        number 2
        owned insert a 1  refused E4
        owned insert a 1  old -
        owned id        number 3
    """)
    s.note('The last ids that there are.')
    s.new()
    s.line(f'reopen mark {GREATEST - 2}', 'opened')
    s.line('owned id', f'number {GREATEST - 1}')
    s.line('owned id', f'number {GREATEST}')
    s.line('owned id', 'refused E2')
    s.line('owned id', 'refused E2')
    s.line('insert a 1', 'old -')
    s.line('recover', 'opened')
    s.line('owned id', 'refused E2')
    s.line('new refuse 1', 'refused E4')
    s.line('owned id', 'refused E8')
