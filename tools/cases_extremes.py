"""Keys and values that are as short, as long, as great or as alike as can be."""
from oracle import TREE
from script import case, key, pair

DEFAULT = TREE.decode()
LENGTHS = 0, 1, 23, 57, 1000


def greatest(count):
    """The word of so many bytes 255."""
    return '%ff' * count or '%'


def long(letter, length):
    return letter * length or '%'


def is_sound(s):
    s.line('verify', 'sound')


@case
def the_greatest_strings_come_last(s):
    """The strings of 0 to 40 bytes 255, each to itself, put in from both ends: the first is the empty one, the next above it and below its
    end are found, a prefix of 20 has 21, and the pairs go from both ends until none is left."""
    for count in [n for both in zip(range(20), range(40, 20, -1)) for n in both] + [20]:
        s.insert(greatest(count))
    is_sound(s)
    words = [greatest(count) for count in range(41)]
    s.holds(*words)
    s.line('first', 'pair % %')
    s.line('last', f'pair {words[40]} {words[40]}')
    s.line('gt %', 'pair %ff %ff')
    s.line('lt %ff', 'pair % %')
    s.line(f'gt {words[40]}', 'pair -')
    s.line(f'gt {greatest(41)}', 'pair -')
    s.line(f'lt {greatest(41)}', f'pair {words[40]} {words[40]}')
    s.line('lt %', 'pair -')
    s.line('len', 'number 41')
    s.line(f'prefix {words[20]}', *(f'pair {word} {word}' for word in words[20:]), 'end 21')
    s.line('prefix %', *(f'pair {word} {word}' for word in words), 'end 41')
    s.line(f'prefix-back {words[20]}', *(f'pair {word} {word}' for word in words[:19:-1]), 'end 21')
    s.line(f'range ({words[38]} ..', *(f'pair {word} {word}' for word in words[39:]), 'end 2')
    s.line(f'range .. ({words[2]}', *(f'pair {word} {word}' for word in words[:2]), 'end 2')
    s.line('pop-max', f'pair {words[40]} {words[40]}')
    s.line('pop-min', 'pair % %')
    s.holds(*words[1:40])
    s.line('batch' + ''.join(f' {word} -' for word in words[1:20]), 'done')
    s.holds(*words[20:40])
    is_sound(s)
    s.line('recover', 'opened')
    for count in range(39, 19, -1):
        s.line('pop-max', f'pair {words[count]} {words[count]}')
    s.line('pop-max', 'pair -')
    s.line('dump', 'end 0')
    is_sound(s)


@case
def keys_and_values_of_each_length(s):
    """Keys and values of 0, 1, 23, 57 and 1000 bytes: a byte string is kept in place where it is short, and else beside. Each value stands at
    each key, one after the other, and takes the place of one of another length."""
    for at, length in enumerate(LENGTHS):
        for other in LENGTHS:
            old = '-' if other == 0 else long('v', LENGTHS[LENGTHS.index(other) - 1])
            s.line(f'insert {long("k", length)} {long("v", other)}', f'old {old}')
        s.line(f'cas {long("k", length)} {long("v", 1000)} {long("w", 57)}', 'swapped')
        s.line(f'cas {long("k", length)} {long("w", 58)} -', f'conflict {long("w", 57)} -')
    is_sound(s)
    s.line('operator concat', 'done')
    for length in LENGTHS:
        s.line(f'merge {long("k", length)} {long("x", length)}', f'value {long("w", 57)}{"x" * length}')
        s.line(f'has {long("k", length)}', 'yes')
        s.line(f'has {long("k", length + 2)}', 'no')
        s.line(f'update {long("k", length)} set {long("y", length)}', f'value {long("y", length)}')
    s.line('len', 'number 5')
    s.line('keys .. ..', *(f'key {long("k", length)}' for length in LENGTHS), 'end 5')
    s.line('values-back .. ..', *(f'value {long("y", length)}' for length in LENGTHS[::-1]), 'end 5')
    s.line(f'gt {long("k", 23)}', f'pair {long("k", 57)} {long("y", 57)}')
    s.line(f'lt {long("k", 23)}', 'pair k y')
    s.line(f'prefix {long("k", 57)}', *(f'pair {long("k", length)} {long("y", length)}' for length in LENGTHS[3:]), 'end 2')
    for length in LENGTHS:
        s.line(f'tree {long("t", length)}', f'tree {long("t", length)}')
        s.line(f'batch {long("k", length)} {long("v", length)} x {long("z", length)}', 'done')
    is_sound(s)
    s.line('recover', 'opened')
    s.ask('dump')
    s.line('names', f'name %', f'name {DEFAULT}', *(f'name {long("t", length)}' for length in LENGTHS[1:]), 'end 6')
    for length in LENGTHS[::-1]:
        s.line(f'remove {long("k", length)}', f'old {long("y", length)}')
        s.line(f'drop {long("t", length)}', 'yes')
    s.line('dump', 'end 0')
    is_sound(s)


@case
def a_key_and_a_value_of_a_million_bytes(s):
    """A key and a value of 1,000,000 bytes each stand among short ones. They are found, compared and taken out."""
    million = 1_000_000
    s.insert('j', 'l')
    s.line(f'insert {long("k", million)} {long("v", million)}', 'old -')
    s.line('len', 'number 3')
    is_sound(s)
    s.line('crash 3', 'recovered')
    s.line('has k', 'no')
    s.line('lt k', 'pair j j')
    s.line('prefix l', 'pair l l', 'end 1')
    s.line(f'cas {long("k", million)} {long("v", million)} -', 'swapped')
    s.holds('j', 'l')
    is_sound(s)


@case
def a_tree_of_one_key_over_and_over(s):
    """One key is written and taken out in every way, over and over: its tree stays one page with one pair at the most, and the store keeps each
    beginning."""
    s.line('operator concat', 'done')
    value = '-'
    for number in range(60):
        word = key(number)
        s.line(f'insert a {word}', f'old {value}')
        s.line(f'cas a {word} x', 'swapped')
        s.line('merge a y', 'value xy')
        s.line('batch a 1 a 2 a - a z', 'done')
        s.line('begin insert a s', f'slot {number + 1}')
        s.moves(number + 1)
        s.line('fetch a append q', 'value z')
        s.line(f'finish {number + 1}', 'old zq')
        value = 's'
        if number % 3 == 0:
            s.line('pop-max', 'pair a s')
            s.line('remove a', 'old -')
            value = '-'
        s.pages((1, 0 if value == '-' else 1))
    is_sound(s)
    for number in range(300):
        s.line('owned insert a b', 'old ' + ('s' if number == 0 else '-'))
        s.line('owned remove a', 'old b')
    s.pages((1, 0))
    s.ask('insert a b')
    for number in range(300):
        s.line('merge a c', 'value b' + 'c' * (number + 1))
    s.line('len', 'number 1')
    is_sound(s)
    s.ask('flush')
    s.line('insert a b', 'old b' + 'c' * 300)
    s.line('insert a d', 'old b')
    s.line('crash 1', 'recovered')
    s.line('dump', pair('a', 'b'), 'end 1')


@case
def a_thousand_trees_are_made_and_dropped(s):
    """A thousand trees of a pair each, made in one order and dropped in another: the pages of all of them pass the check, and none is left."""
    for number in range(1000):
        s.line(f'tree t{number * 7 % 1000}', f'tree t{number * 7 % 1000}')
        s.line(f'owned insert k {number}', 'old -')
    s.line('flush', 'flushed 3000')
    is_sound(s)
    names = sorted([f't{number}' for number in range(1000)] + [DEFAULT])
    s.line('names', *(f'name {name}' for name in names), 'end 1001')
    values = {f't{number * 7 % 1000}': number for number in range(1000)}
    s.line('dump', *(pair('k', values[name], name) for name in names if name != DEFAULT), 'end 1000')
    for number in range(1000):
        s.line(f'drop t{number * 3 % 1000}', 'yes')
    s.line('names', f'name {DEFAULT}', 'end 1')
    is_sound(s)
    s.line('tree t5', 'tree t5')
    s.line('get k', 'value -')
    s.line('recover', 'opened')
    s.line('names', f'name {DEFAULT}', 'name t5', 'end 2')
    is_sound(s)


@case
def a_batch_replaces_a_value_of_its_length(s):
    """A batch puts another value in the place of one of the same length."""
    for length in 1, 23, 57, 58, 200:
        s.line(f'insert {length} {long("v", length)}', 'old -')
        for line, value in ('batch', 'w'), ('owned batch', 'y'), ('group -', 'x'):
            s.line(f'{line} {length} {long(value, length)}', 'done')
            s.line(f'get {length}', f'value {long(value, length)}')


@case
def keys_and_values_between_57_and_1000_bytes(s):
    """Keys and values of lengths between 57 and 1000 bytes."""
    lengths = 58, 100, 200, 256, 301, 305, 309, 400, 700
    for length in lengths:
        s.line(f'batch {long("k", length)} {long("v", length)}', 'done')
    for length in lengths:
        s.line(f'get {long("k", length)}', f'value {long("v", length)}')


@case
def a_subscriber_to_a_long_prefix_hears(s):
    """Subscribers to prefixes of 1 to 1000 bytes hear of the keys that begin with them, and of no others."""
    lengths = 1, 21, 22, 23, 30, 56, 57, 1000
    for number, length in enumerate(lengths, 1):
        s.line(f'watch {long("a", length)}', f'subscriber {number}')
    for length in lengths:
        s.line(f'insert {long("a", length)} {length}', 'old -')
        s.line(f'insert {"a" * (length - 1)}b 1', 'old -')
    for number, length in enumerate(lengths, 1):
        for other in lengths:
            if other >= length:
                s.line(f'next {number}', f'event insert {long("a", other)} {other}')
            if other > length:
                s.line(f'next {number}', f'event insert {"a" * (other - 1)}b 1')
        s.line(f'next {number}', 'event -')
