"""Scans of the keys that begin with a prefix, from either end."""
from cases_reads import at
from script import case, crowd_case, expect, key, word


def scans(s, prefix, *keys):
    """A prefix has these keys, from the front and from the back."""
    s.line(f'prefix {prefix}', *at(*keys))
    s.line(f'prefix-back {prefix}', *at(*keys[::-1]))


@case
def prefixes_of_the_greatest_bytes(s):
    """A prefix that ends in bytes 255 has an upper bound shorter than itself, and one of these bytes alone has none."""
    scans(s, '%')
    scans(s, '%ff')
    s.insert('%fe', '%ff', '%ff%00', '%ff%ff')
    s.rows("""
        prefix %              pair %fe %fe
                              pair %ff %ff
                              pair %ff%00 %ff%00
                              pair %ff%ff %ff%ff
                              end 4
        prefix-back %         pair %ff%ff %ff%ff
                              pair %ff%00 %ff%00
                              pair %ff %ff
                              pair %fe %fe
                              end 4
        prefix %fe            pair %fe %fe
                              end 1
        prefix-back %fe       pair %fe %fe
                              end 1
        prefix %ff            pair %ff %ff
                              pair %ff%00 %ff%00
                              pair %ff%ff %ff%ff
                              end 3
        prefix-back %ff       pair %ff%ff %ff%ff
                              pair %ff%00 %ff%00
                              pair %ff %ff
                              end 3
        prefix %ff%00         pair %ff%00 %ff%00
                              end 1
        prefix %ff%ff         pair %ff%ff %ff%ff
                              end 1
        prefix-back %ff%ff    pair %ff%ff %ff%ff
                              end 1
        prefix %ff%ff%ff      end 0
        prefix-back %ff%ff%ff  end 0
        prefix %fd            end 0
        prefix %fe%ff         end 0
    """)
    s.new()
    s.insert('%', '%00', '%00%ff', '%00%ff%ff', '%00%ff%ff%00', '%01', '%01%fe%ff', '%01%ff', '%01%ff%ff', '%02', '%02%00')
    scans(s, '%', '%', '%00', '%00%ff', '%00%ff%ff', '%00%ff%ff%00', '%01', '%01%fe%ff', '%01%ff', '%01%ff%ff', '%02', '%02%00')
    scans(s, '%00', '%00', '%00%ff', '%00%ff%ff', '%00%ff%ff%00')
    scans(s, '%00%ff', '%00%ff', '%00%ff%ff', '%00%ff%ff%00')
    scans(s, '%00%ff%ff', '%00%ff%ff', '%00%ff%ff%00')
    scans(s, '%00%ff%ff%ff')
    scans(s, '%01', '%01', '%01%fe%ff', '%01%ff', '%01%ff%ff')
    scans(s, '%01%fe', '%01%fe%ff')
    scans(s, '%01%fe%ff', '%01%fe%ff')
    scans(s, '%01%ff', '%01%ff', '%01%ff%ff')
    scans(s, '%02', '%02', '%02%00')
    scans(s, '%03')


@case
def strings_of_the_greatest_byte(s):
    """The strings of 0 to 40 bytes 255, each to itself: a prefix of n of them has those that are no shorter, over several leaves."""
    keys = ['%'] + ['%ff' * n for n in range(1, 41)]
    s.insert(*keys)
    for n in (0, 1, 20, 39, 40):
        scans(s, keys[n], *keys[n:])
    scans(s, '%ff' * 41)
    s.line('gt %', 'pair %ff %ff')
    s.line('lt %ff', 'pair % %')


@case
def prefixes_over_many_pages(s):
    """Three hundred keys of three digits: those that begin with none, one, two or three digits."""
    keys = [f'{n:03}' for n in range(300)]
    s.insert(*keys)
    for prefix in ('%', '0', '1', '29', '15', '150', '1500', '3', '-0'):
        scans(s, prefix, *(k for k in keys if prefix == '%' or k.startswith(prefix)))
    s.line('remove 150', 'old 150')
    scans(s, '15', *keys[151:160])
    s.line('handle sledsh other 1', 'done')
    s.line('prefix 15', 'refused E1')
    s.line('prefix-back 15', 'refused E1')


@crowd_case
def a_prefix_reads_few_pages(s):
    """Of three hundred keys of three digits the ten that begin with two digits are read from two leaves and one way down."""
    s.insert(*(f'{n:03}' for n in range(300)))
    s.ask('reads')
    s.line('prefix 15', *at(*(f'15{n}' for n in range(10))))
    expect(int(s.ask('reads')[0].split()[1]) <= 10 // 8 + 2 + len(s.shell.levels()), 'a prefix of ten pairs')


@case
def prefixes_beside_an_abandoned_merge(s):
    """Eleven pairs in two leaves, the second of which has three. A removal of the last begins to merge them and is given up after 0
    to 9 steps; a prefix finds every key that begins with it once. The keys are byte 255 and one more."""
    keys = ['%ff' + word(bytes([238 + n])) for n in range(18)]
    expect(keys == sorted(keys) and len(set(keys)) == 18, keys)
    for steps in range(10):
        s.new()
        s.insert(*keys)
        s.remove(*keys[:10:-1])
        s.begin(1, f'remove {keys[10]}')
        for _ in range(steps):
            s.ask('step 1')
        s.ask('abandon 1')
        there = keys[:11] if s.ask(f'has {keys[10]}') == ['yes'] else keys[:10]
        scans(s, '%', *there)
        scans(s, '%ff', *there)
        scans(s, keys[7], keys[7])
        scans(s, keys[8], keys[8])
        scans(s, keys[10], *there[10:])
        scans(s, '%fe')


@case
def a_prefix_of_a_page_that_cannot_be_read(s):
    """Eighteen pairs in two leaves, the second of which cannot be read: a prefix whose keys lie in the first is scanned, of others the
    fault comes after the pairs before it. Of a database that was not opened a prefix is refused; and words that are no prefix."""
    s.insert(*('a' + key(n) for n in range(8)), *('b' + key(n) for n in range(10)))
    s.line('reopen unreadable 2', 'opened')
    s.line('prefix a%03', 'pair a%03 a%03', 'end 1')
    s.line('prefix-back a%03', 'pair a%03 a%03', 'end 1')
    s.line('prefix b', 'refused E4', 'end 0')
    s.line('prefix-back b', 'refused E4', 'end 0')
    s.line('prefix %', *(f'pair a{key(n)} a{key(n)}' for n in range(8)), 'refused E4', 'end 8')
    s.ask('new refuse 1')
    s.line('prefix a', 'refused E8')
    s.line('prefix-back %', 'refused E8')
    s.line('reopen', 'opened')
    for line, why in (
        ('prefix', '`prefix` takes P, one word'),
        ('prefix-back', '`prefix-back` takes P, one word'),
        ('prefix a b', '`prefix` takes P, one word; a space inside a word is spelled %20'),
        ('prefix -', '`-` is no byte string: `!` to `~` but for `%` stand for themselves, any other byte and a `-` alone as % and two lower-case hexadecimal digits'),
        ('prefix [a', None),
    ):
        if why is None:
            s.line(line, 'end 0')
        else:
            s.line(line, f'bad line {len(s.text) + 1}: {why}')
    s.line('prefix %2d', 'end 0')
