"""Files of lines: how the cases write them.

A case writes lines and what each of them must print. The oracle runs each line as it is written; where the case spells out
what is printed, the oracle must print the same, and everything is compared with a plain dictionary beside it: what each call
answers, what each dump has, and that a crash leaves the pairs of some moment since the last flush.
"""
import os
import re
import sys
from oracle import (CROWD, DATABASE, FORMS, GREATEST, HOWS, LOOKS, ON_TREES, OPERATORS, POINT, POPS, ROOM, SCANS, TREE, Shell, Tree, batches_of, collections_of, in_line, is_from, is_up_to,
                    read_line, some_keys, value_of, word)

# What a closed database serves, and the shell by itself, or a line that opens one.
SERVED = ('next', 'unwatch', 'abandon', 'turns', 'recovered', 'why', 'version', 'parts', 'rests', 'handle', 'old-tree', 'new', 'recover', 'crash', 'page', 'root', 'image')
CRATES = os.path.join(os.path.dirname(os.path.abspath(__file__)), '..', 'crates')
CASES = []


def case(function):
    """A function that writes the file of its name; its first words say what the file shows. The shell runs it."""
    CASES.append(('sledsh', function))
    return function


def crowd_case(function):
    """The same for a file that the program `test_crowd` runs."""
    CASES.append(('test_crowd', function))
    return function


def expect(yes, *what):
    """A case is wrong, or the oracle is."""
    if not yes:
        raise SystemExit(' '.join(map(str, what)))


def key(number):
    """The word for a byte string of one byte."""
    return word(bytes([number]))


def pair(k, v=None, tree='__sled__default'):
    """What a dump prints of a pair; a key alone has itself as its value."""
    return f'pair {tree} {k} {k if v is None else v}'


def told(events):
    """What a subscriber is told next, of the events that came to it and that it was not told yet. The last 1024 of them wait; those
    before were missed."""
    missed = max(len(events) - ROOM, 0)
    if missed:
        del events[:missed]
        return f'event missed {missed}'
    return events.pop(0) if events else 'event -'


class Map:
    """A tree as a dictionary, as long as it is there."""

    def __init__(self, is_there=True):
        self.pairs, self.operator, self.is_there, self.queues = {}, None, is_there, []

    def tell(self, key, value):
        """A change is seen by each subscriber to a beginning of its key."""
        for prefix, events in self.queues:
            if key[:len(prefix)] == prefix:
                events.append(f'event remove {word(key)}' if value is None else f'event insert {word(key)} {word(value)}')

    def set(self, key, value):
        self.pairs.pop(key, None)
        if value is not None:
            self.pairs[key] = value


class Scan:
    """A scan in flight, and what it has to give: what it gives was there at some moment since it began, and when it ends it gave what was
    there at each of its steps before."""

    def __init__(self, map, is_back, lo, hi):
        self.map, self.is_back, self.bounds, self.given = map, is_back, (lo, hi), []
        self.seen, self.steady = set(), None

    def passes(self):
        """The pairs are seen as they are now."""
        self.seen.update(self.map.pairs.items())

    def within(self, keys):
        lo, hi = self.bounds
        return {key for key in keys if is_from(lo, key) and is_up_to(hi, key)}

    def steps(self, printed):
        """A step of its own prints this."""
        if printed == 'end':
            steady = self.within(self.map.pairs) if self.steady is None else self.steady
            expect(steady <= {key for key, _ in self.given}, 'what was there all the time', steady, self.given)
            return
        now = self.within(self.map.pairs)
        self.steady = now if self.steady is None else self.steady & now
        if printed != 'moved':
            pair = tuple(value_of(text) for text in printed.removeprefix('pair ').split(' '))
            keys = [key for key, _ in self.given] + [pair[0]]
            expect(keys == sorted(set(keys), reverse=self.is_back), 'in order', keys)
            expect(self.within(keys) == set(keys) and pair in self.seen, 'within the bounds, and there at some moment', pair)
            self.given.append(pair)


class Plain:
    """The trees as dictionaries, the calls in flight, and what was changed since the last flush."""

    def __init__(self, maps=None, is_foreign=False):
        self.maps, self.changes, self.is_foreign = {name: Map() for name in maps or {TREE: {}}}, [], is_foreign
        for name, pairs in (maps or {}).items():
            self.maps[name].pairs = pairs
        self.opened()

    def opened(self):
        """Slots, operators, and all names but the default one are gone."""
        self.calls, self.scans, self.is_closed, self.named = {}, {}, False, {}
        self.take(TREE)
        self.named[TREE] = self.current, self.current
        for map in self.maps.values():
            map.operator, map.queues = None, []
        self.queues = []

    def take(self, name):
        """Makes the tree of this name current."""
        self.current, self.current_name = self.maps[name], name

    def crashed(self, printed):
        """A crash left these trees, of which the one that was current is so again where its name is there."""
        name = self.current_name
        self.opened()
        expect(printed == ('recovered' if name in self.maps else f'recovered, tree {word(TREE)}'), printed, name)
        if name in self.maps:
            self.take(name)
            self.named[name] = self.current, self.current

    @property
    def pairs(self):
        return self.current.pairs

    def set(self, map, key, value):
        """A change of a pair."""
        self.changes.append(('set', map, key, map.pairs.get(key)))
        map.set(key, value)

    def open(self, name):
        """A tree is opened, and is a new one where there is none of its name."""
        if name not in self.maps:
            self.maps[name] = Map()
            self.changes.append(('open', name))
        return self.maps[name]

    def drop(self, name):
        """A tree goes: whether there was one."""
        if name not in self.maps:
            return False
        self.changes.append(('drop', name, self.maps[name]))
        self.maps.pop(name).is_there = False
        return True

    def undo(self):
        """As before the last change."""
        what, *words = self.changes.pop()
        if what == 'set':
            words[0].set(*words[1:])
        elif what == 'open':
            del self.maps[words[0]]
        elif what == 'group':
            for map, key, value in words[0][::-1]:
                map.set(key, value)
        else:
            self.maps[words[0]] = words[1]
            words[1].is_there = True

    def write(self, batches):
        """A group is one change: its writes are made, one after the other, and then those that changed something are told."""
        changes, told = [], []
        for name, pairs in batches:
            map = self.current if name is None else self.named[name][1]
            for key, value in pairs:
                if map.pairs.get(key) != value:
                    changes.append((map, key, map.pairs.get(key)))
                    map.set(key, value)
                    told.append((map, key, value))
        if changes:
            self.changes.append(('group', changes))
        for map, key, value in told:
            map.tell(key, value)

    def groups(self, batches, printed, shell):
        """A line that makes a group printed this. One that was refused changed nothing, or closed the database."""
        if printed == 'refused E8':
            return
        are_there = all((self.current if name is None else self.named[name][1]).is_there for name, _ in batches)
        expect(are_there != (printed in ('refused E1', 'refused E2')), 'whether the trees are there', printed)
        self.is_closed = shell.closed
        if printed == 'done':
            self.write(batches)
        expect(self.is_closed or self.has(shell.contents()), batches, printed)

    def answer(self, call, map):
        """What a call answers that is decided now."""
        name, key, *values = call
        old = map.pairs.get(key)
        if name == 'get':
            return f'value {word(old)}'
        if name == 'cas' and old != values[0]:
            return f'conflict {word(old)} {word(values[1])}'
        new = OPERATORS[map.operator](old, values[0]) if name == 'merge' else None if name == 'remove' else values[-1]
        if new != old:
            self.set(map, key, new)
        if new != old or name in ('cas', 'merge'):
            map.tell(key, new)
        return 'swapped' if name == 'cas' else f'value {word(new)}' if name == 'merge' else f'old {word(old)}'

    def look(self, name, *words):
        """What a read prints that takes no slot."""
        pairs = sorted(self.pairs.items())
        what, _, way = name.partition('-')
        if what in ('range', 'prefix', 'keys', 'values'):
            if what == 'prefix':
                pairs = [p for p in pairs if p[0].startswith(words[0])]
            else:
                lo, hi = words
                pairs = [p for p in pairs if is_from(lo, p[0]) and is_up_to(hi, p[0])]
            if way == 'back':
                pairs = pairs[::-1]
            if way == 'ends':
                pairs = [pairs[i // 2 if i % 2 == 0 else -1 - i // 2] for i in range(len(pairs))]
            called, parts = {'keys': ('key', slice(1)), 'values': ('value', slice(1, 2))}.get(what, ('pair', slice(2)))
            return [' '.join([called] + [word(part) for part in p[parts]]) for p in pairs] + [f'end {len(pairs)}']
        if name == 'len':
            return [f'number {len(pairs)}']
        if name == 'empty':
            return ['no' if pairs else 'yes']
        if name in ('has', 'read'):
            value = self.pairs.get(words[0])
            return [f'value {word(value)}'] if name == 'read' else ['no' if value is None else 'yes']
        if name in ('lt', 'gt'):
            pairs = [p for p in pairs if (p[0] < words[0] if name == 'lt' else p[0] > words[0])]
        if not pairs:
            return ['pair -']
        found = pairs[-1 if name in ('lt', 'last') else 0]
        return [f'pair {word(found[0])} {word(found[1])}']

    def pop(self, key):
        """The key is taken out, if it is one, and what is printed of its pair."""
        if key is None:
            return 'pair -'
        old = self.pairs[key]
        self.set(self.current, key, None)
        self.current.tell(key, None)
        return f'pair {word(key)} {word(old)}'

    def pops(self, name, printed, maps):
        """A call that takes pairs out printed this, and left these trees. A clear that was refused may have begun."""
        keys = sorted(self.pairs)
        if name == 'clear':
            pairs = next(maps[name] for name, map in self.maps.items() if map is self.current)
            for key in keys[:len(keys) - len(pairs)]:
                self.pop(key)
            expect(self.pairs == pairs and (printed != 'done' or not pairs), name, printed, pairs)
        elif not printed.startswith('refused'):
            at = -1 if name == 'pop-max' else 0
            expect(printed == self.pop(keys[at] if keys else None), name, printed)

    def fills(self, count, printed, maps):
        """A line that inserts so many pairs printed this, and left these trees. One that was refused may have begun."""
        for number in range(1, count + 1):
            if printed == 'refused E4' and self.has(maps):
                return
            self.answer(('insert', b'k%06d' % number, b'%d' % number), self.current)
        expect(printed == f'filled {count}', count, printed)

    def imports(self, collections, printed, maps):
        """A line that imports printed this, and left these trees. One that was refused may have begun."""
        is_done = printed == 'done'
        tests = all(kind == b'tree' for kind, _, _ in collections)
        for _, name, pairs in collections if tests else []:
            for key, value in [(None, None)] + pairs:
                if not is_done and self.has(maps):
                    return
                map = self.open(name)
                expect(key not in map.pairs, 'imported over', key)
                if key is not None:
                    self.set(map, key, value)
                    map.tell(key, value)
        expect(is_done == tests and self.has(maps), printed, collections)

    def has(self, maps):
        """Whether these are the trees and their pairs."""
        return {name: map.pairs for name, map in self.maps.items()} == maps

    def is_left(self, maps, keep):
        """A crash left these trees, and kept so many actions: they are those of a moment since the last flush."""
        while not self.has(maps) or len(self.changes) > keep:
            expect(self.changes, 'no moment had these trees')
            self.undo()
        self.changes = []

    def meets(self, words, printed, shell):
        """Compares what a line printed with what it must."""
        self.compares(words, printed, shell)
        for scan in self.scans.values():
            scan.passes()

    def compares(self, words, printed, shell):
        name, last = words[0], next((line for line in printed if line.startswith('refused') and words[0] != 'run'), printed[-1] if printed else '')
        if self.is_closed and words[name == 'owned'] not in SERVED:
            wanted = ('refused E5',) if name in ('reopen', 'verify') else ('refused E8', 'no slot', 'no subscriber')
            expect(last in wanted, 'the database is closed', words, printed)
            return
        if name.startswith('each-'):
            return
        if name == 'image' or self.is_foreign:
            return self.found(name, last, shell)
        if name == 'owned':
            self.calls, self.scans = {}, {}
            return self.meets(in_line(words[1:]), printed, shell)
        if name == 'stats':
            maps = [tree.pairs for tree in self.maps.values()]
            pairs = [pair for pairs in maps for pair in pairs.items()]
            sizes = len(pairs), sum(len(k) for k, _ in pairs), sum(len(v) for _, v in pairs)
            form = re.fullmatch(r'stats trees (\d+) pages (\d+) levels (\d+) pairs (\d+) key-bytes (\d+) value-bytes (\d+)', last)
            expect(last.startswith('refused') or form and [int(form[at]) for at in (1, 4, 5, 6)] == [len(maps), *sizes], last, maps)
            return
        if name == 'remove-range':
            self.calls, self.scans = {}, {}
            if not last.startswith('refused'):
                keys = [key for key in sorted(self.pairs) if is_from(words[1], key) and is_up_to(words[2], key)]
                expect(last == f'number {len(keys)}', words, last)
                self.write([(None, [(key, None) for key in keys])])
            self.is_closed = shell.closed
            return
        if name in ('batch', 'group'):
            return self.groups(batches_of(*words), last, shell)
        if name.partition('-')[0] in POINT + LOOKS + ON_TREES or name in POPS:
            if last != 'refused E8':
                expect(self.current.is_there or last in ('refused E1', 'refused E2'), 'the tree is not there', words, last)
                expect(not self.current.is_there or last != 'refused E1', 'the tree is there', words, last)
        if name in ('step', 'finish') and words[1] in self.calls and last != 'no slot':
            expect(self.calls[words[1]][1].is_there == (last != 'refused E1'), words, last)
        if name in POPS:
            if last not in ('refused E1', 'refused E2', 'refused E8'):
                self.pops(name, last, shell.contents())
            return
        if name.startswith('import'):
            if last != 'refused E8':
                self.imports(collections_of(*words), last, shell.contents())
            return
        if name == 'fill' and last not in ('refused E1', 'refused E2', 'refused E8'):
            return self.fills(words[1], last, shell.contents())
        if last.startswith('refused'):
            if name in ('new', 'reopen', 'recover', 'crash'):
                self.current_name = TREE
            return
        if name == 'watch':
            self.queues.append([])
            self.current.queues.append((words[1], self.queues[-1]))
            expect(last == f'subscriber {len(self.queues)}', words, last)
        elif name in ('next', 'unwatch'):
            events = self.queues[words[1] - 1] if 1 <= words[1] <= len(self.queues) else None
            wanted = 'no subscriber' if events is None else 'done' if name == 'unwatch' else told(events)
            expect(last == wanted, words, last, wanted)
            if last == 'done':
                events.clear()
                for map in self.maps.values():
                    map.queues = [queue for queue in map.queues if queue[1] is not events]
        elif name in ('update', 'fetch'):
            key, how = words[1:]
            old = self.pairs.get(key)
            new = HOWS[how[0]](old, *how[1:])
            expect(self.answer(('cas', key, old, new), self.current) == 'swapped' and last == f'value {word(new if name == "update" else old)}', words, last)
        elif name == 'operator':
            self.current.operator = words[1]
        elif name == 'handle':
            named = words[2] if words[1] == DATABASE and words[3] == shell.trees.get(words[2], Tree(None, None)).number else None
            self.current, self.current_name = self.maps.get(named) or Map(False), words[2]
        elif name == 'tree':
            _, before = self.named.get(words[1], (None, None))
            self.open(words[1])
            self.take(words[1])
            self.named[words[1]] = before, self.current
        elif name == 'old-tree':
            self.current, self.current_name = self.named[words[1]][0], words[1]
        elif name == 'drop':
            expect(last == ('yes' if self.drop(words[1]) else 'no'), words, last)
        elif name == 'names':
            wanted = [f'name {word(name)}' for name in sorted(self.maps)]
            expect(printed == wanted + [f'end {len(wanted)}'], 'names', printed)
        elif name in POINT:
            expect(last == self.answer(words, self.current), words, last)
        elif name.partition('-')[0] in LOOKS:
            expect(printed == self.look(*words), words, printed)
        elif name == 'begin':
            self.calls[int(last[5:])] = words[1:], self.current
            if words[1] in SCANS:
                self.scans[int(last[5:])] = Scan(self.current, words[1] == 'scan-back', *words[2:])
        elif name in ('step', 'finish') and words[1] in self.scans and last != 'no slot':
            self.scans[words[1]].steps(last)
        elif name in ('step', 'finish') and last not in ('moved', 'no slot'):
            expect(last == self.answer(*self.calls[words[1]]), words, last)
        elif name == 'dump' and words[1:]:
            wanted = [line for name in sorted(self.maps) for line in
                      [f'tree {word(name)}'] + [f'insert {word(k)} {word(v)}' for k, v in sorted(self.maps[name].pairs.items())]]
            expect(printed == wanted, words, printed)
        elif name == 'dump':
            wanted = [pair(word(k), word(v), word(name)) for name in sorted(self.maps) for k, v in sorted(self.maps[name].pairs.items())]
            expect(printed == wanted + [f'end {len(wanted)}'], 'dump', printed)
        elif name == 'flush':
            expect(int(last[8:]) >= len(self.changes), words, last)
            self.changes = []
        elif name in ('crash', 'recover'):
            self.is_left(shell.contents(), words[1] if name == 'crash' else GREATEST)
            self.opened() if name == 'recover' or shell.forms is CROWD else self.crashed(last)
        elif name == 'run':
            for step, line in zip(words[1], printed):
                if step[0] == 'batch':
                    # the trees are those behind the whole list
                    expect(line == 'done', step, line)
                    self.write(batches_of(*step))
                    continue
                # of a list of steps each value is told as one
                old = line.startswith('value') and step[0] == 'step' and self.calls[step[1]][0][0] in ('insert', 'remove')
                self.meets(step, [line.replace('value', 'old') if old else line], shell)
            expect(self.has(shell.contents()), words, printed)
        elif name == 'load':
            for key in some_keys(words[1]):
                self.answer(('insert', key, key), self.current)
        elif name == 'reopen':
            self.changes = []
            self.opened()

    def found(self, name, printed, shell):
        """An image was opened, whose pairs the case says; or it is refused, and there is no database."""
        expect(printed.split()[0] in ('opened', 'recovered', 'sound', 'corrupt', 'refused', 'noted', 'no', 'why', 'rests'), name, printed)
        maps = shell.contents() if shell.opened else {TREE: {}}
        self.__init__(maps, not shell.opened)


class Script:
    """One file of lines."""

    def __init__(self, name, sentence, program='sledsh'):
        self.name, self.program, self.plain = name, program, Plain()
        self.shell = Shell(CROWD if program == 'test_crowd' else FORMS)
        self.shell.heard = self.compare
        self.text, self.wanted = [], []
        self.reached = dict(self.shell.store.notes)
        self.note(sentence)

    @property
    def store(self):
        return self.shell.store

    def note(self, sentence):
        """A comment in the file."""
        for line in sentence.strip().split('\n'):
            self.ask('# ' + line.strip())

    def ask(self, line):
        """A line that prints what the oracle says."""
        printed = self.shell.run(line)
        self.text.append(line)
        self.wanted += printed
        if self.program == 'test_crowd' or not line.startswith('run '):
            self.compare(line, printed)
        return printed

    def compare(self, line, printed):
        """Compares what a line printed with the dictionary beside it."""
        if line and line[0] != '#' and not (printed and printed[0].startswith('bad line')):
            words = read_line(line, self.shell.forms)
            if words[0] == 'new':
                self.plain = Plain()
            self.plain.meets(words, printed, self.shell)

    def line(self, line, *wanted):
        """A line that prints these lines."""
        printed = self.ask(line)
        expect(printed == list(wanted), f'{self.name}: {line}\n  the oracle:', printed, '\n  the case:', list(wanted))

    def rows(self, text):
        """Lines and what they print: between them two spaces or more; what follows spaces alone is printed by the line
        above."""
        rows = []
        for row in text.strip('\n').rstrip().split('\n'):
            line, *printed = re.split('  +', row.strip())
            if rows and re.match(' {20}', row):
                rows[-1][1].append(line)
            else:
                rows.append((line, printed))
        for line, printed in rows:
            self.line(line, *printed)

    def bad(self, line, why):
        """A line that cannot be read."""
        self.line(line, f'bad line {self.shell.line + 1}: {why}')

    def same(self, line, other):
        """A line prints what another one does."""
        printed = self.ask(other)
        self.line(line, *printed)

    def new(self, *refused):
        """An empty store."""
        self.line('new' + (' refuse ' + ' '.join(map(str, refused)) if refused else ''), 'opened')

    def moves(self, slot, count=1):
        for _ in range(count):
            self.line(f'step {slot}', 'moved')

    def did(self, actions):
        """So many actions were done since the last flush."""
        self.line('flush', f'flushed {actions}')

    def goes_on(self, slot, *actions):
        """The call goes on in each of these steps, and does so many actions in each."""
        for count in actions:
            self.moves(slot)
            self.did(count)

    def to_end(self, slot, answer):
        """The call takes its steps to the last one, which answers this. All is flushed after each, to see what it did."""
        self.ask('flush')
        while self.ask(f'step {slot}') == ['moved']:
            self.ask('flush')
        expect(self.wanted[-1] == answer, self.name, slot, self.wanted[-1], answer)
        self.ask('flush')

    def insert(self, *keys):
        """New keys, each with itself as its value."""
        for k in keys:
            self.line(f'insert {k} {k}', 'old -')

    def remove(self, *keys):
        """Keys that have themselves as their values."""
        for k in keys:
            self.line(f'remove {k}', f'old {k}')

    def begin(self, slot, call):
        self.line(f'begin {call}', f'slot {slot}')

    def holds(self, *keys):
        """These keys are there, each with itself as its value."""
        self.line('dump', *(pair(k) for k in keys), f'end {len(keys)}')

    def pages(self, *levels):
        """So many pages, and the most entries of one, on each level from the root down."""
        self.line('pages', *(f'level {count} {most}' for count, most in levels), f'end {len(levels)}')

    def reaches(self, *names):
        """Since the last time it was asked each of these seldom things has happened."""
        now = self.store.notes
        for name in names:
            expect(now[name] > self.reached.get(name, 0), f'{self.name}: not reached: {name}; but', self.news())
        self.reached = dict(now)

    def news(self):
        return {n: c for n, c in self.store.notes.items() if c > self.reached.get(n, 0)}

    def write(self):
        folder = data_of(self.program)
        with open(os.path.join(folder, self.name + '.lines'), 'wb') as file:
            file.write(('\n'.join(self.text) + self.end).encode('latin-1'))
        with open(os.path.join(folder, self.name + '.expected'), 'wb') as file:
            file.write(''.join(line + '\n' for line in self.wanted).encode('latin-1'))

    end = '\n'


def data_of(program):
    """The folder of a program's files of lines."""
    return os.path.join(CRATES, program, 'data')


def write_names(program):
    """Writes the words and the output of the check of all files of a program."""
    folder = data_of(program)
    names = sorted(name[:-6] for name in os.listdir(folder) if name.endswith('.lines'))
    with open(os.path.join(folder, '..', 'args'), 'w') as file:
        file.write(''.join(w + '\n' for w in ['check'] + names))
    with open(os.path.join(folder, '..', 'stdout'), 'w') as file:
        for name in names:
            count = open(os.path.join(folder, name + '.expected'), 'rb').read().count(b'\n')
            file.write(f'{name}: {count} lines as expected\n')


def write_all(only=()):
    """Writes the files of all cases, and the words and the output of the checks of all of them."""
    for program, function in CASES:
        if only and function.__name__ not in only:
            continue
        os.makedirs(data_of(program), exist_ok=True)
        script = Script(function.__name__, ' '.join(function.__doc__.split()), program)
        function(script)
        script.write()
        seldom = ', '.join(sorted(n for n, c in script.store.notes.items() if c))
        print(f'{script.name}: {len(script.text)} lines; {seldom}', file=sys.stderr)
    for program in 'sledsh', 'test_crowd':
        write_names(program)
