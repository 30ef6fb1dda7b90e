#!/usr/bin/env python3
"""What lines for the shell should print: a model of it that shares nothing with the program.

It is written from the rules alone: what a store of pages keeps and what a crash leaves of it, how a page splits and merges,
which one page action each step of a call in flight does, what a line says and how an answer is spelled. The expected lines
in crates/sledsh/data come from here or are spelled out in cases.py, and where they are spelled out they must be the same.

    oracle.py FILE ..       prints what the lines of these files should print
    oracle.py               .. the lines of the standard input

A store is a picture of the pages at the last flush and the list of actions since; a page never changes, an action puts
another in its place. A call in flight is a generator: it yields after each step that goes on, and returns its answer. What
is seldom reached is noted by name in `Store.notes`, so that cases can say what they reach.
"""
import copy
import os
import re
import sys
import images
from collections import Counter, deque, namedtuple
from dataclasses import dataclass, replace

DATABASE = b'sledsh'
TREE = b'__sled__default'
GREATEST = 2**64 - 1
# So many events wait for a subscriber at the most.
ROOM = 1024


class Refused(Exception):
    """A call that is refused, by its number, the text of E2, and the fault of E4."""


ANOTHER = 'handle of another database'
NO_OPERATOR = 'must set a merge operator on this Tree before calling merge by calling Tree::set_merge_operator'
DEFAULT_TREE = 'cannot remove the core structures'
PRESENT = 'import is overwriting existing data'
UNKNOWN_TYPE = 'unknown collection type'
IDS = 'ids used up'
TEXTS = {1: 'collection not found', 2: 'unsupported: ', 4: 'io fault ', 5: 'corruption ', 6: 'no memory', 8: 'closed'}


class BadLine(Exception):
    """A line that cannot be read, and why. A byte that a terminal does not show is spelled."""

    def __init__(self, why):
        super().__init__(re.sub('[^ -~]', lambda byte: f'%{ord(byte[0]):02x}', why))


# Words.

def word(value):
    """A byte string, or none, as it is printed."""
    if value is None:
        return '-'
    if value in (b'', b'-'):
        return '%2d' if value else '%'
    return ''.join(chr(b) if 33 <= b <= 126 and b != 37 else f'%{b:02x}' for b in value)


def value_of(text):
    """The byte string that a word spells."""
    if text == '%':
        return b''
    if text == '-' or not re.fullmatch('(?:[!-$&-~]|%[0-9a-f]{2})+', text):
        raise BadLine(f'`{text}` is no byte string: `!` to `~` but for `%` stand for themselves, any other byte and a `-` alone as % and two lower-case hexadecimal digits')
    return bytes(int(p[1:], 16) if len(p) > 1 else ord(p) for p in re.findall('%..|.', text))


def optional(text):
    """The byte string that a word spells, or none."""
    return None if text == '-' else value_of(text)


def bound_of(text):
    """The bound that a word spells: whether the key itself is within it, and the key; or none."""
    if text == '..':
        return None
    try:
        if text[:1] in ('[', '('):
            return text[0] == '[', value_of(text[1:])
    except BadLine:
        pass
    else:
        try:
            value_of(text)
        except BadLine:
            pass
        else:
            raise BadLine(f'`{text}` is no bound: write [{text}')
    raise BadLine(f'`{text}` is no bound: [ or ( and a byte string, or ..')


def number_of(text):
    """The number that a word spells."""
    if not re.fullmatch('0|[1-9][0-9]*', text) or int(text) > GREATEST:
        raise BadLine(f'`{text}` is no number: decimal digits without leading zeros')
    return int(text)


# Pages.

@dataclass(frozen=True)
class Node:
    lo: bytes = b''
    hi: bytes = b''                 # empty: no bound
    next: int | None = None
    merging: bool = False
    child: int | None = None        # the merging child
    leaf: bool = True
    entries: tuple = ()             # of a leaf keys and values, of an index keys and page numbers; ascending

    def ends_within(self, target):
        return self.hi != b'' and is_up_to(target, self.hi)

    def should_split(self):
        return len(self.entries) > 16 and not self.merging and self.child is None

    def should_merge(self):
        return len(self.entries) <= 3 and not self.merging and self.child is None

    def can_merge_child(self):
        return not self.leaf and not self.merging and self.child is None

    def get(self, key):
        return next((v for k, v in self.entries if k == key), None)

    def put(self, key, value):
        """With this entry, or without one at this key."""
        below = tuple(e for e in self.entries if e[0] < key)
        above = tuple(e for e in self.entries if e[0] > key)
        return replace(self, entries=below + (() if value is None else ((key, value),)) + above)

    def pointer(self, target):
        """The last page that begins within an upper bound, and whether it is the first of all."""
        at = max(i for i, e in enumerate(self.entries) if is_up_to(target, e[0]))
        return self.entries[at][1], at == 0

    def before(self, pid):
        """The page of the pointer before the one to this page."""
        pids = [p for _, p in self.entries]
        return pids[pids.index(pid) - 1] if pid in pids[1:] else None

    def split(self):
        half = len(self.entries) // 2
        right = replace(self, lo=self.entries[half][0], entries=self.entries[half:])
        return replace(self, hi=right.lo, entries=self.entries[:half]), right

    def receive(self, child):
        return replace(self, hi=child.hi, next=child.next, entries=self.entries + child.entries)

    def confirm(self):
        return replace(self, child=None, entries=tuple(e for e in self.entries if e[1] != self.child))


# A page, and as what it is kept: how many entries its base has, and how many links are kept over it.
View = namedtuple('View', 'pid version node base links')
# So many links are kept over a base at the most.
LINKS = 8


def view_of(pid, version, node, before=None):
    """A page that a link made of the one before, or that has no links."""
    if before is not None and before.links < LINKS:
        return View(pid, version, node, before.base, before.links + 1)
    return View(pid, version, node, len(node.entries), 0)


class Store:
    """Pages in memory: the state at the last flush, and the changing actions since."""

    def __init__(self):
        self.pages, self.roots, self.group = {}, {}, {}     # now; in a group `group` has an entry
        self.base, self.recent = ({}, {}, {}), []           # at the last flush; the actions since: (what, where, new)
        self.pids = self.versions = self.mark = 0
        self.recovered = False
        self.seen = None                                    # the page that was read or changed last
        self.notes = Counter()
        self.forget()

    def forget(self):
        """No call was made yet and none is to be refused."""
        self.calls, self.refused, self.unreadable = 0, frozenset(), set()
        self.reads = 0

    def made(self):
        """A numbered call is made, which may be one to be refused."""
        self.calls += 1
        if self.calls in self.refused:
            raise Refused(4, '1')

    def do(self, what, where, new):
        """Does a changing action."""
        self.recent.append((what, where, new))
        self.apply((self.pages, self.roots, self.group), self.recent[-1])
        self.seen = (new and where, new, None)[what]

    @staticmethod
    def apply(state, action):
        what, where, new = action
        if new is None:
            del state[what][where]
        else:
            state[what][where] = new

    def read(self, pid):
        self.reads += 1
        self.seen = pid
        if pid in self.unreadable:
            raise Refused(4, '2')
        return self.pages.get(pid)

    def allocate(self, node):
        self.made()
        self.pids += 1
        self.versions += 1
        self.do(0, self.pids, view_of(self.pids, self.versions, node))
        return self.pages[self.pids]

    def link(self, view, node):
        """Changes a page by a link, which makes this node of it, as `change` does."""
        return self.change(view, node, True)

    def change(self, view, node, is_link=False):
        """Puts the node in the place of a page that is still as it was seen (none: frees it): whether it was so, and the
        page now."""
        self.made()
        now = self.pages.get(view.pid)
        if now is None or now.version != view.version:
            return False, now
        self.versions += 1
        self.do(0, view.pid, node and view_of(view.pid, self.versions, node, now if is_link else None))
        return True, self.pages.get(view.pid)

    def swap_root(self, name, old, new):
        """Gives a name another root (none: takes the name out), where it still has this one: whether it was so."""
        self.made()
        if self.roots.get(name) != old:
            return False
        self.do(1, name, new)
        return True

    def begin_group(self):
        self.made()
        self.do(2, 'open', True)

    def seal_group(self):
        self.made()
        self.do(2, 'open', None)

    def flush(self):
        self.made()
        for action in self.recent:
            self.apply(self.base, action)
        count, self.recent = len(self.recent), []
        return count

    def set_aside(self, upto):
        self.made()
        self.mark = upto

    def crash(self, keep):
        """Goes back to what a crash leaves that keeps so many of the actions since the last flush, but of a group all or none."""
        kept = self.recent[:keep]
        bounds = [at for at, (what, _, _) in enumerate(kept) if what == 2]
        if len(bounds) % 2:
            self.notes['a crash within a group'] += len(kept) > bounds[-1] + 1
            kept = kept[:bounds[-1]]
        for action in kept:
            self.apply(self.base, action)
        self.recent = []
        self.pages, self.roots, self.group = map(dict, self.base)
        self.recovered = True
        self.forget()


# Merge operators: the new value, of the one that stands and the bytes of the merge.

def short(old, new):
    raise Refused(6)


def added(old, new):
    numbers = [int.from_bytes(b, 'big') if b is not None and len(b) == 8 else 0 for b in (old, new)]
    return (sum(numbers) & GREATEST).to_bytes(8, 'big')


OPERATORS = {
    'concat': lambda old, new: (old or b'') + new,
    'add': added,
    'max': lambda old, new: new if old is None else max(old, new),
    'before': lambda old, new: new + (old or b''),
    'keep': lambda old, new: new if old is None else old,
    'gone': lambda old, new: None,
    'short': short,
}


def operator_of(text):
    if text not in OPERATORS:
        raise BadLine(f'`{text}` is no operator: concat, add, max, before, keep, gone and short are')
    return text


# Trees.

class Tree:
    """A tree from its making, or from the opening, to its dropping. Its number is given once."""

    def __init__(self, name, number):
        self.name, self.number, self.operator, self.queues = name, number, None, []

    def tell(self, key, value):
        """A decided change comes to each subscriber that sees its key."""
        for queue in self.queues:
            if key.startswith(queue.prefix):
                queue.come(key, value)


class InGroup:
    """A tree as a write of a group finds it. What changes is told once the group is sealed."""

    def __init__(self, tree, told):
        self.name, self.tree, self.told = tree.name, tree, told

    def tell(self, key, value):
        self.told.append((self.tree, key, value))


class Queue:
    """What waits for a subscriber to the keys that begin with a prefix: changed keys and their new values, or none; and how many it
    missed since it was told that."""

    def __init__(self, prefix):
        self.prefix, self.missed, self.events = prefix, 0, deque()

    def come(self, key, value):
        """A change goes last. Where no more may wait the oldest goes out, and is counted."""
        if len(self.events) == ROOM:
            self.events.popleft()
            self.missed = min(self.missed + 1, GREATEST)
        self.events.append((key, value))

    def next(self):
        """What the subscriber is told next, which waits no longer."""
        if self.missed:
            missed, self.missed = self.missed, 0
            return f'event missed {missed}'
        if not self.events:
            return 'event -'
        key, value = self.events.popleft()
        return f'event remove {word(key)}' if value is None else f'event insert {word(key)} {word(value)}'


def make_tree(store, name):
    """An empty tree of this name: a leaf without pairs, then its root."""
    store.swap_root(name, None, store.allocate(Node()).pid)


def drop_tree(store, name):
    """Takes the tree of this name out: the first page of each level is noted, the root goes, and then the pages, leaves first, each
    level along `next`. What is refused from then on ends a level, and is not told."""
    firsts, pid = [], store.roots[name]
    while pid is not None:
        firsts.append(pid)
        node = store.read(pid).node
        pid = None if node.leaf else node.entries[0][1]
    store.swap_root(name, store.roots[name], None)
    for pid in firsts[::-1]:
        try:
            while pid is not None:
                view = store.read(pid)
                store.change(view, None)
                pid = view.node.next
        except Refused:
            store.notes['a level of a dropped tree is not freed to its end'] += 1


# Closures of the calls that read and write: the new value, of the one that stands and what the line says.

def counted(old):
    number = -1 if old is None else int.from_bytes(old, 'big') if len(old) == 8 else 0
    return (number + 1 & GREATEST).to_bytes(8, 'big')


HOWS = {
    'count': counted,
    'append': lambda old, value: (old or b'') + value,
    'set': lambda old, value: value,
    'delete': lambda old: None,
    'short': lambda old: short(old, None),
}


def how_of(words):
    """How a value is changed, with what; none where that takes another number of words."""
    if words[0] not in HOWS:
        raise BadLine(f'`{words[0]}` does not change a value: count, append V, set V, delete and short do')
    return [words[0]] + [value_of(word) for word in words[1:]]


# Calls in flight.

def decide(call, old):
    """Whether a call changes anything where this value stands, the value that it leaves, and the line of its answer."""
    name, _, *values = call
    if name == 'get':
        return False, old, f'value {word(old)}'
    if name == 'insert':
        return old != values[0], values[0], f'old {word(old)}'
    if name == 'remove':
        return old is not None, None, f'old {word(old)}'
    if name == 'merge':
        return True, None, None
    if old != values[0]:
        return False, old, f'conflict {word(old)} {word(values[1])}'
    return True, values[1], 'swapped'


def fly(store, tree, call):
    """One call in flight. A scan yields the pairs that it gives."""
    if call[0] in SCANS:
        return (yield from scan(store, tree, call[0] == 'scan-back', *call[1:]))
    while True:
        view = yield from walk(store, tree, (True, call[1]))
        answer = view and (yield from act(store, tree, call, view))
        if answer is not None:
            return answer


def is_reversed(lo, hi):
    """Whether bounds give nothing whatever the keys: where they meet, one of both is without its key, or they pass each other."""
    if hi is None or lo is None:
        return lo is None and hi == (False, b'')
    return lo[1] > hi[1] or lo[1] == hi[1] and not (lo[0] and hi[0])


def scan(store, tree, back, lo, hi):
    """A scan reads a leaf and gives the pairs of it that are within the bounds, each in a step of its own. Then it goes from the root to
    where that leaf ended, or from the back to below where it began. Bounds that give nothing end it before it reads the root."""
    target = hi if back else (True, lo[1] if lo else b'')
    while not is_reversed(lo, hi):
        view = yield from walk(store, tree, target)
        if view is None:
            continue
        yield
        pairs = [e for e in view.node.entries if is_from(lo, e[0]) and is_up_to(hi, e[0])]
        yield from pairs[::-1] if back else pairs
        edge = view.node.lo if back else view.node.hi
        if edge == b'':
            break
        if back:
            target = hi = False, edge
        else:
            target = lo = True, edge
        store.notes['a scan goes on at another leaf'] += not is_reversed(lo, hi)
    return 'end'


def walk(store, tree, target):
    """From the root to the leaf of the keys just within an upper bound; none where the call starts over."""
    pid, parent, first, unsplit = store.roots[tree.name], None, True, 0
    while True:
        view = store.read(pid)
        if view is None or view.node.merging:
            store.notes['walk meets ' + ('a merging page' if view else 'no page')] += 1
            yield
            return
        node = view.node
        assert is_up_to(target, node.lo), 'no walk comes to a page above its key'
        if node.child is not None:
            yield
            yield from merge(store, view, node.child)
            return
        if node.should_split():
            store.notes['walk passes a long page on the right of which its key lies'] += node.ends_within(target)
            store.notes['long page by next'] += unsplit > 0
            yield
            yield from split(store, view, parent, tree)
            return
        if node.ends_within(target):
            store.notes['next a second time, the unsplit parent kept'] += unsplit == 1
            yield
            if parent is None:
                yield from hoist(store, tree, pid, node.next, node.hi)
                return
            pid, first, unsplit = node.next, True, unsplit + 1
            continue
        if unsplit:
            yield
            yield from post(store, parent, node.lo, pid)
            return
        if node.should_merge() and not first and parent.node.can_merge_child():
            yield
            ok, parent = store.link(parent, replace(parent.node, child=pid))
            store.notes['intention is stale'] += not ok
            yield
            if ok:
                yield from merge(store, parent, pid)
            return
        if node.leaf:
            return view
        yield
        parent = view
        pid, first = node.pointer(target)


def act(store, tree, call, view):
    """What a call does at the leaf of its key; no answer where it starts over."""
    node, key = view.node, call[1]
    changes, value, answer = decide(call, node.get(key))
    if not changes:
        return answer
    yield
    if call[0] == 'merge':
        value = OPERATORS[tree.operator](node.get(key), call[2])
        answer = f'value {word(value)}'
    if store.link(view, node.put(key, value))[0]:
        tree.tell(key, value)
        return answer
    store.notes['change is stale'] += 1
    yield


def try_at_once(store, tree, call):
    """A call on a key is tried at once, where nobody is told: up to a page where something is to be repaired, or which cannot be read.
    The pages up to there are read again by the call in flight; where there is none, the call reads each once."""
    if call[0] in SCANS or call[0] != 'get' and any(call[1].startswith(queue.prefix) for queue in tree.queues):
        return
    target, pid, first, reads = (True, call[1]), store.roots[tree.name], True, 1
    while True:
        view = None if pid in store.unreadable else store.pages.get(pid)
        node = view and view.node
        is_clean = node and not (node.merging or node.child is not None or node.should_split() or node.ends_within(target))
        if not is_clean or node.should_merge() and not first:
            store.reads += reads
            return
        if node.leaf:
            return
        (pid, first), reads = node.pointer(target), reads + 1


def is_settled(node):
    """Whether nothing is to be repaired at a leaf, and it need not merge either."""
    return not node.merging and node.child is None and not node.should_split() and not node.should_merge()


def may_change(node, _, key, value=None):
    """Whether an insert or a removal may change a leaf where it is: its key lies there, and it changes what the leaf has."""
    return is_settled(node) and has_key(node, key) and node.get(key) != value


def ended(steps):
    """What steps give at their end."""
    try:
        while True:
            next(steps)
    except StopIteration as end:
        return end.value


def split(store, view, parent, tree=None):
    """Splits a page; a merge that wants it split names no tree and posts no pointer."""
    left, right = view.node.split()
    new = store.allocate(right)
    yield
    ok, _ = store.change(view, replace(left, next=new.pid))
    store.notes['split' + ('' if tree else ' for a merge') + ('' if ok else ' is stale')] += 1
    yield
    if not ok:
        store.change(new, None)
        yield
    elif tree and parent is None:
        yield from hoist(store, tree, view.pid, new.pid, right.lo)
    elif tree:
        yield from post(store, parent, right.lo, new.pid)


def post(store, parent, at, pid):
    """Puts the pointer to a page into its parent, where there is none."""
    if parent.node.get(at) is None:
        ok, _ = store.change(parent, parent.node.put(at, pid))
        store.notes['post is stale'] += not ok
    yield


def hoist(store, tree, left, right, at):
    """A new root over the old one and the page beside it."""
    new = store.allocate(Node(leaf=False, entries=((b'', left), (at, right))))
    yield
    ok = store.swap_root(tree.name, left, new.pid)
    store.notes['hoist is stale'] += not ok
    yield
    if not ok:
        store.change(new, None)
        yield


def merge(store, parent, child):
    """Goes on with the merge of a child into the page before it, from what the pages show."""
    seen = None
    while seen is None or not seen.node.merging:        # until the child is seen capped
        seen = store.read(child)
        store.notes['merging child is gone'] += seen is None
        store.notes['merging child has one of its own'] += seen is not None and seen.node.child is not None
        yield
        if seen is None:
            return
        if seen.node.child is not None:
            yield from merge(store, seen, seen.node.child)
            return
        if seen.node.merging:
            break
        ok, now = store.link(seen, replace(seen.node, merging=True))
        store.notes['cap ' + ('is stale' if now else 'finds no page')] += not ok
        yield
        if now is None:
            return
        if ok:
            seen = now
    cursor, received = parent.node.before(child), False
    while not received:                                  # until the page before it has what the child holds
        left = store.read(cursor)
        if left is None or left.node.merging:
            store.notes['search meets ' + ('a merging page' if left else 'no page')] += 1
            yield
            return
        node = left.node
        leads, beyond = node.next == child, node.hi == b'' or node.hi >= seen.node.lo
        store.notes['search meets a page with a merging child'] += node.child is not None
        store.notes['search finds the child received'] += node.child is None and beyond and not leads
        store.notes['search passes a long page'] += node.should_split() and not beyond
        yield
        if node.child is not None:
            yield from merge(store, left, node.child)
            return
        if leads and node.should_split():
            yield from split(store, left, None)
            return
        if leads:
            received, now = store.change(left, node.receive(seen.node))
            store.notes['receive ' + ('is stale' if now else 'finds no page')] += not received
            yield
            if now is None:
                return
        elif beyond:
            received = True
        else:
            cursor = node.next
    ok, _ = store.link(parent, parent.node.confirm())
    store.notes['confirmation is stale'] += not ok
    yield
    if ok:
        store.change(seen, None)
        yield


# Reads that repair nothing. A bound is none, or a pair: whether the key itself is within it, and the key.

def is_from(lo, key):
    return lo is None or lo[1] < key or lo == (True, key)


def is_up_to(hi, key):
    return hi is None or key < hi[1] or hi == (True, key)


def above(prefix):
    """The upper bound of the keys that begin with a prefix."""
    left = prefix.rstrip(b'\xff')
    return (False, left[:-1] + bytes([left[-1] + 1])) if left else None


def look(store, tree, target):
    """The leaf in which a key just within an upper bound lies."""
    return look_at(store, tree, target).node


def look_at(store, tree, target):
    """The page of that leaf."""
    *_, leaf = way_to(store, store.roots[tree.name], target)
    return leaf


def way_to(store, pid, target):
    """The pages on the way to that leaf from one on. It goes right, or down by the last pointer within the bound, but to no merging child."""
    while pid is not None:
        view = store.read(pid)
        yield view
        node = view.node
        if node.hi != b'' and is_up_to(target, node.hi):
            pid = node.next
        else:
            pid = None if node.leaf else child_under(node, target)


def child_under(node, target):
    pids = [p for k, p in node.entries if is_up_to(target, k)]
    return pids[-2] if pids[-1] == node.child else pids[-1]


def look_near(store, tree, key, way):
    """The page of the leaf in which a key lies. The way to it begins below the last index of a way that has the key, or else at the root; and
    the indexes on it are the way's then."""
    target, start = (True, key), store.roots[tree.name]
    while way and not has_key(way[-1], key):
        way.pop()
    if way:
        start = child_under(way[-1], target)
    *passed, leaf = way_to(store, start, target)
    way += [view.node for view in passed if not view.node.leaf]
    return leaf


def has_key(node, key):
    return node.lo <= key and (node.hi == b'' or key < node.hi)


class Range:
    """The pairs within two bounds, from both ends. The leaves at which both searches stand are at hand."""

    def __init__(self, store, tree, lo, hi):
        self.store, self.tree, self.lo, self.hi, self.leaf, self.last = store, tree, lo, hi, None, None
        start = (True, b'') if lo is None else lo
        self.ended = hi is not None and (start[1] > hi[1] or start[1] == hi[1] and not (start[0] and hi[0]))

    def search(self):
        """The first pair within the lower bound."""
        if self.leaf is None:
            self.leaf = look(self.store, self.tree, (True, b'' if self.lo is None else self.lo[1]))
        while True:
            found = next((e for e in self.leaf.entries if is_from(self.lo, e[0])), None)
            if found or self.leaf.next is None:
                return found
            self.leaf = self.store.read(self.leaf.next).node

    def search_back(self):
        """The last pair within the upper bound."""
        if self.hi == (False, b''):
            return None
        if self.last is None:
            self.last = look(self.store, self.tree, self.hi)
        while True:
            found = next((e for e in self.last.entries[::-1] if is_up_to(self.hi, e[0])), None)
            if found or self.last.lo == b'':
                return found
            self.last = look(self.store, self.tree, (False, self.last.lo))

    def take(self, back=False):
        """The first or the last pair that is still to come. Nothing comes after none, or after a refusal."""
        if self.ended:
            return None
        self.ended = True
        found = self.search_back() if back else self.search()
        if found is None or not (is_from(self.lo, found[0]) if back else is_up_to(self.hi, found[0])):
            return None
        self.ended = False
        if back:
            self.hi = False, found[0]
        else:
            self.lo = False, found[0]
        return found


# The shell.

FORMS = """insert K V; get K; remove K; cas K OLD NEW; merge K V; begin merge K V; operator OPERATOR; begin insert K V; begin get K; begin remove K; begin cas K OLD NEW; begin scan LO HI; begin scan-back LO HI
step N; finish N; abandon N; turns N; flush; crash N; dump; dump lines; run FILE; fill N; stats; remove-range LO HI; owned remove-range LO HI; new; new refuse N ..; reopen; reopen refuse N ..
reopen unreadable PID ..; reopen mark N; recover; recover refuse N ..; recovered; verify; root NAME PID; image; image mark N; image group; each-refusal FILE; each-crash FILE; pages; draw; draw links; draw dot; parts PID; rests PID; handle DATABASE NAME N; why; version; help; quit; exit
set K V; put K V; del K; scan LO HI; iter; ls; trees
has K; read K; lt K; gt K; first; last; len; empty; range LO HI; range-back LO HI; range-ends LO HI; prefix P; prefix-back P
keys LO HI; keys-back LO HI; values LO HI; values-back LO HI
pop-min; pop-max; clear; batch K NEW ..; group TREE K NEW .. ; ..; owned batch K NEW ..
owned insert K V; owned set K V; owned remove K; owned del K; owned cas K OLD NEW; owned merge K V; owned pop-min
owned pop-max; owned clear; owned flush; owned id; owned drop NAME
names; tree NAME; old-tree NAME; drop NAME; id; import NAME K V ..; import-type TYPE NAME K V ..; import-all TYPE NAME K V .. ; ..
update K HOW; fetch K HOW; owned update K HOW; owned fetch K HOW
watch P; next N; unwatch N; owned watch P; owned next N; owned unwatch N"""
# What the program `test_crowd` knows beside the lines of `sledrun` and reads that take no slot: many calls at once.
CROWD = """run STEP, ..; reads; load N MOST ALL; find N PAGES; overtake N COUNT; pages; turns N; new; drop NAME; why
insert K V; get K; remove K; cas K OLD NEW; begin insert K V; begin get K; begin remove K; begin cas K OLD NEW
step N; finish N; abandon N; batch K NEW ..; flush; crash N; dump; tree NAME
has K; read K; lt K; gt K; first; last; len; empty; names; range LO HI; range-back LO HI; range-ends LO HI; prefix P; prefix-back P
keys LO HI; keys-back LO HI; values LO HI; values-back LO HI"""


def forms_of(text):
    return [form.split(' ') for form in re.split('(?<! ); |\n', text)]


FORMS, CROWD = forms_of(FORMS), forms_of(CROWD)
# The first words of the lines of the shell, in the order in which its help lists them.
HEADS = """insert get remove cas merge update fetch operator begin step finish abandon turns has read lt gt first last len empty range range-back
range-ends prefix prefix-back keys keys-back values values-back pop-min pop-max clear remove-range fill batch group tx tx-all import import-type import-all tree
old-tree drop names id watch next unwatch flush crash dump run new reopen recover recovered verify pages stats draw parts rests why version help ? quit exit set put
del scan iter ls trees owned handle page root image each-refusal each-crash""".split()
# Other names of lines, with what stands in them.
OTHER_NAMES = {'set': ['insert'], 'put': ['insert'], 'del': ['remove'], 'scan': ['range'], 'iter': ['range', None, None], 'ls': ['names'], 'trees': ['names']}
POINT = ('insert', 'get', 'remove', 'cas', 'merge')
SCANS = ('scan', 'scan-back')
POPS = ('pop-min', 'pop-max', 'clear')
ON_TREES = ('begin', 'operator', 'pages', 'draw', 'watch', 'update', 'fetch')
LOOKS = ('has', 'read', 'lt', 'gt', 'first', 'last', 'len', 'empty', 'range', 'prefix', 'keys', 'values')
READERS = {'FILE': value_of, 'K': value_of, 'V': value_of, 'P': value_of, 'DATABASE': value_of, 'NAME': value_of, 'TYPE': value_of, 'OLD': optional, 'NEW': optional, 'TREE': optional, 'LO': bound_of, 'HI': bound_of, 'OPERATOR': operator_of}


def fit(form, words):
    """How many of the shell's own words of a form a line has, what its other words stand for, and else why it has not the
    form."""
    own = [part for part in form if part.islower()]
    has = [word == part for word, part in zip(words, own)]
    if not all(has):
        at = has.index(False)
        return at, None, f'`{words[at]}` does not follow `{words[0]}`; `help` lists what does'
    if len(words) < len(own):
        return len(has), None, f'`{" ".join(words)}` takes a word more; `help` lists which'
    if form[-1] == 'HOW':
        key, *how = words[len(own):] or ['']
        if not how or how[0] in HOWS and len(how) != 1 + (how[0] in ('append', 'set')) or len(how) > 2:
            return len(own), None, f'`{" ".join(own)}` takes K HOW, two words or three{SPACE * (len(how) > 2)}'
        try:
            return len(own), own + [value_of(key), how_of(how)], None
        except BadLine as why:
            return len(own), None, str(why)
    takes, lists = form[len(own):], parts_of(words[len(own):]) if ';' in form else [words[len(own):]]
    places = [places_of(takes[:takes.index(';')] if ';' in takes else takes, len(words)) for words in lists]
    if None in places:
        told = ' '.join(takes)
        return len(own), None, f'`{" ".join(own)}` takes {told}{told and ", "}{count_of(takes)}{space_in(takes, words[len(own):])}'
    try:
        values = [[READERS.get(place, number_of)(word) for place, word in zip(*both)] for both in zip(places, lists)]
        return len(own), own + ([values] if ';' in form else values[0]), None
    except BadLine as why:
        return len(own), None, str(why)


def rests_of(node):
    """What all keys of a page begin with, and what each of them has behind that."""
    keys = [k for k, _ in node.entries]
    first = os.path.commonprefix(keys) or b''
    return ' '.join(['rests', word(first), *(word(k[len(first):]) for k in keys)])


def parts_of(words):
    """The words between those that are `;`."""
    ends = [at for at, word in enumerate(words) if word == ';']
    return [words[lo + 1:hi] for lo, hi in zip([-1] + ends, ends + [len(words)])]


def places_of(takes, count):
    """What each of so many words stands for in a form; none where the form takes another number of words. What is repeated is the
    pairs at the end, of which there may be none, or the only word, of which there is one."""
    if takes[-3:-2] == ['K'] and takes[-1] == '..':
        fixed, pair = takes[:-3], takes[-3:-1]
        return fixed + pair * ((count - len(fixed)) // 2) if count >= len(fixed) and (count - len(fixed)) % 2 == 0 else None
    if takes[-1:] == ['..']:
        return takes[:1] * count or None
    return takes if len(takes) == count else None


def count_of(takes):
    """How many words a form takes."""
    counts = 'no words', 'one word', 'two words', 'three words'
    if '..' not in takes or 'K' not in takes:
        return 'one word or more' if '..' in takes else counts[len(takes)]
    once = takes.index('K')
    return (f'{counts[once]} and pairs' if once else 'pairs') + ' in each part' * (';' in takes)


SPACE = '; a space inside a word is spelled %20'
STRINGS = {'K', 'V', 'P', 'DATABASE', 'TYPE', 'NAME', 'FILE', 'OLD', 'NEW', 'TREE'}


def space_in(takes, words):
    """What is said of a space where there are more words than a form takes, and it takes byte strings."""
    if takes[-3:-2] == ['K'] and takes[-1] == '..':
        more = len(words) - len(takes[:-3])
        return SPACE * (more > 2 and more % 2 == 1)
    return SPACE * ('..' not in takes and len(words) > len(takes) and not STRINGS.isdisjoint(takes))


def one_letter(a, b):
    """Whether two words differ in one letter, that one has more, that is another one, or that changed places with its neighbour."""
    if len(a) > len(b):
        a, b = b, a
    more = any(b[:at] + b[at + 1:] == a for at in range(len(b)))
    other = len(a) == len(b) and sum(x != y for x, y in zip(a, b)) == 1
    return more or other or any(a[:at] + a[at + 1:at + 2] + a[at:at + 1] + a[at + 2:] == b for at in range(len(a) - 1))


def no_command(text):
    """What is said of a word that is no command, and which one it may have been meant to be: one that it is but for small and capital
    letters, else one that differs in a letter, else one that it begins or that begins it."""
    near = [head for head in HEADS if text.lower() == head.lower()]
    if len(text) > 2:
        near += [head for head in HEADS if len(head) > 1 and one_letter(text, head)]
        near += [head for head in HEADS if len(head) > 1 and head.startswith(text) or len(head) > 2 and text.startswith(head)]
    return f'`{text}` is no command; ' + (f'did you mean `{near[0]}`? ' if near else '') + '`help` lists them'


PAGE = 'PID, leaf, LO HI NEXT, open or merging, and pairs K V; of an index CHILD and pairs K PID'


def among(said, **values):
    """What reads one of these words, and what is said of another."""
    def read(text):
        if text.replace('-', '_') not in values:
            raise BadLine(f'`{text}` {said}')
        return values[text.replace('-', '_')]
    return read


def page_or_none(text):
    try:
        return None if text == '-' else number_of(text)
    except BadLine:
        raise BadLine(f'`{text}` is no page number and not -') from None


def read_page(words):
    """The words of a line that notes a page of an image: its number and the page."""
    kind = among('is no kind of page: leaf, index and odd-leaf are', leaf=0, index=1, odd_leaf=2)
    state = among('says nothing of a merge: open and merging do', open=False, merging=True)
    own = kind(words[1]) if len(words) > 1 else 0
    if len(words) < 6 or len(words) % 2 != own % 2 + own // 2:
        raise BadLine(f'`page` takes {PAGE}')
    entries = [value_of, number_of if own == 1 else value_of] * (len(words) // 2)
    readers = [number_of, kind, value_of, value_of, page_or_none, state] + [page_or_none] * (own > 0) + entries
    pid, _, lo, hi, next, merging, *rest = [read(word) for read, word in zip(readers, words)]
    child, rest = (rest[0], rest[1:]) if own else (None, rest)
    return 'page', pid, Node(lo, hi, next, merging, child, own != 1, tuple(zip(rest[::2], rest[1::2])))


def read_step(text):
    """The words of a step in a list of steps."""
    try:
        words = read_line(text)
    except BadLine:
        words = ['']
    if words[0] not in ('begin', 'step', 'abandon', 'batch', 'flush'):
        raise BadLine(f'`{text}` is no step of a call in flight, and no batch or flush')
    return words


def read_help(words):
    """The words of a line that asks for help; each command that is asked for has to be there."""
    if len(words) > 3:
        raise BadLine(f'`{words[0]}` takes [WORD], two words at the most')
    wanted = ' '.join(words[1:])
    owns = [' '.join(part for part in form if part.islower()) for form in FORMS] + ['tests', '?', 'exit', 'bytes', 'bounds']
    if not any(own.startswith(wanted) for own in owns):
        raise BadLine(f'`{wanted}` begins no line; `help` lists them')
    return ['help', wanted]


def read_line(text, forms=FORMS):
    """The words of a line: the program's own, and what the others stand for."""
    words = text.split(' ')
    if forms is FORMS and '' in words:
        raise BadLine('no space stands before the first word or behind the last, and one between two words')
    if forms is FORMS and words[0] in ('help', '?'):
        return read_help(words)
    if words[0] == 'page' and forms is FORMS:
        return read_page(words[1:])
    if words[0] == 'run' and len(words) > 1 and forms is CROWD:
        return ['run', [read_step(step.removeprefix(' ')) for step in text[4:].split(',')]]
    best, reason = 1, no_command(words[0])
    for form in forms:
        own, values, why = fit(form, words)
        if values is not None:
            return OTHER_NAMES.get(values[0], values[:1]) + values[1:]
        if own >= best:
            best, reason = own, why
    raise BadLine(reason)


def some_keys(count):
    """Keys of eight bytes that look random: those that `load` inserts."""
    number = 88172645463325252
    for _ in range(count):
        number ^= number << 13 & GREATEST
        number ^= number >> 7
        number ^= number << 17 & GREATEST
        yield number.to_bytes(8, 'big')


def in_line(words):
    """The line of a machine that answers as a call of the database itself."""
    return ({'set': 'insert', 'del': 'remove'}.get(words[0], words[0]),) + tuple(words[1:])


def collections_of(name, *words):
    """What a line that imports has: types, names and lists of pairs."""
    parts = words[0] if name == 'import-all' else [words if name == 'import-type' else (b'tree',) + words]
    return [(kind, name, list(zip(pairs[::2], pairs[1::2]))) for kind, name, *pairs in parts]


def batches_of(name, *words):
    """What a line that makes a group has: of each part what names its tree, none the current one, and its writes, of each key the
    last one, in the order of the keys."""
    parts = words[0] if name == 'group' else [(None,) + words]
    return [(name, sorted(dict(zip(pairs[::2], pairs[1::2])).items())) for name, *pairs in parts]


class Shell:
    """Runs lines, one after the other, over a store of its own."""

    def __init__(self, forms=FORMS):
        self.store, self.line, self.forms, self.why = Store(), 0, forms, '-'
        self.noted, self.is_foreign, self.code = ({}, {}), False, None
        # the pairs of each moment, where somebody asks for them; and who is told what each line of a file prints
        self.dumps = self.heard = None
        self.is_in_file = False
        self.open()

    def open(self):
        """Opens the pages: where the default tree is missing it is made, and all is flushed. Slots end. Trees get numbers by the
        order of their names."""
        self.slots, self.begun, self.opened = {}, 0, False
        if self.is_foreign:
            self.check()
        if TREE not in self.store.roots:
            make_tree(self.store, TREE)
        self.store.flush()
        self.greatest_id, self.opened, self.is_foreign = self.store.mark, True, False
        self.trees = {name: Tree(name, number) for number, name in enumerate(sorted(self.store.roots), 1)}
        self.created, self.subscribers = len(self.trees), []
        self.handle = self.value_of(TREE)
        # what the last line `tree NAME` got, and what it got before
        self.named = {TREE: (self.handle, self.handle)}

    def check(self):
        """A check of pages that somebody else made. Which of the things that are wrong is told is for a case to say."""
        faults = {10} if self.store.group else self.faults()
        if faults:
            assert self.code in faults | {None}, (self.code, faults)
            raise Refused(5, str(self.code or min(faults)))

    def faults(self):
        """What is wrong with the pages."""
        return images.faults(lambda pid: (view := self.store.read(pid)) and view.node, self.store.roots)

    def image(self, kind=None, mark=0):
        """A store of what was noted, opened after a check."""
        pages, roots = self.noted
        notes, self.store, self.noted = self.store.notes, Store(), ({}, {})
        store = self.store
        store.notes, store.mark, store.recovered = notes, mark, True
        store.pages = {pid: view_of(pid, version, node) for version, (pid, node) in enumerate(pages.items(), 1)}
        store.roots, store.versions = dict(roots), len(pages)
        store.base = dict(store.pages), dict(roots), {}
        named = [number for pid, n in pages.items() for number in [pid, n.next, n.child] + [p for _, p in n.entries if not n.leaf]]
        store.pids = max([number for number in named + list(roots.values()) if number is not None] + [0])
        if kind == 'group':
            store.begin_group()
        self.is_foreign = True
        self.open()
        return ['opened']

    def verify(self):
        """A check of the pages as they are, which changes nothing."""
        if self.is_foreign:
            self.check()
        elif self.closed:
            raise Refused(5, '10')
        else:
            assert not self.faults(), self.faults()
        return ['sound']

    @property
    def closed(self):
        """Whether a group was refused midway."""
        return self.store.group != {}

    def value_of(self, name):
        """What names the tree of this name that is there: the database, its name and its number."""
        return DATABASE, name, self.trees[name].number

    def there(self, handle):
        """The tree that this names."""
        database, name, number = handle
        if database != DATABASE:
            raise Refused(2, ANOTHER)
        if name not in self.trees or self.trees[name].number != number:
            raise Refused(1)
        return self.trees[name]

    def run(self, text):
        """What a line prints, as a list of lines."""
        self.line += 1
        if text == '' or text[0] == '#':
            return []
        try:
            return self.do(*read_line(text, self.forms))
        except BadLine as why:
            place = ' of the file' if self.is_in_file else ''
            return [f'bad line {self.line}{place}: {why}' if self.forms is FORMS else f'bad line {self.line}']
        except Refused as refusal:
            return [self.refused(refusal)]

    def run_file(self, lines):
        """What the lines of a file print, which are counted anew."""
        line, self.line, self.is_in_file = self.line, 0, True
        printed = []
        for text in lines:
            if text in ('quit', 'exit'):
                break
            told = self.run(text)
            if self.heard:
                self.heard(text, told)
            printed += told
        self.line, self.is_in_file = line, False
        return printed

    def crash(self, keep):
        """A crash. The current tree is so again where the name is there."""
        name, is_open = self.handle[1], self.opened
        self.store.crash(keep)
        self.open()
        if not is_open or self.forms is not FORMS:
            return ['recovered']
        if name not in self.trees:
            return [f'recovered, tree {word(TREE)}']
        self.handle = self.value_of(name)
        self.named[name] = self.handle, self.handle
        return ['recovered']

    def refused(self, refusal):
        """The line of a refusal, whose text is kept."""
        number, *text = refusal.args
        self.why = TEXTS.get(number, '?') + ''.join(text)
        if number == 5 and self.is_foreign:
            return f'corrupt {text[0]}'
        return f'refused E{number}'

    def do(self, name, *words):
        store = self.store
        if name in ('new', 'reopen', 'recover'):
            return self.renew(name, *words)
        if self.is_in_file and name in ('each-refusal', 'each-crash', 'run'):
            raise BadLine(f'`{name}` does not stand in a file that a line has run')
        if name == 'run' and self.forms is FORMS:
            return self.run_file(lines_of(words[0]))
        if name == 'version':
            return ['sledsh 0.1.0']
        if name == 'parts':
            view = store.pages.get(words[0])
            return [f'parts {view.base} {view.links}' if view else 'none']
        if name == 'rests':
            view = store.read(words[0])
            return [rests_of(view.node) if view else 'none']
        if name in ('each-refusal', 'each-crash'):
            return [each_refusal(lines_of(words[0])) if name == 'each-refusal' else each_crash(lines_of(words[0]))]
        if name == 'page':
            self.noted[0][words[0]] = words[1]
            return ['noted']
        if name == 'root':
            self.noted[1][words[0]] = words[1]
            return ['noted']
        if name == 'image':
            return self.image(*words)
        if name == 'verify':
            return self.verify()
        if name == 'crash':
            return self.crash(words[0])
        if name == 'why':
            return [f'why {self.why}']
        if name == 'reads':
            return [f'reads {self.reads()}']
        if name == 'run':
            return [line for step in words[0] for line in self.perform(step)]
        if name in ('step', 'finish', 'abandon', 'turns'):
            return [self.slot(name, words[0])]
        if name == 'old-tree':
            return self.take_old(words[0])
        if name in ('next', 'unwatch'):
            return [self.subscribed(name, words[0])]
        if name == 'owned' and words[0] in ('next', 'unwatch') and not self.opened:
            return self.do(*in_line(words))
        if not self.opened:
            raise Refused(8)
        if name == 'handle':
            self.handle = words
            return ['done']
        if name in ('owned', 'remove-range'):
            self.slots, self.begun = {}, 0
        if name == 'owned':
            return self.do(*in_line(words))
        if name == 'recovered':
            return ['yes' if store.recovered else 'no']
        if name in ('batch', 'group'):
            self.write([(self.named_so(tree), writes) for tree, writes in batches_of(name, *words)])
            return ['done']
        if self.closed:
            raise Refused(8)
        if name == 'stats':
            maps, levels = self.maps().values(), [self.levels(True, name) for name in store.roots]
            count = len(maps), sum(map(len, sum(levels, []))), max(map(len, levels)), sum(map(len, maps))
            sizes = [sum(len(pair[at]) for pairs in maps for pair in pairs) for at in (0, 1)]
            return ['stats' + ''.join(f' {what} {number}' for what, number in zip(('trees', 'pages', 'levels', 'pairs', 'key-bytes', 'value-bytes'), (*count, *sizes)))]
        if name == 'remove-range':
            tree, keys = self.there(self.handle), []
            pairs = Range(store, tree, *words)
            while (pair := pairs.take()) is not None:
                keys.append(pair[0])
            self.write([(self.handle, [(key, None) for key in keys])])
            return [f'number {len(keys)}']
        if name.partition('-')[0] in POINT + LOOKS + ON_TREES or name in POPS:
            return self.on_tree(self.there(self.handle), name, *words)
        if name == 'tree':
            return self.take(words[0])
        if name == 'drop':
            return ['yes' if self.drop(words[0]) else 'no']
        if name.startswith('import'):
            self.take_in(collections_of(name, *words))
            return ['done']
        if name == 'load':
            reads = [self.reads_of('insert', key, key) for key in some_keys(words[0])]
            return ['yes' if max(reads) <= words[1] and sum(reads) <= words[2] else 'no']
        if name == 'find':
            # a get splits a page that it finds too long, so only the second of a key counts
            reads = [[self.reads_of('get', key) for _ in range(2)][1] for key in some_keys(words[0])]
            return ['yes' if set(reads) == {words[1]} else 'no']
        if name == 'flush':
            return [f'flushed {store.flush()}']
        if name == 'names':
            return [f'name {word(name)}' for name in sorted(store.roots)] + [f'end {len(store.roots)}']
        if name == 'id':
            return [f'number {self.next_id()}']
        if name == 'fill':
            if words[0] > 999999:
                raise BadLine(f'`{words[0]}` is more than 999999')
            for number in range(1, words[0] + 1):
                self.at_once(self.there(self.handle), 'insert', b'k%06d' % number, b'%d' % number)
            return [f'filled {words[0]}']
        if name == 'dump' and words:
            maps = self.maps()
            return [line for name in maps for line in [f'tree {word(name)}'] + [f'insert {word(k)} {word(v)}' for k, v in maps[name]]]
        if name == 'dump':
            maps = self.maps()
            pairs = [f'pair {word(name)} {word(k)} {word(v)}' for name in sorted(maps) for k, v in maps[name]]
            return pairs + [f'end {len(pairs)}']
        raise NotImplementedError(f'what {name} prints is free text')

    def on_tree(self, tree, name, *words):
        """A line that asks something of this tree."""
        if name == 'operator':
            tree.operator = words[0]
            return ['done']
        if 'merge' in (name, words[0] if name == 'begin' else None) and tree.operator is None:
            raise Refused(2, NO_OPERATOR)
        if name == 'watch':
            queue = Queue(words[0])
            tree.queues.append(queue)
            self.subscribers.append((tree, queue))
            return [f'subscriber {len(self.subscribers)}']
        if name in ('update', 'fetch'):
            return [self.fetched(tree, name, *words)]
        if name in POINT:
            return [self.at_once(tree, name, *words)]
        if name.partition('-')[0] in LOOKS:
            return self.looked(tree, name, *words)
        if name in POPS:
            return self.popped(tree, name)
        if name == 'begin':
            self.begun += 1
            self.slots[self.begun] = self.flight(tree, *words)
            return [f'slot {self.begun}']
        if name == 'draw':
            return self.drawn(tree.name, *words)
        levels = self.levels(True, tree.name)
        return [f'level {len(level)} {max(len(n.entries) for n in level)}' for level in levels] + [f'end {len(levels)}']

    def drawn(self, name, kind=None):
        """The pages of a tree level by level, each with the index that points to it; as a graph, with arrows in its place. Where one
        cannot be read the drawing ends."""
        is_dot = kind == 'dot'
        printed = ['digraph tree {', '  node [shape=box]'] if is_dot else []
        level, parents = 0, {self.store.roots[name]: ''}
        try:
            while parents:
                pid, below = next(iter(parents)), {}
                printed += [] if is_dot else [f'level {level}']
                while pid is not None:
                    view = self.store.read(pid)
                    node, parts = view.node, f' base {view.base} links {view.links}' * (kind == 'links')
                    printed += self.page_drawn(pid, node, parents.get(pid), is_dot, parts)
                    below.update({p: f' under {pid}' for _, p in node.entries if not node.leaf})
                    pid = node.next
                level, parents = level + 1, below
        except Refused as refusal:
            return printed + [self.refused(refusal)]
        return printed + ['}'] * is_dot

    @staticmethod
    def page_drawn(pid, node, under, is_dot, parts):
        head = f'{"leaf" if node.leaf else "index"} {pid}{"" if is_dot or under is None else under}'
        head += f' from {word(node.lo)} to {word(node.hi) if node.hi else ".."}'
        head += f' next {node.next}' * (node.next is not None) + ' merging' * node.merging
        head += f' merging-child {node.child}' * (node.child is not None) + ' no-pointer' * (under is None) + parts + ':'
        head += ''.join(f' {word(k)}={word(v)}' for k, v in node.entries if node.leaf)
        pointers = [] if node.leaf else [(word(k), p) for k, p in node.entries]
        if not is_dot:
            return [head + ''.join(f' {k}->{p}' for k, p in pointers)]
        quoted = [text.replace('\\', '\\\\').replace('"', '\\"') for text in [head] + [k for k, _ in pointers]]
        arrows = [f'  {pid} -> {p} [label="{k}"]' for k, (_, p) in zip(quoted[1:], pointers)]
        return [f'  {pid} [label="{quoted[0]}"]'] + arrows + [f'  {pid} -> {node.next} [style=dashed]'] * (node.next is not None)

    def fetched(self, tree, name, key, how):
        """Reads a value, and swaps what is made of it for it. It answers the new value, or the one that was read."""
        old = look(self.store, tree, (True, key)).get(key)
        new = HOWS[how[0]](old, *how[1:])
        self.at_once(tree, 'cas', key, old, new)
        return f'value {word(new if name == "update" else old)}'

    def subscribed(self, name, number):
        """What a subscriber is told next, or its end."""
        if not self.opened or not 1 <= number <= len(self.subscribers):
            return 'no subscriber'
        tree, queue = self.subscribers[number - 1]
        if name == 'unwatch':
            tree.queues = [other for other in tree.queues if other is not queue]
            self.subscribers[number - 1] = tree, Queue(queue.prefix)
            return 'done'
        return queue.next()

    def flight(self, tree, *call):
        """A call in flight: its steps, how many of them went on, and its tree."""
        return [fly(self.store, tree, call), 0, tree]

    def at_once(self, tree, *call):
        """Makes a call from its begin to its end, or a scan to its first pair."""
        if not self.closed and self.trees.get(tree.name) is tree:
            try_at_once(self.store, tree, call)
        return self.advance(self.flight(tree, *call), True)

    def open_tree(self, name):
        """The tree of this name, which is made where there is none."""
        if name not in self.trees:
            make_tree(self.store, name)
            self.created += 1
            self.trees[name] = Tree(name, self.created)
        return self.trees[name]

    def take(self, name):
        """Opens the tree of this name and makes it current."""
        self.open_tree(name)
        self.handle = self.value_of(name)
        _, before = self.named.get(name, (None, None))
        self.named[name] = before, self.handle
        return [f'tree {word(name)}']

    def take_old(self, name):
        """Makes current what the line `tree NAME` before the last one got."""
        old = self.named.get(name, (None, None))[0] if self.opened else None
        if old is None:
            raise BadLine(f'`{word(name)}` has no older tree: fewer than two lines `tree` named it since the opening')
        self.handle = old
        return [f'tree {word(name)}']

    def drop(self, name):
        """Drops the tree of this name: whether there was one."""
        if name == TREE:
            raise Refused(2, DEFAULT_TREE)
        if name not in self.trees:
            return False
        drop_tree(self.store, name)
        del self.trees[name]
        return True

    def take_in(self, collections):
        """Opens the tree of each collection in turn, and puts its pairs in one by one. First all types are tested. Where a key is
        present already that is refused, and what was done stays."""
        if any(kind != b'tree' for kind, _, _ in collections):
            raise Refused(2, UNKNOWN_TYPE)
        for _, name, pairs in collections:
            tree = self.open_tree(name)
            for key, value in pairs:
                if look(self.store, tree, (True, key)).get(key) is not None:
                    raise Refused(2, PRESENT)
                self.at_once(tree, 'insert', key, value)
                self.passes()

    def passes(self):
        """Notes the pairs of a moment between two lines, or between two pairs of a call that changes them one after the other."""
        if self.dumps is not None:
            self.dumps.append(self.run('dump'))

    def named_so(self, name):
        """What a word in a group names: the current tree, or what the last line `tree NAME` got."""
        if name is not None and name not in self.named:
            raise BadLine(f'`{word(name)}` names no tree: no line `tree` named it since the opening')
        return self.handle if name is None else self.named[name][1]

    def write(self, batches):
        """Makes a group of writes. First come the tests of all its trees, one after the other, and the reads of all values that stand.
        A write that changes nothing is left out. The others are made between two marks in the store, and then they are told; a
        refusal there leaves the store in the group, so that the database is closed."""
        if self.closed:
            raise Refused(8)
        if any(database != DATABASE for (database, _, _), _ in batches):
            raise Refused(2, ANOTHER)
        trees = [self.there(handle) for handle, _ in batches]
        changes, writes, told = [], {}, []
        for tree, (_, pairs) in zip(trees, batches):
            way = []
            for key, value in pairs:
                leaf = look_near(self.store, tree, key, way)
                old = leaf.node.get(key)
                if writes.get((tree, key), old) != value:
                    begins = old != value and is_settled(leaf.node)
                    changes.append((tree, ('remove', key) if value is None else ('insert', key, value), leaf if begins else None))
                writes[tree, key] = value
        if not changes:
            return
        self.store.begin_group()
        changed = None
        for tree, call, leaf in changes:
            self.write_one(InGroup(tree, told), call, leaf, changed)
            changed = leaf and leaf.pid
        self.store.seal_group()
        for tree, key, value in told:
            tree.tell(key, value)

    def write_one(self, tree, call, leaf, changed):
        """Makes a write of a group: at the leaf that the read of its key found, where there is one. It is read again where the write before
        it changed it, or another one did. From the root where the write cannot be made there."""
        if leaf is not None:
            if leaf.pid != changed and ended(act(self.store, tree, call, leaf)) is not None:
                return
            again = self.store.read(leaf.pid)
            if again and may_change(again.node, *call) and ended(act(self.store, tree, call, again)) is not None:
                return
        for _ in fly(self.store, tree, call):
            pass

    def next_id(self):
        """One above the greatest id that was given. Where none is set aside, 4096 more are, or as many as are left."""
        if self.greatest_id == self.store.mark:
            if self.store.mark == GREATEST:
                raise Refused(2, IDS)
            self.store.set_aside(min(self.store.mark + 4096, GREATEST))
        self.greatest_id += 1
        return self.greatest_id

    def popped(self, tree, name):
        """Takes out the pair at an end, or all pairs from the least up. Each is read, and then removed as by a removal."""
        while True:
            all = Range(self.store, tree, None, None)
            pair = all.search_back() if name == 'pop-max' else all.search()
            if pair:
                self.at_once(tree, 'remove', pair[0])
                self.passes()
            if name != 'clear':
                return ['pair ' + (f'{word(pair[0])} {word(pair[1])}' if pair else '-')]
            if not pair:
                return ['done']

    def looked(self, tree, name, *words):
        """What a read prints that takes no slot."""
        store = self.store
        if name in ('has', 'read'):
            value = look(store, tree, (True, words[0])).get(words[0])
            return [f'value {word(value)}'] if name == 'read' else ['no' if value is None else 'yes']
        if name in ('lt', 'gt', 'first', 'last', 'empty'):
            bounds = {'lt': lambda k: (None, (False, k)), 'gt': lambda k: ((False, k), None)}.get(name, lambda: (None, None))(*words)
            all = Range(store, tree, *bounds)
            pair = all.search_back() if name in ('lt', 'last') else all.search()
            if name == 'empty':
                return ['no' if pair else 'yes']
            return ['pair ' + (f'{word(pair[0])} {word(pair[1])}' if pair else '-')]
        if name == 'len':
            leaf = look(store, tree, (True, b''))
            count = len(leaf.entries)
            while leaf.next is not None:
                leaf = store.read(leaf.next).node
                count += len(leaf.entries)
            return [f'number {count}']
        what, _, way = name.partition('-')
        bounds = ((True, words[0]), above(words[0])) if what == 'prefix' else words
        pairs, printed = Range(store, tree, *bounds), []
        try:
            while (pair := pairs.take(way == 'back' or way == 'ends' and len(printed) % 2 == 1)) is not None:
                called, shown = {'keys': ('key', pair[:1]), 'values': ('value', pair[1:])}.get(what, ('pair', pair))
                printed.append(' '.join([called] + [word(part) for part in shown]))
        except Refused as refusal:
            # an iterator that was refused ends: asked once more it gives nothing
            return printed + [self.refused(refusal), f'end {len(printed)}']
        return printed + [f'end {len(printed)}']

    def reads(self):
        """How many pages were read since this was asked last. Of lines that print pairs or levels nothing is said."""
        count, self.store.reads = self.store.reads, 0
        return count

    def reads_of(self, *call):
        """How many pages a call reads."""
        self.reads()
        self.at_once(self.there(self.handle), *call)
        return self.store.reads

    def perform(self, step):
        """What a step of a list prints: each value is told as one. Slots are those of lines, so no other calls may have come
        before."""
        try:
            return [line.replace('old', 'value') for line in self.do(*step)]
        except Refused as refusal:
            return [self.refused(refusal)]

    def renew(self, name, kind=None, *numbers):
        """Opens other pages, or the same ones anew."""
        if kind == 'mark' and numbers[0] < self.store.mark:
            raise BadLine(f'`{numbers[0]}` is below the mark, which is {self.store.mark}')
        if name == 'reopen' and self.opened and self.closed:
            raise Refused(5, '10')
        self.slots, self.opened = {}, False
        if name == 'new':
            notes, self.store = self.store.notes, Store()
            self.store.notes, self.is_foreign = notes, False
        if name == 'recover':
            self.store.crash(GREATEST)
        if kind == 'mark':
            self.store.set_aside(numbers[0])
        if kind == 'refuse':
            self.store.refused = frozenset(numbers)
        if kind == 'unreadable':
            self.store.unreadable.update(numbers)
        self.open()
        return ['opened']

    def slot(self, name, number):
        if number not in self.slots:
            return 'no slot'
        if name == 'turns':
            return f'number {self.slots[number][1]}'
        if name == 'abandon':
            del self.slots[number]
            return 'abandoned'
        try:
            answer = self.advance(self.slots[number], name == 'finish')
        except Refused:
            del self.slots[number]
            raise
        if answer != 'moved' and not answer.startswith('pair '):
            del self.slots[number]
        return answer

    def advance(self, flight, to_its_end):
        """Does a step of a call in flight, or all of them, of a scan up to its next pair, where its turns begin again. A step of a call on
        a tree that was dropped is refused."""
        call, answer, tree = flight[0], 'moved', flight[2]
        if self.closed:
            raise Refused(8)
        if self.trees.get(tree.name) is not tree:
            raise Refused(1)
        try:
            while answer == 'moved':
                pair = next(call)
                if pair is not None:
                    flight[1] = 0
                    return f'pair {word(pair[0])} {word(pair[1])}'
                flight[1] += 1
                if not to_its_end:
                    return 'moved'
        except StopIteration as end:
            return end.value

    def maps(self):
        """The pairs of each tree by its name."""
        return {name: [pair for leaf in self.levels(name=name)[-1] for pair in leaf.entries] for name in sorted(self.store.roots)}

    def contents(self):
        """The map of each tree by its name, also of pages that cannot be read."""
        store = self.store
        reads, unreadable, store.unreadable = store.reads, store.unreadable, set()
        maps = {name: dict(pairs) for name, pairs in self.maps().items()}
        store.reads, store.unreadable = reads, unreadable
        return maps

    def levels(self, whole=False, name=TREE):
        """The pages of each level of a tree, from the root down. Only the last one is read as a whole where nothing else is
        asked."""
        levels, pid = [], self.store.roots[name]
        while pid is not None:
            first = self.store.read(pid).node
            level, node = [first], first
            while node.next is not None and (whole or node.leaf):
                node = self.store.read(node.next).node
                level.append(node)
            levels.append(level)
            pid = None if first.leaf else first.entries[0][1]
        return levels


# Lines that are run again and again.

DATA = os.path.join(os.path.dirname(os.path.abspath(__file__)), '..', 'crates', 'sledsh', 'data')


def lines_of(name):
    """The lines of a file, by the word that names it."""
    try:
        return open(os.path.join(DATA.encode(), name)).read().removesuffix('\n').split('\n')
    except FileNotFoundError:
        raise BadLine(f'`{word(name)}` cannot be read') from None


def check_lines(lines, makes_no_store):
    """What cannot be run again and again: lines that cannot be read, and for refusals those that make another store."""
    shell = Shell()
    for line in lines:
        if re.match('(each-|run |fill )', line) or any(text.startswith('bad line') for text in shell.run(line)):
            raise BadLine('the file has a line that cannot be read')
    if makes_no_store and any(re.match('(new|crash|recover|image)( |$)|reopen refuse ', line) for line in lines):
        raise BadLine('the file has a line that makes another store')


def run_refusing(lines, call):
    """Runs lines over a store that refuses this call of it, and makes a line again that is refused so: what they print and the pairs
    behind them, whether one was told of it, and how many calls the store got."""
    shell, printed, is_told, tree = Shell(), [], False, None
    if shell.run(f'new refuse {call}') != ['opened']:
        is_told = True
        shell.run('reopen')
    for line in lines:
        answer = shell.run(line)
        if answer[-1:] == ['refused E4']:
            is_told, answer = True, shell.run(line)
        if answer[-1:] == ['refused E8']:
            shell.run('recover')
            if tree:
                shell.run(tree)
            answer = shell.run(line)
        if line.startswith('tree '):
            tree = line
        printed += ['flushed' if text.startswith('flushed ') else text for text in answer]
    return printed + shell.run('dump'), is_told, shell.store.calls


def each_refusal(lines):
    """What it comes to that each call of the store is refused in turn."""
    check_lines(lines, True)
    clean, _, calls = run_refusing(lines, 0)
    refused = 0
    for call in range(1, calls + 1):
        printed, is_told, _ = run_refusing(lines, call)
        for number, (line, other) in enumerate(zip(printed, clean), 1):
            if line != other:
                return f'call {call}: line {number} is `{line}` and not `{other}`'
        assert printed == clean, (call, printed, clean)
        refused += is_told
    return f'calls {calls}, refused {refused}, all the same'


def each_crash(lines):
    """What it comes to that a crash keeps each number of actions in turn."""
    check_lines(lines, False)
    shell = Shell()
    shell.dumps = dumps = []
    for line in ['new'] + lines:
        shell.run(line)
        shell.passes()
    count = len(shell.store.recent)
    for keep in range(count + 1):
        left = Shell()
        left.store = copy.deepcopy(shell.store)
        assert left.run(f'crash {keep}') == ['recovered'] and left.run('verify') == ['sound'], keep
        dump = left.run('dump')
        if dump not in dumps:
            return f'crash {keep}: no beginning'
        dumps = dumps[dumps.index(dump):]
    if dumps[0] != dumps[-1]:
        return f'crash {count}: not the last'
    return f'crashes {count + 1}, each a beginning'


def main():
    texts = [open(name, 'rb').read() for name in sys.argv[1:]] or [sys.stdin.buffer.read()]
    for text in texts:
        shell = Shell()
        for line in text.decode('latin-1').removesuffix('\n').split('\n'):
            if line == 'quit':
                break
            for printed in shell.run(line):
                print(printed)


if __name__ == '__main__':
    main()
