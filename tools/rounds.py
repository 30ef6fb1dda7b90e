"""Checks what `test_rounds` prints (crates/test_rounds/src/main.rs says which lines there are). Plain maps make the calls of a history once
more, and what each caller was told is compared with that. Keys and values stay as they are spelled, since no two spell the same bytes."""
import bisect
import collections
import functools
import itertools
import re

# How many the numbers in values are.
NUMBERS = 2**64
# The tree whose merge operator adds.
FIRST = "__sled__default"
# So many events wait for a subscriber at most.
WAITING = 1024
# What one gets for which none waits.
NOTHING = ["event", "-"]
# What a step of a call answers that goes on.
GOES_ON = ("moved", "pair")
# How it begins what is wrong with a line of another form.
UNREAD = "a line cannot be read"


class Wrong(Exception):
    """What is wrong with the lines."""


def require(holds, *told):
    if not holds:
        raise Wrong(" ".join(str(it) if not isinstance(it, list) else " ".join(it) for it in told))


@functools.lru_cache(None)
def bytes_of(word):
    """What a word spells."""
    return b"" if word == "%" else re.sub(b"%([0-9a-f]{2})", lambda it: bytes([int(it[1], 16)]), word.encode())


def word_of(number):
    """The word of a number in eight bytes."""
    return "".join(chr(byte) if 32 < byte < 127 and byte != ord("%") else f"%{byte:02x}" for byte in number.to_bytes(8, "big"))


def number_of(word):
    """The number in a value, which is 0 where there are no eight bytes."""
    return int.from_bytes(bytes_of(word), "big") if word != "-" and len(bytes_of(word)) == 8 else 0


def added(word, number):
    """The value that a merge operator makes which adds."""
    return word_of((number_of(word) + number) % NUMBERS)


def is_within(key, bounds):
    """Whether a key is in a range, whose four words are its bounds."""
    (low, lo), (high, hi) = bounds[:2], bounds[2:]
    above = low == "all" or bytes_of(lo) < bytes_of(key) or low == "from" and lo == key
    return above and (high == "all" or bytes_of(key) < bytes_of(hi) or high == "from" and hi == key)


class Queue:
    """What waits for a subscriber to the keys that begin with a prefix, and how many events it missed."""

    def __init__(self, prefix):
        self.prefix, self.missed, self.events = bytes_of(prefix), 0, collections.deque()

    def add(self, key, event):
        if not bytes_of(key).startswith(self.prefix):
            return
        if len(self.events) == WAITING:
            self.events.popleft()
            self.missed += 1
        self.events.append(event)

    def take(self):
        if self.missed:
            missed, self.missed = self.missed, 0
            return ["event", "missed", str(missed)]
        return self.events.popleft() if self.events else NOTHING


class Tree:
    """A tree of one opening: its pairs now, what each key had since when, and its subscribers' queues. States are numbered: that before the
    history is 0, and that behind its first entry 1."""

    def __init__(self, name, number, born, pairs=()):
        self.name, self.number, self.born, self.died, self.pairs, self.queues = name, number, born, None, dict(pairs), {}
        self.log = {key: [(born, value)] for key, value in self.pairs.items()}

    def keys(self):
        return sorted(self.pairs, key=bytes_of)

    def put(self, state, key, value):
        if value == "-":
            self.pairs.pop(key, None)
        else:
            self.pairs[key] = value
        self.log.setdefault(key, []).append((state, value))
        event = ["event", "remove", key] if value == "-" else ["event", "insert", key, value]
        for queue in self.queues.values():
            queue.add(key, event)

    def values(self, key, first, last):
        """What a key had in the states from the first to the last, one after the other; `-` is nothing."""
        log = self.log.get(key, [])
        at = bisect.bisect_right(log, first, key=lambda it: it[0])
        values = [log[at - 1][1] if at else "-"]
        while at < len(log) and log[at][0] <= last:
            # Of several writes of one entry only the last can be seen.
            if at + 1 == len(log) or log[at + 1][0] != log[at][0]:
                values.append(log[at][1])
            at += 1
        gone = not self.born <= first or self.died is not None and self.died <= last
        return values + ["-"] if gone else values


class Maps:
    """The maps of one opening, which make the calls of a history."""

    def __init__(self, pairs, last_id):
        self.trees = {name: Tree(name, None, 0, found) for name, found in pairs.items()}
        self.numbers, self.state, self.last_id = {}, 0, last_id
        # How many subscribers there were, the queues of those that are left, and what was taken in the entry behind which a state is.
        self.subscribers, self.queues, self.taken = 0, {}, {}
        # What a crash may leave: all maps since the last flush.
        self.left = [self.image()]

    def image(self):
        return {name: dict(tree.pairs) for name, tree in self.trees.items()}

    def named(self, name, number):
        """A tree by its name and its number. Those of an opening tell their numbers as they are named first."""
        tree = self.trees.get(name)
        if tree and tree.number is None and (name, number) not in self.numbers:
            self.give_number(tree, number)
        require((name, number) in self.numbers, "nobody opened the tree", name, number)
        return self.numbers[name, number]

    def give_number(self, tree, number):
        require(all(number != other for _, other in self.numbers), "the number", number, "of a tree is given twice")
        tree.number, self.numbers[tree.name, number] = number, tree

    def living(self, name, number):
        tree = self.named(name, number)
        require(self.trees.get(name) is tree, "a call is decided on the tree", name, number, "which is gone")
        return tree

    def make(self, call):
        """Makes a call: what it replies."""
        before = self.image()
        self.state += 1
        reply = getattr(self, f"make_{call[0]}")(*call[1:])
        if call[0] == "flush":
            self.left = []
        if call[0] == "flush" or self.image() != before:
            self.left.append(self.image())
        return reply

    def put(self, tree, key, value):
        tree.put(self.state, key, value)

    def write(self, tree, key, value):
        """The same, but nothing happens where this is there already."""
        if tree.pairs.get(key, "-") != value:
            self.put(tree, key, value)

    def make_get(self, name, number, key):
        return ["value", self.living(name, number).pairs.get(key, "-")]

    make_get_now = make_get

    def make_insert(self, name, number, key, value):
        tree = self.living(name, number)
        old = tree.pairs.get(key, "-")
        self.write(tree, key, value)
        return ["value", old]

    def make_remove(self, name, number, key):
        return self.make_insert(name, number, key, "-")

    def make_merge(self, name, number, key, value):
        require(name == FIRST, "a merge is decided on a tree that has no operator")
        tree = self.living(name, number)
        new = added(tree.pairs.get(key, "-"), number_of(value))
        self.put(tree, key, new)
        return ["value", new]

    def make_swap(self, name, number, key, old, new):
        tree = self.living(name, number)
        stands = tree.pairs.get(key, "-")
        if stands != old:
            return ["conflict", stands, new]
        self.put(tree, key, new)
        return ["swapped"]

    def pop(self, tree, at):
        if not tree.pairs:
            return ["pair", "-"]
        key = tree.keys()[at]
        value = tree.pairs[key]
        self.put(tree, key, "-")
        return ["pair", key, value]

    def make_pop_min(self, name, number):
        return self.pop(self.living(name, number), 0)

    def make_pop_max(self, name, number):
        return self.pop(self.living(name, number), -1)

    def make_clear(self, name, number):
        tree = self.living(name, number)
        # The keys go one after the other from the least up, and a crash may come between.
        for key in tree.keys():
            self.put(tree, key, "-")
            self.left.append(self.image())
        return ["done"]

    def make_group(self, count, *words):
        words = iter(words)
        for _ in range(int(count)):
            tree = self.living(next(words), next(words))
            for _ in range(int(next(words))):
                self.write(tree, next(words), next(words))
        return ["done"]

    def make_transaction(self, count, *words):
        words, writes = iter(words), []
        for _ in range(int(count)):
            tree = self.living(next(words), next(words))
            writes += [(tree, next(words), next(words)) for _ in range(int(next(words)))]
        stood = [tree.pairs.get(key, "-") for tree, key, _ in writes]
        for write in writes:
            self.write(*write)
        return ["stood", *stood]

    def make_import(self, *words):
        """Opens trees and puts pairs into them, part by part, up to one that is there."""
        for parts, (name, *pair) in enumerate(parts_of(words)):
            tree = self.trees.setdefault(name, Tree(name, None, self.state))
            if pair:
                if pair[0] in tree.pairs:
                    return ["parts", str(parts)]
                self.put(tree, *pair)
            self.left.append(self.image())
        return ["done"]

    def make_watch(self, name, number, prefix):
        tree, self.subscribers = self.living(name, number), self.subscribers + 1
        self.queues[str(self.subscribers)] = tree.queues[str(self.subscribers)] = Queue(prefix)
        return ["subscriber", str(self.subscribers)]

    def make_next(self, subscriber):
        queue = self.queues.get(subscriber)
        self.taken[self.state] = queue.take() if queue else NOTHING
        return ["done"]

    def make_unsubscribe(self, subscriber):
        for tree in self.numbers.values():
            tree.queues.pop(subscriber, None)
        self.queues.pop(subscriber, None)
        return ["done"]

    def make_flush(self):
        return ["number", None]

    def make_id(self):
        return ["number", None]

    def make_open(self, name):
        return ["tree", name, None]

    def make_drop(self, name):
        tree = self.trees.pop(name, None)
        if tree:
            tree.died = self.state
        return ["yes" if tree else "no"]

    def pair(self, tree, keys):
        return next((["pair", key, tree.pairs[key]] for key in keys), ["pair", "-"])

    def make_first(self, name, number):
        tree = self.living(name, number)
        return self.pair(tree, tree.keys())

    def make_last(self, name, number):
        tree = self.living(name, number)
        return self.pair(tree, reversed(tree.keys()))

    def make_get_lt(self, name, number, key):
        tree = self.living(name, number)
        return self.pair(tree, (it for it in reversed(tree.keys()) if bytes_of(it) < bytes_of(key)))

    def make_get_gt(self, name, number, key):
        tree = self.living(name, number)
        return self.pair(tree, (it for it in tree.keys() if bytes_of(it) > bytes_of(key)))

    def make_contains(self, name, number, key):
        return ["yes" if key in self.living(name, number).pairs else "no"]

    def make_is_empty(self, name, number):
        return ["no" if self.living(name, number).pairs else "yes"]

    def make_len(self, name, number):
        return ["count", str(len(self.living(name, number).pairs))]

    def make_page(self, name, number, *words):
        tree, (*bounds, back, most) = self.living(name, number), words
        keys = [key for key in tree.keys() if is_within(key, bounds)]
        keys = (keys[::-1] if back == "yes" else keys)[: int(most)]
        return ["pairs", str(len(keys)), *itertools.chain(*((key, tree.pairs[key]) for key in keys))]

    def make_names(self):
        names = sorted(self.trees, key=bytes_of)
        return ["names", str(len(names)), *names]

    def make_export(self):
        return ["all", *words_of(self.image())]

    def enter(self, call, reply):
        """An entry of the history. What is new in its reply is compared with what was there."""
        made = self.make(call)
        require(len(made) == len(reply) and all(one in (None, other) for one, other in zip(made, reply)), "the entry", call, "replies", reply, "and not", [it or "?" for it in made])
        if call[0] == "open":
            self.open(*reply[1:])

    def open(self, name, number):
        tree = self.trees.get(name)
        if tree:
            require(self.named(name, number) is tree, "the tree", name, "has not the number", number)
            return
        self.trees[name] = Tree(name, None, self.state)
        self.give_number(self.trees[name], number)
        self.left.append(self.image())


def words_of(image):
    """The words of maps: how many trees there are, and each with its pairs."""
    words = [str(len(image))]
    for name in sorted(image, key=bytes_of):
        keys = sorted(image[name], key=bytes_of)
        words += [name, str(len(keys)), *itertools.chain(*((key, image[name][key]) for key in keys))]
    return words


def parts_of(words):
    """The parts of an import: the name of a tree that is opened, or that and a pair."""
    words = iter(words)
    for _ in range(int(next(words))):
        name, count = next(words), int(next(words))
        yield (name,)
        for _ in range(count):
            yield name, next(words), next(words)


def image_of(words):
    """The maps that words spell."""
    left, image = iter(words), {}
    for _ in range(int(next(left))):
        name, count = next(left), int(next(left))
        image[name] = {key: value for key, value in [(next(left), next(left)) for _ in range(count)]}
    require(words_of(image) == words, "these maps are not in order:", words)
    return image


class Event:
    """A call of a caller: when it began and ended, by the clock of all callers, and what it was told."""

    def __init__(self, by, round_number, words):
        at = words.index("=")
        self.by, self.round, self.before, self.call, self.after, self.answer = by, round_number, int(words[0]), words[1:at], int(words[at + 1]), words[at + 2 :]

    def __str__(self):
        return f"caller {self.by}, {self.before}: {' '.join(self.call)} = {' '.join(self.answer)}"


class Slot:
    """A call in a slot: when it was begun, its steps by any callers, and its end."""

    def __init__(self, begun):
        self.begun, self.call, self.steps, self.end = begun, begun.call[1:], [], None


class Opening:
    """What was done with a database from an opening to a crash."""

    def __init__(self, image, last_id):
        self.maps, self.callers, self.lost, self.events, self.history, self.rounds = Maps(image, last_id), {}, set(), [], [], [set()]
        # What scans did: the slot, how many entries the history had then, and the words that say it.
        self.notes, self.all_noted = [], "yes"

    def add_caller(self, number, kept):
        require(kept in ("kept", "lost"), "a handle is", kept)
        self.callers.setdefault(number, [])
        self.rounds[-1].add(number)
        if kept == "lost":
            self.lost.add(number)

    def take(self, word):
        """The state was taken, or was not."""
        require((word == "missing") <= bool(self.lost), "no handle is missing")
        require(word != "gathered" or not self.lost, "the state is gathered though handles are lost")
        self.lost = self.lost if word == "missing" else set()

    def add_event(self, by, words):
        event = Event(by, len(self.rounds), words)
        mine = self.callers[by]
        require(event.before < event.after and (not mine or mine[-1].after < event.before), event, "comes before its time")
        mine.append(event)
        self.events.append(event)

    # Slots.

    def find_slots(self):
        self.slots = {}
        for event in self.events:
            if event.call[0] == "begin" and event.answer[0] == "slot":
                require(event.answer[1] not in self.slots, "a slot is given twice:", event)
                self.slots[event.answer[1]] = Slot(event)
        begun = sorted(self.slots.items(), key=lambda it: int(it[0]))
        self.in_time([slot.begun for _, slot in begun], "slots")
        for event in self.events:
            if event.call[0] in ("step", "abandon"):
                self.add_step(event)

    def add_step(self, event):
        slot = self.slots.get(event.call[1])
        if event.answer == ["no", "slot"]:
            return
        require(slot and slot.begun.before < event.after, "there is no such slot:", event)
        slot.steps.append(event)
        if event.answer[0] not in GOES_ON:
            require(not slot.end, "a slot ends twice:", event)
            slot.end = event

    def check_slots(self):
        for slot in self.slots.values():
            for event in slot.steps:
                require(not slot.end or event.before < slot.end.after, "the slot was gone:", event)
                require(event.answer[0] != "moved" or event.call[0] == "step", event, "is no answer")
                require(event.answer[0] != "abandoned" or event.call[0] == "abandon", event, "is no answer")
        for event in self.events:
            if event.answer == ["no", "slot"]:
                slot = self.slots.get(event.call[1])
                ended = slot.end.before < event.after if slot and slot.end else not slot
                require(event.call[0] in ("step", "abandon") and ended, "the slot is there:", event)

    def interleaved(self):
        """How many calls in slots had another caller's whole call or step between their begin and their last step."""
        by_begin = sorted(self.events, key=lambda event: event.before)
        begins = [event.before for event in by_begin]
        count = 0
        for slot in self.slots.values():
            last = max((event.before for event in slot.steps), default=slot.begun.after)
            between = by_begin[bisect.bisect_right(begins, slot.begun.after) : bisect.bisect_left(begins, last)]
            count += any(event.by != slot.begun.by and event.after < last for event in between)
        return count

    # Lists of callers.

    def made_by(self, event):
        """What a call should have come to the history as; a function says it of one whose entry is not known from this alone."""
        call, answer = event.call, event.answer
        if call[0] == "import" and answer[0] == "refused":
            return [lambda made: made[0] == call and made[1][0] == "parts"]
        if answer[0] in ("refused", "abandoned") or answer == ["no", "slot"] or call[0] == "begin":
            return []
        if call[0] == "step":
            made = self.slots[call[1]].call
            return [] if answer[0] == "moved" or made[0] == "scan" else [(made, answer)]
        if call[0] in ("update", "fetch"):
            return [functools.partial(is_fetch, call, answer)]
        if call[0] in ("transfer", "exchange"):
            wrote = transfer_of(call, answer) if call[0] == "transfer" else exchange_of(call, answer)
            return [wrote, is_flush] if call[-1] == "yes" else [wrote]
        if call[0] == "id_inside":
            return [functools.partial(is_transaction, ["transaction", "1", *call[1:3], "1", call[3], word_of(int(answer[1]))])]
        return [(call, ["done"] if call[0] == "next" else answer)]

    def match_all(self):
        """Each caller's calls are its entries, in order. Sets the event of each entry."""
        self.event_of = [None] * len(self.history)
        for number, events in self.callers.items():
            mine = iter([at for at, (by, *_) in enumerate(self.history) if by == number])
            for event in events:
                self.match(event, mine)
            require(next(mine, None) is None, "caller", number, "did not make all of its entries")
        stray = [by for (by, *_), event in zip(self.history, self.event_of) if not event]
        require(not stray, "an entry is that of", stray, "who is no caller")

    def match(self, event, mine):
        last = None
        for wanted in self.made_by(event):
            at = next(mine, None)
            require(at is not None, "no entry is left for", event)
            made = self.history[at][1:]
            require(wanted(made) if callable(wanted) else wanted == made, "the entry", made[0], made[1], "stands where this should:", event)
            require(last is None or at == last + 1, "an entry stands inside of", event)
            if event.call[0] == "transfer" and last is None:
                stood = self.maps.named(*event.call[1:3]).values(event.call[3], at, at)
                require(stood == [event.answer[1]], "a transaction read what did not stand there:", event)
            if event.call[0] == "next":
                require(event.answer == self.maps.taken[at + 1], "not that was next for the subscriber, but", self.maps.taken[at + 1], event)
            self.event_of[at], last = event, at

    def check_numbers(self):
        """Callers are numbered one after the other, and those of a later round behind all that made something before."""
        before = 0
        for number, callers in enumerate(self.rounds, 1):
            require(sorted(callers) == [*range(before + 1, before + 1 + len(callers))], "callers are numbered", sorted(callers))
            before = max([before, *(event.by for event in self.event_of if event.round == number)])

    def check_ids(self):
        """Ids rise by the history, and so do those that transactions took."""
        for event in self.event_of:
            if event.call[0] in ("id", "id_inside"):
                number = int(event.answer[1])
                require(number > self.maps.last_id, "the id", number, "comes after", self.maps.last_id)
                self.maps.last_id = number

    # Time.

    def in_time(self, events, what):
        """What ended before another began is before it."""
        latest = 0
        for event in events:
            require(latest < event.after, what, "are not in the order of time:", event)
            latest = max(latest, event.before)

    def find_times(self):
        ends = sorted((event.after, at) for at, event in enumerate(self.event_of))
        begins = sorted((event.before, at) for at, event in enumerate(self.event_of))
        self.ends, self.ended = [tick for tick, _ in ends], [0, *itertools.accumulate((at + 1 for _, at in ends), max)]
        self.begins = [tick for tick, _ in begins]
        self.begun = [*itertools.accumulate((at for _, at in reversed(begins)), min, initial=len(self.history))][::-1]

    def first_state(self, tick):
        """The earliest state that there may have been then."""
        return self.ended[bisect.bisect_left(self.ends, tick)]

    def last_state(self, tick):
        return self.begun[bisect.bisect_right(self.begins, tick)]

    def values(self, tree, key, first, last):
        """What a key may have had from one moment to another."""
        return tree.values(key, self.first_state(first), self.last_state(last))

    # Refusals, and what is given up.

    def check_refusal(self, event):
        call = self.slots[event.call[1]].call if event.call[0] == "step" else event.call[event.call[0] == "begin" :]
        require(call[0] not in ("flush", "id", "names", "export", "open", "drop", "next", "unsubscribe"), "a refusal:", event)
        if event.answer == ["refused", "E2"]:
            require(call[0] == "import" or call[0] == "merge" and call[1] != FIRST, "there is an operator:", event)
            return
        require(event.answer == ["refused", "E1"], "a refusal:", event)
        trees = list(trees_in(call))
        gone = [tree for tree in trees if (died := self.maps.named(*tree).died) is not None and died <= self.last_state(event.after)]
        require(gone, "no tree is gone:", event)

    def check_events(self):
        for event in self.events:
            if event.answer[0] == "refused":
                self.check_refusal(event)
            elif event.answer[0] == "abandoned" and event.call[0] != "abandon":
                require(event.call[0] == "transfer", event, "is no answer")
                values = self.values(self.maps.named(*event.call[1:3]), event.call[3], event.before, event.after)
                require("-" in values, "there was a value:", event)

    # Scans.

    def check_scan(self, slot):
        (_, name, number, *bounds, back), begun = slot.call, slot.begun.before
        tree, down = self.maps.named(name, number), back == "yes"
        given = sorted((event for event in slot.steps if event.answer[0] == "pair"), key=lambda it: bytes_of(it.answer[1]), reverse=down)
        keys = [event.answer[1] for event in given]
        require(len(keys) == len({*keys}), "a scan gives a key twice:", slot.begun)
        self.in_time(given, "pairs of a scan")
        for event in given:
            key, value = event.answer[1:]
            require(is_within(key, bounds), "the key is not in the range:", event)
            require(value in self.values(tree, key, begun, event.after), "no such pair was there:", event)
        if slot.end and slot.end.answer == ["end"]:
            self.check_missing(tree, slot, keys, [key for key in tree.log if is_within(key, bounds)], slot.end)
        elif keys:
            last = bytes_of(keys[-1])
            passed = [key for key in tree.log if is_within(key, bounds) and (bytes_of(key) > last if down else bytes_of(key) < last)]
            self.check_missing(tree, slot, keys, passed, max(given, key=lambda it: it.after))

    def check_missing(self, tree, slot, given, passed, end):
        for key in {*passed} - {*given}:
            require("-" in self.values(tree, key, slot.begun.before, end.after), "a scan misses the key", key, "which was there throughout:", slot.begun)

    # What scans did.

    def note(self, slot, at, did):
        """The event of a note. It is of a scan, and the history had so many entries as that was made."""
        require(slot in self.slots and self.slots[slot].call[0] == "scan", "a note is of no scan:", slot, did)
        scan = self.slots[slot]
        made = [scan.begun] if did == scan.call else [event for event in scan.steps if event.answer == did]
        require(len(made) == 1 and self.first_state(made[0].before) <= at <= self.last_state(made[0].after), "no such step was made then:", slot, str(at), did)
        return made[0]

    def check_notes(self):
        """All that scans did is noted, once, in the order in which it was done."""
        noted = [self.note(*note) for note in self.notes]
        require(all(one[1] <= other[1] for one, other in zip(self.notes, self.notes[1:])), "notes are not in the order of the history")
        self.in_time(noted, "notes")
        scans = [slot for slot in self.slots.values() if slot.call[0] == "scan"]
        done = [event for slot in scans for event in (slot.begun, *slot.steps) if event.answer[0] in ("slot", "pair", "end")]
        require(self.all_noted == "yes" and len(noted) == len({*map(id, noted)}) == len(done), "not all that scans did is noted, once")

    def check(self, left):
        """Checks it all, with the maps in the end."""
        for by, call, reply in self.history:
            self.maps.enter(call, reply)
        require(self.maps.image() == left, "other maps are there in the end")
        self.find_slots()
        self.match_all()
        self.check_numbers()
        self.check_ids()
        self.in_time(self.event_of, "entries")
        self.find_times()
        self.check_slots()
        self.check_events()
        self.check_notes()
        for slot in self.slots.values():
            if slot.call[0] == "scan":
                self.check_scan(slot)


def is_fetch(call, answer, made):
    """Whether an entry is that of a fetch, which was told this."""
    (kind, name, number, key, more), (swap, reply) = call, made
    if swap[:4] != ["swap", name, number, key] or reply != ["swapped"]:
        return False
    return swap[5] == added(swap[4], int(more)) and answer == ["value", swap[5 if kind == "update" else 4]]


def transfer_of(call, answer):
    """What a transaction wrote that moved a value from one key to another."""
    (tree, (source, target)), value = (call[1:3], call[3:5]), answer[1]
    writes = {target: value} if source == target else {source: "-", target: value}
    words = itertools.chain(*((key, writes[key]) for key in sorted(writes, key=bytes_of)))
    return functools.partial(is_transaction, ["transaction", "1", *tree, str(len(writes)), *words])


def exchange_of(call, answer):
    """The entry of a transaction of two trees, each of which got what the other had at a key."""
    one, other, key, (first, second) = call[1:3], call[3:5], call[5], answer[1:]
    return ["transaction", "2", *one, "1", key, second, *other, "1", key, first], ["stood", first, second]


def is_flush(made):
    """Whether an entry is that of a flush."""
    return made[0] == ["flush"]


def is_transaction(call, made):
    """Whether an entry is that of a transaction that wrote this. What was there is compared with the maps."""
    return made[0] == call


def trees_in(call):
    """The trees that a call names."""
    if call[0] not in ("group", "transaction"):
        yield tuple(call[1:3])
        if call[0] == "exchange":
            yield tuple(call[3:5])
        return
    words = iter(call[2:])
    for _ in range(int(call[1])):
        yield next(words), next(words)
        for _ in range(2 * int(next(words))):
            next(words)


class Checker:
    """Reads the lines one after the other."""

    def __init__(self):
        self.last_id, self.opening, self.by, self.left, self.counts = 0, None, None, None, {"openings": 0, "calls": 0, "entries": 0, "interleaved": 0, "pairs": 0, "events": 0, "missed": 0}

    def read(self, line):
        words = line.split(" ")
        kind, rest = words[0], words[1:]
        if kind.isdigit():
            self.opening.add_event(self.by, words)
        elif kind == "entry":
            at = rest.index("=")
            self.opening.history.append((int(rest[0]), rest[1:at], rest[at + 1 :]))
        elif kind == "note":
            self.opening.notes.append((rest[0], int(rest[1]), rest[2:]))
        elif kind == "notes":
            self.opening.all_noted = rest[0]
        elif kind == "caller":
            self.by = int(rest[0])
            self.opening.add_caller(self.by, rest[1])
        elif line in ("gathered", "missing", "reclaimed"):
            self.opening.take(line)
        elif line == "again":
            self.opening.rounds.append(set())
        elif kind == "id":
            self.next_id = int(rest[0])
        elif kind == "opened":
            self.open(image_of(rest))
        elif kind in ("flushed", "unflushed"):
            self.share(kind == "flushed", *rest)
        elif kind == "left":
            self.end(image_of(rest))
        else:
            require(kind == "crash", "this is no line:", line)

    def share(self, flushes, key, value):
        """A pair was set before the database was shared. If that flushed nothing, a crash may also leave what was there before."""
        before = self.opening.maps.image()
        self.opening = Opening({**before, FIRST: {**before[FIRST], key: value}}, self.last_id)
        if not flushes:
            self.opening.maps.left.insert(0, before)

    def end(self, left):
        opening = self.opening
        opening.check(left)
        self.left, self.last_id = opening.maps.left, opening.maps.last_id
        given = sum(event.answer[0] == "pair" for slot in opening.slots.values() for event in slot.steps if slot.call[0] == "scan")
        heard = [event.answer for event in opening.events if event.call[0] == "next" and event.answer != NOTHING]
        missed = sum(int(answer[2]) for answer in heard if answer[1] == "missed")
        for name, more in (("openings", 1), ("calls", len(opening.events)), ("entries", len(opening.history)), ("interleaved", opening.interleaved()), ("pairs", given), ("events", len(heard)), ("missed", missed)):
            self.counts[name] += more

    def open(self, image):
        require(self.left is not None or image == {FIRST: {}} and not self.opening, "a database is new, and has this:", words_of(image))
        require(self.left is None or image in self.left, "a crash left what was not there since the last flush:", words_of(image))
        require(self.next_id > self.last_id, "the id", self.next_id, "is given after", self.last_id, "and a crash")
        self.last_id, self.left, self.opening = self.next_id, None, Opening(image, self.next_id)


def check(text):
    """Checks lines, of which there are all: what is wrong, or None, and how many of what there were."""
    checker = Checker()
    try:
        require(text.endswith("\n"), "the lines are cut")
        for line in text.split("\n")[:-1]:
            checker.read(line)
        require(checker.opening and not checker.opening.events, "behind the last crash nothing was opened")
    except Wrong as wrong:
        return str(wrong), checker.counts
    except (AttributeError, IndexError, KeyError, StopIteration, TypeError, ValueError) as error:
        return f"{UNREAD}: {error!r}", checker.counts
    return None, checker.counts
