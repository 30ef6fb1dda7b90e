"""Lines that look random, each by a seed and a count, and what the oracle says that they print: many calls in flight at once (`Crowd`), scans
beside what changes their trees (`Scans`), and images of pages, of which most are damaged (`Images`). And lines that do not: an image that
needs very many repairs (`Leaves`)."""
import random
from dataclasses import replace
import images
from oracle import TREE, Node, Shell, word

# So many calls are in flight.
FLIGHTS = 8
# A crash that keeps so many actions keeps all.
ALL = 2**32


class Lines:
    """Lines for the shell, and what each of them prints: a text for each line that is printed, or a set of such texts."""

    def __init__(self, seed):
        self.dice, self.shell, self.lines, self.wanted = random.Random(seed), Shell(), [], []

    def once_in(self, count):
        return self.dice.randrange(count) == 0

    def add(self, line, wanted):
        self.lines.append(line)
        self.wanted.append(wanted)

    def ask(self, line):
        """A line that prints what the oracle says."""
        printed = self.shell.run(line)
        self.add(line, printed)
        return printed

    def begin(self, call):
        """A call begins: its slot."""
        return int(self.ask(f"begin {call}")[0].removeprefix("slot "))

    def goes_on(self, slot):
        """A step of a call: whether it is in flight still."""
        printed = self.ask(f"step {slot}")[0]
        return printed == "moved" or printed.startswith("pair ")

    def crash(self, keep):
        self.ask(f"crash {keep}")
        self.ask("dump")


class Crowd(Lines):
    """So many calls. Databases live one after the other, each up to a crash and from what it left: in most of them eight calls over 300 keys
    are in flight, and the tree grows or shrinks; in others anything is done to slots that may be any, over five keys."""

    KEYS = ["a", "b", "%", "abc", "b0"]

    def __init__(self, seed, count):
        super().__init__(seed)
        self.left, life = count, 0
        while self.left > 0:
            self.live(life)
            life += 1

    def live(self, life):
        steps = {0: 2000, 4: 400}.get(life % 8, 50)
        if life % 4 == 3:
            self.mix(steps)
        else:
            self.eight(steps, life % 32 < 16)
        ending = self.dice.randrange(4)
        if ending == 1:
            self.ask("flush")
        self.crash(0 if ending == 1 else self.dice.randrange(30) if ending > 1 and steps == 50 else ALL)

    def begin(self, call):
        self.left -= 1
        return super().begin(call)

    def value(self):
        return self.dice.choice("123")

    def wide(self, grows):
        """A call where the tree grows, or shrinks."""
        key = word(self.dice.randrange(300).to_bytes(2, "big"))
        kind = self.dice.randrange(8)
        if kind == 7:
            return f"get {key}"
        return f"insert {key} {self.value()}" if (kind < 6) == grows else f"remove {key}"

    def any_call(self):
        """A call of any kind."""
        key = self.dice.choice(self.KEYS)
        inserts, changes = [f"insert {key} {self.value()}"] * 3, [f"get {key}", f"remove {key}"]
        swaps = [f"cas {key} - {self.value()}", f"cas {key} {self.value()} -", f"cas {key} {self.value()} {self.value()}"]
        return self.dice.choice(inserts + changes + swaps)

    def eight(self, steps, grows):
        slots = []
        for step in range(steps):
            while len(slots) < FLIGHTS and self.left > 0:
                slots.append(self.begin(self.wide(grows)))
            if not slots:
                return
            slot = self.dice.choice(slots)
            if not self.goes_on(slot):
                slots.remove(slot)
            elif self.once_in(64):
                self.ask(f"abandon {slot}")
                slots.remove(slot)
            if step % 50 == 0:
                self.ask("dump")

    def mix(self, steps):
        for step in range(steps):
            slot = max(self.shell.begun - self.dice.randrange(4) + self.dice.randrange(2), 0)
            move = self.dice.randrange(16)
            if move < 5 and self.left > 0:
                self.begin(self.any_call())
            elif move == 5:
                self.ask(f"abandon {slot}")
            elif move == 6:
                self.ask("flush")
            else:
                self.ask(f"step {slot}")
            if step % 5 == 0:
                self.ask("dump")


class Scans(Lines):
    """So many steps of scans and writes, eight in flight at once, over two trees. The second is dropped and made anew now and then. A crash
    keeps all. Of eight lines one gives a pair at least."""

    LIFE = 3000

    def __init__(self, seed, steps):
        super().__init__(seed)
        for before in range(0, steps, self.LIFE):
            self.live(min(steps - before, self.LIFE))
            self.crash(ALL)
        pairs = sum(printed[0].startswith("pair ") for printed in self.wanted if printed)
        assert pairs * 8 >= steps, "few pairs are given"

    def live(self, steps):
        slots = []
        for step in range(steps):
            if len(slots) < FLIGHTS:
                slots.append(self.begin_some(step % 1000 < 500))
                continue
            slot, what = self.dice.choice(slots), self.dice.randrange(512)
            if what == 0:
                self.ask("tree t")
                self.ask("drop t")
            elif what < 5:
                self.ask(f"abandon {slot}")
                slots.remove(slot)
            elif not self.goes_on(slot):
                slots.remove(slot)

    def begin_some(self, grows):
        """A scan or a write begins on one of the trees, which is the current one then."""
        self.ask(f"tree {self.dice.choice([word(TREE), 't'])}")
        return self.begin(self.scan() if self.once_in(3) else self.write(grows))

    def key(self):
        return bytes([self.dice.randrange(64)])

    def scan(self):
        """A scan whose bounds are mostly in order."""
        keys = self.key(), self.key()
        lo, hi = keys if self.once_in(16) else sorted(keys)
        bounds = [self.dice.choice(["..", f"[{word(key)}", f"({word(key)}"]) for key in (lo, hi)]
        return " ".join([self.dice.choice(["scan", "scan-back"]), *bounds])

    def write(self, grows):
        """Mostly an insert, or mostly a removal."""
        key = word(self.key())
        return f"remove {key}" if self.once_in(6) == grows else f"insert {key} {self.dice.choice('123')}"


class Image:
    """Pages and roots: trees of one to three levels with half-done splits and merges in them, most of them damaged in a few places."""

    DAMAGES = [0, 0, 0, 1, 1, 2, 3]

    def __init__(self, dice):
        self.dice, self.pages, self.roots = dice, {}, {}
        self.numbers = dice.sample(range(1, 400), 200)
        for name in dice.choice([[TREE], [TREE], [TREE, b"t"]]):
            self.tree(name)
        for _ in range(dice.choice(self.DAMAGES)):
            self.damage()

    def keys(self, count):
        return sorted({self.dice.randbytes(self.dice.choice([1, 1, 2])) for _ in range(count)})

    def tree(self, name):
        """A well-formed tree, from the leaves up."""
        dice = self.dice
        bounds, level = [b""] + self.keys(dice.choice([0, 1, 1, 2, 4, 9])), []
        for lo, hi in zip(bounds, bounds[1:] + [b""]):
            within = [key for key in self.keys(dice.randrange(60)) if lo <= key and (hi == b"" or key < hi)]
            level.append(self.add(Node(lo, hi, entries=tuple((key, dice.randbytes(1)) for key in within[:33]))))
        self.chain(level)
        for _ in range(dice.choice([0, 1, 1, 2, 2])):
            level = self.above(level)
        self.roots[name] = level[0]

    def add(self, node):
        pid = self.numbers.pop()
        self.pages[pid] = node
        return pid

    def chain(self, level):
        for pid, next in zip(level, level[1:]):
            self.pages[pid] = replace(self.pages[pid], next=next)

    def above(self, below):
        """A level over these pages. Of each of its pages the first pointer is there, and others may be missing."""
        dice = self.dice
        starts = [0] + sorted(dice.sample(range(1, len(below)), dice.randrange(min(3, len(below)))))
        level = []
        for start, end in zip(starts, starts[1:] + [len(below)]):
            parts = [below[start]] + [pid for pid in below[start + 1:end] if dice.random() < 0.8]
            hi = self.pages[below[end]].lo if end < len(below) else b""
            level.append(self.add(Node(self.pages[below[start]].lo, hi, leaf=False, entries=tuple((self.pages[pid].lo, pid) for pid in parts))))
        self.chain(level)
        for pid in level:
            if dice.random() < 0.5 and len(self.pages[pid].entries) > 1:
                self.merge(pid, below)
        return level

    def merge(self, parent, below):
        """Begins a merge under an index, and leaves it somewhere."""
        child = self.dice.choice(self.pages[parent].entries[1:])[1]
        node, stage = self.pages[child], self.dice.randrange(4)
        left = below[below.index(child) - 1]
        if len(node.entries) > 17 or node.child is not None:
            return
        self.pages[parent] = replace(self.pages[parent], child=child)
        if stage > 0:
            node = self.pages[child] = replace(node, merging=True)
        whole = self.pages[left].entries + node.entries
        if stage > 1 and len(whole) <= 33:
            self.pages[left] = replace(self.pages[left], hi=node.hi, next=node.next, entries=whole)
            below.remove(child)
        if stage > 2 and child not in below:
            entries = tuple(entry for entry in self.pages[parent].entries if entry[1] != child)
            self.pages[parent] = replace(self.pages[parent], child=None, entries=entries)

    def page(self):
        return self.dice.choice([*self.pages, *self.pages, 999])

    def damage(self):
        """Makes one place another."""
        dice = self.dice
        pid = dice.choice(list(self.pages))
        node = self.pages[pid]
        entries, at = list(node.entries), dice.randrange(len(node.entries) + 1)
        what = dice.randrange(11)
        if what == 0:
            node = replace(node, lo=dice.choice([b"", dice.randbytes(1)]))
        elif what == 1:
            node = replace(node, hi=dice.choice([b"", dice.randbytes(1)]))
        elif what == 2:
            node = replace(node, next=dice.choice([None, self.page()]))
        elif what == 3:
            node = replace(node, merging=not node.merging)
        elif what == 4:
            node = replace(node, child=dice.choice([None, self.page()]))
        elif what == 5:
            entries.insert(at, (dice.randbytes(1), b"x" if node.leaf else self.page()))
        elif what == 6 and entries:
            entries.pop(min(at, len(entries) - 1))
        elif what == 7 and entries:
            dice.shuffle(entries)
        elif what == 8 and not node.leaf and entries:
            at = min(at, len(entries) - 1)
            entries[at] = entries[at][0], self.page()
        elif what == 9:
            entries += [(bytes([255, n]), b"x" if node.leaf else self.page()) for n in range(dice.choice([1, 17, 34]))]
        elif what == 10:
            self.roots[dice.choice([TREE, b"t", b"u"])] = self.page()
        self.pages[pid] = replace(node, entries=tuple(entries))
        if dice.random() < 0.05 and len(self.pages) > 1:
            del self.pages[pid]

    def lines(self):
        """The lines that note the pages in any order, and then the roots."""
        texts = []
        for pid, node in self.pages.items():
            kind = "odd-leaf" if node.leaf and node.child is not None else "leaf" if node.leaf else "index"
            words = ["page", pid, kind, word(node.lo), word(node.hi), number(node.next), "merging" if node.merging else "open"]
            words += [number(node.child)] * (kind != "leaf")
            for key, value in node.entries:
                words += [word(key), word(value) if node.leaf else value]
            texts.append(" ".join(map(str, words)))
        self.dice.shuffle(texts)
        return texts + [f"root {word(name)} {pid}" for name, pid in self.roots.items()]

    def wrong(self):
        return images.faults(self.pages.get, self.roots)


def number(pid):
    return "-" if pid is None else pid


class Images(Lines):
    """So many images. One that is well formed is opened, written to and opened again after a crash, checked each time; another one is
    refused for something that is wrong with it. A third of them are well formed at least."""

    WRITES = 24

    def __init__(self, seed, count):
        super().__init__(seed)
        opened = sum(self.image(Image(self.dice)) for _ in range(count))
        assert opened * 3 >= count, f"of {count} images {opened} are well formed"

    def image(self, image):
        """Whether an image is well formed."""
        for line in image.lines():
            self.ask(line)
        wrong = image.wrong()
        if wrong:
            self.refused({f"corrupt {code}" for code in wrong})
            return False
        self.ask("image")
        self.ask("verify")
        self.ask("dump")
        for _ in range(self.WRITES):
            self.write()
        self.ask("dump")
        self.ask(f"crash {self.dice.randrange(60)}")
        self.ask("verify")
        self.ask("dump")
        return True

    def refused(self, texts):
        """Which of the things that are wrong is told is not for the oracle to say."""
        for line, wanted in ("image", texts), ("verify", texts), ("dump", "refused E8"):
            self.shell.run(line)
            self.add(line, [wanted])

    def write(self):
        """A call that is made to its end, or a few steps of it."""
        key = word(self.dice.randbytes(self.dice.choice([0, 1, 1, 2])))
        slot = self.begin(f"remove {key}" if self.once_in(3) else f"insert {key} {self.dice.choice('123')}")
        if not self.once_in(4):
            self.ask(f"finish {slot}")
            return
        if all(self.goes_on(slot) for _ in range(self.dice.randrange(9))):
            self.ask(f"abandon {slot}")


class Leaves(Lines):
    """So many empty leaves under indexes of 16 pointers, as another program may make them. A call behind the last leaf merges each leaf into
    the one before it, and is refused for its turns where there are 80,000. What a batch repaired is taken back by `recover`, so it is
    refused again. What a call on a key repaired stays, also one in flight, so the next one is made."""

    WIDTH = 16

    def __init__(self, seed, count):
        super().__init__(seed)
        keys = ["%", *(f"{place:05x}" for place in range(1, count)), "%"]
        level = self.chain("leaf", 1, keys, [""] * count)
        while len(level) > 1:
            groups = [level[at:at + self.WIDTH] for at in range(0, len(level), self.WIDTH)]
            pointers = [" - " + " ".join(f"{key} {pid}" for key, pid in group) for group in groups]
            level = self.chain("index", level[-1][1] + 1, [*(group[0][0] for group in groups), "%"], pointers)
        self.add(f"root {word(TREE)} {level[0][1]}", ["noted"])
        self.add("image", ["opened"])
        for line, wanted in [
            ("batch z 1 zz 2", "refused E3"), ("get z", "refused E8"), ("recover", "opened"), ("batch z 1 zz 2", "refused E3"),
            ("recover", "opened"), ("begin get z", "slot 1"), ("finish 1", "refused E3"), ("insert z 0", "old -"), ("batch z 1 zz 2", "done"),
            ("get z", "value 1"), ("get zz", "value 2"), ("verify", "sound")]:
            self.add(line, [wanted])

    def chain(self, kind, first, keys, pointers):
        """Pages of one level, each beside the next: their first keys and numbers."""
        last = first + len(pointers) - 1
        for pid, (lo, hi, has) in enumerate(zip(keys, keys[1:], pointers), first):
            self.add(f"page {pid} {kind} {lo} {hi} {'-' if pid == last else pid + 1} open{has}", ["noted"])
        return [(lo, pid) for pid, lo in enumerate(keys[:-1], first)]


KINDS = {"crowd": Crowd, "scans": Scans, "images": Images, "leaves": Leaves}
