"""The lines that were run on the page so far, and all that there is to see of them. The shell itself answers them, as a process that is
handed a line at a time. What no line of it tells is from its witness (witness.py)."""
import contextlib
import functools
import pathlib
import random
import re
import string
import threading

from drawing import LINE, is_drawing
from engine import Shell
from oracle import word
from page import tree
from page.witness import Witness
from spelling import Mistyped, words_of

TOP = pathlib.Path(__file__).resolve().parents[2]
# So long the shell may take for a line, in seconds, and so many pairs a line may fill in.
PATIENCE, MOST_FILLED = 300, 1000
# So many of the events that wait for a subscriber are told, and so many calls begin among lines that look random.
MOST_EVENTS, MOST_CALLS = 8, 3
# What would end the shell, and what opens a store, and so ends what is in flight.
ENDS, OPENS = {"quit", "exit"}, {"crash", "new", "reopen", "recover", "image"}
# The lines that decide a call at once. Some are done in parts, each of which a crash may leave without the next.
WRITES = {"insert", "set", "put", "remove", "del", "cas", "merge", "update", "fetch", "pop-min", "pop-max", "batch", "group", "remove-range", "tx", "tx-all", "drop"}
IN_PARTS = {"fill", "clear", "import", "import-type", "import-all"}
STILL_IN_FLIGHT = re.compile(r"moved|no slot|pair |end$|refused")


class Unread(Exception):
    """Why a line is not run."""


def said_by(shell, line):
    """What the shell answers to a line, line by line."""
    return b"".join(shell.ask(line)).decode(errors="replace").splitlines()


def begun(path):
    """A shell that waits for its first line."""
    shell = Shell(path)
    for _ in shell.answer():
        pass
    return shell


def end(shell):
    shell.process.kill()
    shell.status()


@contextlib.contextmanager
def apart(path, lines=()):
    """A shell of its own that was handed these lines, for what changes more than it tells."""
    shell = begun(path)
    try:
        for line in lines:
            said_by(shell, line)
        yield shell
    finally:
        end(shell)


def names_in(shell):
    """The names of the trees that a shell has."""
    return [line.split(" ")[1] for line in said_by(shell, "names") if line.startswith("name ")]


def drawing_of(shell, name):
    """What `draw links` prints of a tree, which is the current one from then on."""
    said_by(shell, f"tree {name}")
    return said_by(shell, "draw links")


def file_words(path):
    """The first words of the lines that name a file, by the help of the shell."""
    with apart(path) as shell:
        texts = [text for line in ("help", "help tests") for text in said_by(shell, line)]
    entries = [entry.strip() for text in texts for entry in re.split(r", |: ", text)]
    words = {entry.split(" ")[0] for entry in entries if re.fullmatch(r"[a-z-]+( [A-Za-z-]+)* FILE", entry)}
    if "run" not in words:
        raise RuntimeError("the help of the shell does not say which lines name files")
    return words


def maps_of(said):
    """The pairs of each tree, of what `dump` printed."""
    maps = {}
    for name, key, value in (line.split(" ")[1:] for line in said if line.startswith("pair ")):
        maps.setdefault(name, []).append([key, value])
    return maps


def spelled_line(text):
    """A line that somebody typed, as the shell is to have it: quotes hold any bytes."""
    try:
        return text if text.startswith("#") else " ".join(spells for _, spells in words_of(text))
    except Mistyped as why:
        raise Unread(str(why)) from None


@functools.lru_cache(None)
def meanings():
    """What is wrong where pages are refused, by the code that tells it, as crates/sledsh/README.md has it."""
    page = (TOP / "crates/sledsh/README.md").read_text(encoding="utf-8")
    return dict(re.findall(r"^\| (\d+) \| (.+) \|$", page.partition("| code | what is wrong |")[2], re.M))


def meaning(said):
    """What is wrong with pages that were refused, or nothing."""
    code = re.fullmatch(r"corrupt (\d+)", said[-1]) if said else None
    return meanings().get(code[1], "") if code else ""


def event_told(key, value):
    return f"remove {word(key)}" if value is None else f"insert {word(key)} {word(value)}"


class History:
    """The calls that were decided, and the flushes and openings between them, in their order."""

    def __init__(self):
        self.entries, self.begun = [], {}

    def note(self, line, answer, tree, counts):
        """Notes what a line decided on a tree, or ended. It had so many actions since the flush before it, and so many after it."""
        name, *rest = line.removeprefix("owned ").split(" ")
        if answer.startswith("slot "):
            self.begun[int(answer[5:])] = " ".join(rest), tree
        elif name in ("step", "finish"):
            if not STILL_IN_FLIGHT.match(answer):
                self.decided(*self.begun[int(rest[0])], answer, counts, int(rest[0]))
        elif name == "flush":
            self.entries.append({"mark": name, "text": "flush: all above is durable"})
        elif name in OPENS:
            self.opened(name, rest, answer, counts[0])
        elif name in WRITES | IN_PARTS | {"get"} and not answer.startswith("refused"):
            self.decided(line, tree, answer, counts)

    def decided(self, call, tree, answer, counts, slot=None):
        name, (count, end) = call.split(" ")[0], counts
        kind = "read" if name == "get" or answer == "aborted" else "parts" if name in IN_PARTS else "write"
        # A tree is dropped by the first action; the others free its pages.
        end = count + 1 if name == "drop" else end
        self.entries.append({"call": call, "answer": answer, "slot": slot, "kind": kind, "tree": tree, "from": count, "to": end})

    def opened(self, name, rest, answer, count):
        """An opening, after so many actions. What a crash did not keep is lost from then on."""
        if name == "crash" and answer.startswith("recovered"):
            last = max((at for at, it in enumerate(self.entries) if "mark" in it), default=-1)
            for entry in self.entries[last + 1 :]:
                entry["lost"] = entry["kind"] != "read" and entry["to"] > int(rest[0])
            text = f"a crash that kept {min(int(rest[0]), count)} of {count} actions: what is left is durable"
        else:
            text = f"{' '.join([name, *rest])}: {answer}"
        self.entries.append({"mark": name, "text": text})


class Session:
    """Lines, from an empty database on."""

    def __init__(self, path):
        self.path, self.refused, self.lock = path, file_words(path) | ENDS, threading.Lock()
        self.shell, self.columns, self.is_kept_shown = None, 4, False
        self.start([])

    # What changes.

    def start(self, lines):
        """Begins anew with these lines."""
        self.close()
        self.shell, self.witness, self.history = begun(self.path), Witness(), History()
        # The lines with their answers; the pages as they were shown last, and before that; and what crashes leave.
        self.lines, self.shown, self.before, self.left = [], {}, {}, {}
        # From which line on all is new to who sees the page.
        self.first = 0
        for line in lines:
            self.add(line)

    def close(self):
        if self.shell:
            end(self.shell)

    def add(self, line):
        """Runs a line, and only keeps one that is a comment."""
        if line.startswith("#"):
            self.lines.append({"line": line, "said": [], "did": [], "took": None, "means": ""})
        elif line:
            self.run(line)

    def run(self, line):
        self.check(line)
        self.before, count = self.shown, self.witness.count()
        said = self.ask(line)
        if said and said[0].startswith("bad line"):
            raise Unread(said[0].partition(": ")[2])
        took = self.witness.taken(line) if said[-1:] and said[-1].startswith("recovered") else None
        did = self.witness.hear(line, said)
        self.lines.append({"line": line, "said": said, "did": did, "took": took, "means": meaning(said)})
        self.history.note(line, said[-1] if said else "", self.current(), (count, self.witness.count()))
        self.left = {}

    def check(self, line):
        """What the page does not hand to the shell."""
        name, *rest = line.split(" ")
        if not line.isprintable():
            raise Unread("a byte that is no sign is spelled %0a, or so")
        if name in ENDS:
            raise Unread("the page ends with the terminal that it was begun at")
        if name in self.refused:
            raise Unread("the page reads and writes no file; ./run --shell does")
        if name == "fill" and rest and rest[0].isdecimal() and int(rest[0]) > MOST_FILLED:
            raise Unread(f"the page fills in {MOST_FILLED} pairs at the most; ./run --shell knows no such limit")

    def ask(self, line):
        """The answer to a line. A shell that takes too long is ended, and another made that ran all lines but this."""
        timer = threading.Timer(PATIENCE, self.shell.process.kill)
        timer.start()
        said = said_by(self.shell, line)
        timer.cancel()
        if not self.shell.is_there:
            self.start([it["line"] for it in self.lines])
            raise Unread(f"the shell ended here, or took more than {PATIENCE} seconds; all lines before this one were run again")
        return said

    def random(self, count, seed):
        """So many lines that look random: calls begin, and make steps."""
        dice = random.Random(seed)
        for _ in range(count):
            slots = sorted(self.witness.shell.slots)
            if not slots or len(slots) < MOST_CALLS and dice.random() < 0.3:
                key = dice.choice(string.ascii_lowercase)
                self.run("begin " + dice.choice([f"insert {key} {dice.randrange(100)}"] * 5 + [f"remove {key}"] * 2 + [f"get {key}"]))
            else:
                self.run(f"step {dice.choice(slots)}")

    # What there is to see.

    def ran(self):
        """The lines that the shell was handed, and what it answered to each."""
        return [(it["line"], it["said"]) for it in self.lines if not it["line"].startswith("#")]

    def apart(self):
        """A shell of its own that ran the same lines."""
        return apart(self.path, [line for line, _ in self.ran()])

    def current(self):
        """The name of the current tree."""
        return word(self.witness.shell.handle[1])

    def drawings(self):
        """What `draw links` prints of each tree, the current one first. Another one has to be made current for that."""
        drawn = {self.current(): said_by(self.shell, "draw links")}
        others = [name for name in names_in(self.shell) if name != self.current()]
        if others:
            with self.apart() as shell:
                drawn |= {name: drawing_of(shell, name) for name in others}
        return drawn

    def calls(self):
        """The calls in flight: what each is, where it is, and what its next step does."""
        if self.witness.fault:
            return []
        flights = sorted(self.witness.shell.slots.items())
        return [
            {"slot": slot, "call": self.history.begun[slot][0], "tree": word(tree.name), "at": self.witness.places.get(slot), "where": self.witness.place(slot), "next": Witness.after(self.ran()).step(slot)}
            for slot, (_, _, tree) in flights
        ]

    def subscribers(self):
        """Who waits for events, and for which, the oldest first."""
        return [
            {"tree": word(name), "prefix": word(prefix), "missed": missed, "count": len(events), "events": [event_told(*it) for it in list(events)[:MOST_EVENTS]]}
            for name, prefix, missed, events in ([] if self.witness.fault else self.witness.subscribers())
        ]

    def trees(self, calls):
        """Each tree as it is drawn, the current one first. Pages that are in none come with that one."""
        drawings = [(name, said, [line for line in said if is_drawing(line)]) for name, said in self.drawings().items()]
        self.shown = pages_of(line for _, _, lines in drawings for line in lines)
        loose = [] if self.witness.fault else self.witness.loose(self.shown)
        self.shown |= pages_of(line for line, _ in loose)
        return [self.tree(name, said, lines, loose if at == 0 else [], calls) for at, (name, said, lines) in enumerate(drawings)]

    def tree(self, name, said, lines, loose, calls):
        at, at_root = {}, []
        there = pages_of([*lines, *(line for line, _ in loose)])
        for call in calls:
            if call["tree"] == name:
                number = str(call["at"])
                (at.setdefault(number, []) if number in there else at_root).append(f"{call['slot']}: {call['call']}")
        look = tree.Look(at, at_root, self.before, self.columns, self.is_kept_shown)
        changed = [number for number, known in there.items() if look.is_changed(number, known)]
        return {"name": name, "svg": tree.drawn(lines, loose, look), "notes": tree.notes(lines, loose), "text": said, "changed": changed}

    def state(self):
        """All that the page shows."""
        calls, dump = self.calls(), said_by(self.shell, "dump")
        return {
            "lines": self.lines,
            "trees": self.trees(calls),
            "calls": calls,
            "subscribers": self.subscribers(),
            "actions": [] if self.witness.fault else self.witness.actions(),
            "maps": maps_of(dump),
            "is_open": dump[-1].startswith("end "),
            "history": self.history.entries,
            "fault": self.witness.fault,
        }

    def crash(self, keep):
        """What a crash leaves that keeps so many actions."""
        shape = keep, self.columns, self.is_kept_shown
        if shape not in self.left:
            with self.apart() as shell:
                said_by(shell, f"crash {keep}")
                dump, verified, drawn = (said_by(shell, line) for line in ("dump", "verify", "draw links"))
                others = [line for name in names_in(shell) for line in drawing_of(shell, name)]
            lines = [line for line in drawn if is_drawing(line)]
            loose = [] if self.witness.fault else Witness.after([*self.ran(), (f"crash {keep}", [])]).loose(pages_of([*lines, *others]))
            svg = tree.drawn(lines, loose, tree.Look(columns=self.columns, is_kept_shown=self.is_kept_shown))
            self.left[shape] = {"keep": keep, "maps": maps_of(dump), "verified": verified[-1], "svg": svg, "notes": tree.notes(lines, loose)}
        return self.left[shape]


def pages_of(lines):
    """What lines of a drawing tell of each page, by its number."""
    return dict(tree.known_of(line) for line in lines if LINE.fullmatch(line))
