"""What no line of the shell tells, and the page shows: at which page a call in flight is, what its next step does, what each action of the
store was, and what waits for a subscriber.

The model of the shell (tools/oracle.py) knows that. It shares nothing with the program, and is handed each line that the shell is. What it
prints has to be what the shell printed; from the first line of which that is not so nothing of it is shown any more."""
import re

import oracle
from oracle import word

# At a terminal a refusal has its text behind it.
REFUSAL = re.compile(r"(refused E\d+): .*")
# What a page is that stands in no tree: of an image that was not opened yet, of a call in flight that brings it in or is to free it, or
# left behind.
IMAGE, NEW, OLD, ORPHAN = "of an image", "in no tree yet", "in no tree any more", "nothing leads here"
# How many things a step did are told one by one.
MOST_TOLD = 4
GROUP = {True: "here begin writes that go together: without their end a crash leaves none of them", None: "here is their end: all of them are kept, or none"}


def named(pages, pid):
    """A page by its kind and its number."""
    view = pages.get(pid)
    return f"{('leaf' if view.node.leaf else 'index') if view else 'page'} {pid}"


def changed_entries(pages, pid, old, new):
    """What a write did to the pairs of a leaf, or became of the pointers of an index."""
    before, after = dict(old.entries), dict(new.entries)
    if not new.leaf:
        added = [named(pages, child) for key, child in after.items() if before.get(key) != child]
        return f"index {pid} gets its pointer to {', '.join(added)}"
    told = [f"has {word(key)} = {word(value)}" for key, value in after.items() if before.get(key) != value]
    told += [f"no longer has {word(key)}" for key in before if key not in after]
    return f"leaf {pid} {', '.join(told)}"


def changed(pages, pid, old, new):
    """What an action did to a page."""
    name = named(pages, pid)
    if new.merging and not old.merging:
        return f"{name} is marked as merging: it never changes again"
    if new.child is not None and old.child is None:
        return f"{name} notes that {named(pages, new.child)} is to merge into the page before it"
    if old.child is not None and new.child is None:
        return f"{name} drops its pointer to {named(pages, old.child)}, and the merge is done"
    if new.hi != old.hi and len(new.entries) < len(old.entries):
        return f"{name} keeps its left half alone, and its next is {named(pages, new.next)}, which has the right half"
    if new.hi != old.hi:
        return f"{name} takes over all that {named(pages, old.next)} has"
    return changed_entries(pages, pid, old, new)


def made(pages, pid, node):
    """What a new page has."""
    if not node.leaf and node.lo == b"" and node.hi == b"":
        return f"index {pid} is made, over {' and '.join(named(pages, child) for _, child in node.entries)}; nothing leads to it yet"
    if not node.entries:
        return f"leaf {pid} is made, without a pair"
    kind = "leaf" if node.leaf else "index"
    return f"{kind} {pid} is made, with a copy of the right half, from {word(node.entries[0][0])} on; nothing leads to it yet"


def told(pages, action):
    """What an action of the store was, over pages as they were before it."""
    what, where, new = action
    if what == 2:
        return GROUP[new]
    if what == 1:
        return f"the tree {word(where)} is gone" if new is None else f"{named(pages, new)} becomes the root"
    old = pages.get(where)
    if new is None:
        return f"{named(pages, where)} is freed"
    return changed(pages, where, old.node, new.node) if old else made(pages, where, new.node)


def handled(pages, actions):
    """The numbers of the pages that some actions made, or took the last pointer to out, over pages as they were before them."""
    for what, where, new in actions:
        old = pages.get(where) if what == 0 else None
        if what == 0 and new and not old:
            yield where
        elif old and new and old.node.child is not None and new.node.child is None:
            yield old.node.child


def all_told(pages, actions):
    """What each of some actions was, one after the other."""
    pages, texts = dict(pages), []
    for what, where, new in actions:
        texts.append(told(pages, (what, where, new)))
        if what == 0:
            pages[where] = new
    return texts


def kept_of(actions, keep):
    """How many of some actions a crash keeps that is to keep so many: of writes that go together none, where their end is not kept."""
    edges = [at for at, (what, _, _) in enumerate(actions[:keep]) if what == 2]
    return edges[-1] if len(edges) % 2 else min(keep, len(actions))


def at_most(texts):
    """Texts, of which those that are too many are counted."""
    return texts if len(texts) <= MOST_TOLD else [*texts[: MOST_TOLD - 1], f"and {len(texts) - MOST_TOLD + 1} actions more"]


class Witness:
    """The model of the shell, beside it."""

    def __init__(self):
        self.shell, self.places, self.fault = oracle.Shell(), {}, None
        # The call in flight that made a page, or took it out of the tree, by the page's number.
        self.makers = {}

    @property
    def store(self):
        return self.shell.store

    def count(self):
        """How many actions there were since the last flush."""
        return len(self.store.recent)

    def run(self, line, said=()):
        """What a line prints that the shell answered so, and what it did."""
        store, pages, count = self.store, dict(self.store.pages), self.count()
        store.seen = None
        name, *rest = line.removeprefix("owned ").split(" ")
        if name in ("help", "?"):
            return said, []
        printed = self.transact(line.split(" "), said) if name in ("tx", "tx-all") else self.shell.run(line)
        if name == "begin":
            self.places.pop(self.shell.begun, None)
        if printed[-1:] == [f"slot {self.shell.begun}"]:
            self.makers = {pid: slot for pid, slot in self.makers.items() if slot != self.shell.begun}
        if name in ("step", "finish") and store is self.store:
            self.makers |= {pid: int(rest[0]) for pid in handled(pages, store.recent[count:])}
        if name in ("step", "finish") and int(rest[0]) in self.shell.slots and not (store.seen is None and printed[-1].startswith("pair ")):
            self.places[int(rest[0])] = store.seen
        is_grown = store is self.store and self.count() > count
        return printed, all_told(pages, store.recent[count:]) if is_grown else []

    def transact(self, words, said):
        """Makes what a transaction wrote as the group that it is: the model knows no lines of transactions."""
        if words[0] == "owned":
            self.shell.slots, self.shell.begun, words = {}, 0, words[1:]
        numbers = [int(text.split(" ")[2]) for text in said if text.startswith("in number ")]
        while numbers and self.shell.greatest_id < max(numbers):
            self.shell.next_id()
        if said[-1:] == ["committed"]:
            parts = oracle.parts_of(words[1:])[:-1]
            trees = ["-"] if words[0] == "tx" else parts.pop(0)
            writes = [[] for _ in trees]
            for part in parts:
                at = int(part.pop(0)) if words[0] == "tx-all" and part[0].isdecimal() else 0
                if part[0] in ("insert", "remove", "batch"):
                    writes[at] += [part[1], "-"] if part[0] == "remove" else part[1:]
            group = " ; ".join(" ".join([tree, *pairs]) for tree, pairs in zip(trees, writes) if pairs)
            if group:
                self.shell.run(f"group {group}")
            if ["flush"] in parts:
                self.store.flush()
        return said

    def hear(self, line, said):
        """Hands it a line that the shell answered: what it did."""
        if self.fault:
            return []
        said = [REFUSAL.sub(r"\1", text) for text in said]
        try:
            printed, did = self.run(line, said)
        except Exception as fault:  # whatever it is, the shell goes on without it
            self.fault = f"at `{line}` the model stopped: {fault!r}"
            return []
        if printed != said:
            self.fault = f"at `{line}` the model printed {printed}, and the shell {said}"
        return at_most(did)

    def taken(self, line):
        """What the actions were that a crash is about to take back, or nothing where the line is no crash."""
        name, *rest = line.removeprefix("owned ").split(" ")
        if name != "crash" or self.fault:
            return None
        kept, texts = kept_of(self.store.recent, int(rest[0])), all_told(self.store.base[0], self.store.recent)
        return at_most([text for text, (what, _, _) in list(zip(texts, self.store.recent))[kept:] if what != 2])

    @classmethod
    def after(cls, lines):
        """One that was handed these lines, each with what the shell answered."""
        witness = cls()
        for line, said in lines:
            witness.run(line, said)
        return witness

    def step(self, slot):
        """Does the next step of a call: what it is."""
        answer, did = self.run(f"step {slot}")
        answer = answer[0]
        if did:
            return "; ".join(did) + ("" if answer == "moved" else f"; with that the call is decided, and answers `{answer}`")
        seen = None if self.store.seen is None else named(self.store.pages, self.store.seen)
        if answer == "moved":
            return f"reads {seen}" if seen else "finds that another call was here first, and begins again at the root"
        if answer.startswith(("pair ", "refused ")):
            return f"gives `{answer}`, from the leaf as it read it" if answer[0] == "p" else f"`{answer}`"
        return (f"reads {seen}, and " if seen else "") + f"answers `{answer}`"

    def place(self, slot):
        """Where a call is: at the page that it read or changed last."""
        return f"at {named(self.store.pages, self.places[slot])}" if self.places.get(slot) in self.store.pages else "above the root"

    def actions(self):
        """What each action since the last flush was, and whether it begins writes that go together, or ends them."""
        texts = all_told(self.store.base[0], self.store.recent)
        return [{"text": text, "edge": what == 2 and ("begin" if new else "end")} for text, (what, _, new) in zip(texts, self.store.recent)]

    def subscribers(self):
        """What each sees, how many events it missed, and those that wait."""
        return [(tree.name, queue.prefix, queue.missed, queue.events) for tree, queue in self.shell.subscribers]

    def loose(self, but):
        """Lines of a drawing for the pages that stand in none, and what each is: of an image that was not opened yet, of a call that brings it
        in or frees it, or left behind."""
        store = [(view, self.is_of(view.pid)) for pid, view in sorted(self.store.pages.items()) if str(pid) not in but]
        noted = [(oracle.view_of(pid, 0, node), IMAGE) for pid, node in sorted(self.shell.noted[0].items())]
        return [(self.shell.page_drawn(view.pid, view.node, "", False, f" base {view.base} links {view.links}")[0], what) for view, what in store + noted]

    def is_of(self, pid):
        """What a page of the store is that stands in no drawing."""
        if not self.shell.opened:
            return IMAGE
        if self.makers.get(pid) in self.shell.slots:
            return OLD if self.store.pages[pid].node.merging else NEW
        return ORPHAN
