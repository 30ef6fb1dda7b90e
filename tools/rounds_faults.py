"""Faults that are planted in lines of `test_rounds`, each of which the checker (rounds.py) has to refuse."""
import re

from rounds import UNREAD, WAITING, Wrong, check, image_of, require, word_of, words_of

# Two callers, one after the other.
TWO_CALLERS = """id 1
opened 1 __sled__default 0
caller 1 kept
1 insert __sled__default 1 a 1 = 2 value -
caller 2 kept
3 get __sled__default 1 a = 4 value 1
gathered
entry 1 insert __sled__default 1 a 1 = value -
entry 2 get __sled__default 1 a = value 1
left 1 __sled__default 1 a 1
crash 9
id 2
opened 1 __sled__default 1 a 1
"""
# The first caller watches a tree, gives it a value of another one, and imports into it; the second one sees that.
TWO_TREES = """id 1
opened 1 __sled__default 0
caller 1 kept
1 insert __sled__default 1 a 1 = 2 value -
3 open s = 4 tree s 2
5 watch s 2 % = 6 subscriber 1
7 exchange __sled__default 1 s 2 a no = 8 both 1 -
9 import 1 s 2 b 2 c 3 = 10 done
caller 2 kept
13 export = 14 all 2 __sled__default 0 s 3 a 1 b 2 c 3
15 next 1 = 16 event insert a 1
17 next 1 = 18 event insert b 2
19 id_inside __sled__default 1 z = 20 number 2
21 id = 22 number 3
gathered
entry 1 insert __sled__default 1 a 1 = value -
entry 1 open s = tree s 2
entry 1 watch s 2 % = subscriber 1
entry 1 transaction 2 __sled__default 1 1 a - s 2 1 a 1 = stood 1 -
entry 1 import 1 s 2 b 2 c 3 = done
entry 2 export = all 2 __sled__default 0 s 3 a 1 b 2 c 3
entry 2 next 1 = done
entry 2 next 1 = done
entry 2 transaction 1 __sled__default 1 1 z %00%00%00%00%00%00%00%02 = stood -
entry 2 id = number 3
left 2 __sled__default 1 z %00%00%00%00%00%00%00%02 s 3 a 1 b 2 c 3
crash 9
id 4
opened 2 __sled__default 1 z %00%00%00%00%00%00%00%02 s 3 a 1 b 2 c 3
"""
# A pair is set and flushed as the database is shared, and of what the caller does a crash leaves nothing.
FLUSHED = """id 1
opened 1 __sled__default 0
flushed b 2
caller 1 kept
1 insert __sled__default 1 a 1 = 2 value -
gathered
entry 1 insert __sled__default 1 a 1 = value -
left 1 __sled__default 2 a 1 b 2
crash 0
id 2
opened 1 __sled__default 1 b 2
"""


def many_events(count):
    """Lines of a caller that watches a tree, and then writes so often before it takes the first events."""
    calls = [("watch __sled__default 1 %", "subscriber 1")]
    calls += [(f"merge __sled__default 1 a {word_of(1)}", f"value {word_of(number)}") for number in range(1, count + 1)]
    calls += [("next 1", f"event missed {count - WAITING}"), ("next 1", f"event insert a {word_of(count - WAITING + 1)}")]
    lines = ["id 1", "opened 1 __sled__default 0", "caller 1 kept"]
    lines += [f"{2 * at + 1} {call} = {2 * at + 2} {answer}" for at, (call, answer) in enumerate(calls)]
    lines += ["gathered", *(f"entry 1 {call} = {'done' if call == 'next 1' else answer}" for call, answer in calls)]
    left = f"1 __sled__default 1 a {word_of(count)}"
    return "".join(line + "\n" for line in [*lines, f"left {left}", "crash 9999", "id 2", f"opened {left}"])


MANY_EVENTS = many_events(WAITING + 3)
# A value that no caller writes.
OTHER = "%00%00%01%00%00%00%00%07"


class Lines:
    """Lines in which a fault is planted."""

    def __init__(self, text):
        self.lines = text.split("\n")[:-1]

    def find(self, pattern, after=-1):
        """The first line behind another one that matches, and what matched."""
        return next((at, found) for at, line in enumerate(self.lines) if at > after and (found := re.fullmatch(pattern, line)))

    def replace(self, pattern, new):
        """Replaces the first line that matches."""
        at, found = self.find(pattern)
        self.lines[at] = found.expand(new)
        return at

    def drop(self, pattern):
        del self.lines[self.find(pattern)[0]]

    def entry_of(self, at):
        """Where the entry of the call in a line is."""
        call = re.fullmatch(r"\d+ (.* =) \d+ (.*)", self.lines[at])
        return self.find(rf"entry \d+ {re.escape(f'{call[1]} {call[2]}')}", at)[0]

    def turn_both(self, pattern, old, new):
        """Changes a call and its entry alike."""
        at = self.find(pattern)[0]
        for place in (self.entry_of(at), at):
            require(old in self.lines[place], "there is no", old)
            self.lines[place] = self.lines[place].replace(old, new)

    def turn_image(self, at, turn):
        kind, *words = self.lines[at].split(" ")
        image = image_of(words)
        turn(image)
        self.lines[at] = " ".join([kind, *words_of(image)])


def change_reply(lines):
    lines.turn_both(r"\d+ insert .* = \d+ value -", "value -", f"value {OTHER}")


def change_entry(lines):
    lines.replace(r"(entry .* insert .* = value) -", rf"\1 {OTHER}")


def change_answer(lines):
    lines.replace(r"(\d+ insert .* = \d+ value) -", rf"\1 {OTHER}")


def move_entry(lines):
    at = lines.find(r"entry \d+ insert .*")[0]
    lines.lines[at], lines.lines[at + 1] = lines.lines[at + 1], lines.lines[at]


def drop_entry(lines):
    lines.drop(r"entry \d+ get .*")


def double_entry(lines):
    at = lines.find(r"entry \d+ get .*")[0]
    lines.lines.insert(at, lines.lines[at])


def drop_call(lines):
    lines.drop(r"\d+ get .* value .*")


def give_away(lines):
    lines.replace(r"entry 1 (get .*)", r"entry 2 \1")


def drop_pair(lines):
    at = lines.find(r"left 1 __sled__default [1-9].*")[0]
    lines.turn_image(at, lambda image: image["__sled__default"].popitem())


def change_crashed(lines):
    at = lines.find(r"opened 1 __sled__default [1-9].*")[0]
    lines.turn_image(at, lambda image: image["__sled__default"].update({[*image["__sled__default"]][0]: OTHER}))


def forget_flush(lines):
    """What the crash left is what was there at the opening, before a flush."""
    flush = lines.find(r"entry \d+ flush = .*")[0]
    opened = lines.find(r"opened .*", flush)[0]
    before = [at for at in range(flush) if lines.lines[at].startswith("opened ")][-1]
    require(lines.lines[opened] != lines.lines[before], "the crash left nothing new")
    lines.lines[opened] = lines.lines[before]


def forget_shared(lines):
    """What the crash left is what was there before the database was flushed and shared."""
    lines.replace("opened 1 __sled__default 1 b 2", "opened 1 __sled__default 0")


def repeat_id(lines):
    at, first = lines.find(r"\d+ id = \d+ number (\d+)")
    second = lines.find(r"\d+ id = \d+ number (\d+)", at)[1]
    lines.turn_both(rf"\d+ id = \d+ number {second[1]}", f"number {second[1]}", f"number {first[1]}")


def repeat_id_after_crash(lines):
    at, last = lines.find(r"entry \d+ id = number (\d+)")
    lines.lines[lines.find(r"id \d+", at)[0]] = f"id {last[1]}"


# A pair of a scan, and the next one, in steps one right behind the other.
PAIR = r"(\d+ step (\d+) = \d+) pair (\S+) (\S+)"


def two_pairs(lines):
    at = -1
    while True:
        at, one = lines.find(PAIR, at)
        other = re.fullmatch(PAIR, lines.lines[at + 1])
        if other and one[2] == other[2]:
            return at, one, other


def skip_pair(lines):
    at = two_pairs(lines)[0]
    del lines.lines[at]


def change_pair(lines):
    lines.replace(PAIR, rf"\1 pair \3 {OTHER}")


def repeat_pair(lines):
    at, one, other = two_pairs(lines)
    lines.lines[at + 1] = f"{other[1]} pair {one[3]} {one[4]}"


def swap_pairs(lines):
    at, one, other = two_pairs(lines)
    lines.lines[at : at + 2] = [f"{one[1]} pair {other[3]} {other[4]}", f"{other[1]} pair {one[3]} {one[4]}"]


def lose_slot(lines):
    lines.replace(r"(\d+ step \d+ = \d+) moved", r"\1 no slot")


def end_slot_twice(lines):
    at, found = lines.find(r"(\d+ step (\d+) = \d+) moved")
    lines.lines[at] = f"{found[1]} end"


def refuse_call(lines):
    at = lines.find(r"\d+ get .* value .*")[0]
    del lines.lines[lines.entry_of(at)]
    lines.lines[at] = re.sub("value .*", "refused E1", lines.lines[at])


def read_another(lines):
    """A transaction read what was not there, and wrote that."""
    at, found = lines.find(r"\d+ transfer \S+ \d+ \S+ \S+ \S+ = \d+ value (\S+)")
    entry = lines.find(rf"entry \d+ transaction 1 .* {re.escape(found[1])}.*", at)[0]
    for place in (at, entry):
        lines.lines[place] = lines.lines[place].replace(found[1], OTHER)


def abandon(lines):
    """A transaction wrote nothing though there was a value."""
    at, found = lines.find(r"(\d+ transfer .* = \d+) value (\S+)")
    del lines.lines[lines.find(rf"entry \d+ transaction 1 .* {re.escape(found[2])}.*", at)[0]]
    lines.lines[at] = f"{found[1]} abandoned"


def read_before(lines):
    """A read told what was there before a write that had ended."""
    lines.replace(r"(3 get .*) 1", r"\1 -")
    lines.replace(r"(entry 2 .*) 1", r"\1 -")
    at = lines.find("entry 1 .*")[0]
    lines.lines[at], lines.lines[at + 1] = lines.lines[at + 1], lines.lines[at]


def turn_clock(lines):
    lines.replace(r"3 (get .*) = 4 (.*)", r"4 \1 = 3 \2")


def lose_handle(lines):
    lines.replace("caller 2 kept", "caller 2 lost")


def see_half(lines):
    """A caller saw what a transaction took from one tree, and not what it gave the other."""
    lines.turn_both(r"\d+ export = .*", "s 3 a 1 b 2 c 3", "s 2 b 2 c 3")


def commit_half(lines):
    """The entry of a transaction has only what it wrote to the first tree."""
    lines.replace("(entry 1 transaction) 2 (.*) s 2 1 a 1 = stood 1 -", r"\1 1 \2 = stood 1")


def crash_amid(lines):
    """A crash left what a transaction took from one tree, and not what it gave the other."""
    lines.replace("opened 2 .*", "opened 2 __sled__default 0 s 0")


def lose_imported(lines):
    """Nobody ever saw a pair of an import."""
    lines.lines = [line if " import " in line else line.replace("s 3 a 1 b 2 c 3", "s 2 a 1 b 2") for line in lines.lines]


def repeat_event(lines):
    lines.replace("(.*) event insert b 2", r"\1 event insert a 1")


def lose_event(lines):
    lines.replace("(.*) event insert b 2", r"\1 event insert c 3")
    lines.replace("(.*) event insert a 1", r"\1 event insert b 2")


def swap_events(lines):
    repeat_event(lines)
    lines.replace("(.*) event insert a 1", r"\1 event insert b 2")


def hear_nothing(lines):
    lines.replace("(.*) event insert b 2", r"\1 event -")


def miscount(lines):
    lines.replace("(.*) event missed 3", r"\1 event missed 2")


def give_id_twice(lines):
    lines.turn_both(r"\d+ id = .*", "number 3", "number 2")


def repeat_id_inside(lines):
    """A transaction took an id that was given before."""
    lines.lines = [line.replace("id_inside __sled__default 1 z = 20 number 2", "id_inside __sled__default 1 z = 20 number 1").replace("%02", "%01") for line in lines.lines]


def write_another_id(lines):
    """A transaction wrote another id than it took."""
    lines.lines = [line.replace("%02", "%07") for line in lines.lines]


def drop_note(lines):
    lines.drop(r"note \d+ \d+ pair .*")


def change_note(lines):
    lines.replace(r"(note \d+ \d+ pair \S+) \S+", rf"\1 {OTHER}")


def double_note(lines):
    at = lines.find(r"note \d+ \d+ scan .*")[0]
    lines.lines.insert(at, lines.lines[at])


def note_before(lines):
    """The end of a scan is noted before all entries."""
    at, found = lines.find(r"note (\d+) [1-9]\d* end")
    del lines.lines[at]
    lines.lines.insert(lines.find(r"note .*")[0], f"note {found[1]} 0 end")


def note_no_more(lines):
    lines.replace("notes yes", "notes no")


# Faults in lines that were printed, and in those that were written by hand.
PRINTED = [change_reply, change_entry, change_answer, move_entry, drop_entry, double_entry, drop_call, give_away, drop_pair, change_crashed, forget_flush, repeat_id, repeat_id_after_crash, skip_pair, change_pair, repeat_pair, swap_pairs, lose_slot, end_slot_twice, refuse_call, read_another, abandon, drop_note, change_note, double_note, note_before, note_no_more]
WRITTEN = {
    TWO_CALLERS: [read_before, turn_clock, lose_handle],
    TWO_TREES: [see_half, commit_half, crash_amid, lose_imported, repeat_event, lose_event, swap_events, hear_nothing, give_id_twice, repeat_id_inside, write_another_id],
    MANY_EVENTS: [miscount],
    FLUSHED: [forget_shared],
}


def is_refused(text, fault):
    """Whether lines are refused once the fault is in them, and not since they cannot be read."""
    lines = Lines(text)
    try:
        fault(lines)
    except (StopIteration, IndexError, Wrong):
        return False  # There is no place for it.
    wrong, _ = check("".join(line + "\n" for line in lines.lines))
    return wrong is not None and not wrong.startswith(UNREAD)


def planted(text):
    """Of each fault, by its name, whether the checker refuses it; and of none whether it accepts the lines."""
    texts = {text: PRINTED, **WRITTEN}
    refused = {f"none, in text {number}": check(text)[0] is None for number, text in enumerate(texts, 1)}
    return refused | {fault.__name__: is_refused(text, fault) for text, faults in texts.items() for fault in faults}
