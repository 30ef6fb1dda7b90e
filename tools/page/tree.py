"""The tree as the page shows it: each page as a card, with the calls that are there. It is drawn from what `draw links` prints."""
import html

from drawing import DEFINITIONS, LETTER, LINE, MARGIN, Page, arrows, levels_of, placed, shortened, written
from page.witness import IMAGE, NEW, OLD

TITLE, ROW, EDGE = 24, 21, 8
# How wide a letter is: of a name, of what is said below it, of a mark, and of a call.
NAMES, SAID, MARKS, CALLS = 7.6, 6, 6.9, 7.3
# Above the tree stands what leads to its root, and who begins there.
ABOVE = 34
LATE = "no pointer yet"
# Of a page to which a pointer still leads, though it is in no level.
LEFT = "left its level"


def bounds(low, high):
    """Which keys a page is for, in words."""
    if low == "%":
        return "all keys" if high == ".." else f"keys below {shortened(high)}"
    return f"keys from {shortened(low)} on" if high == ".." else f"keys from {shortened(low)} to below {shortened(high)}"


def known_of(line):
    """What a line of a drawing tells of a page, but for how it is kept and which index leads to it; and the page's number."""
    kind, number, low, high, next, merging, child, late, _, _, entries = LINE.fullmatch(line).groups()
    return number, (kind, low, high, next, merging, child, late, entries)


class Look:
    """What there is to see beside the pages: the calls at each of them, by its number, those that are to read the root first, and the
    pages of the drawing before it, by their numbers. So many pairs stand in a row, and a page says how it is kept, or does not."""

    def __init__(self, calls=None, at_root=(), before=None, columns=4, is_kept_shown=False):
        self.calls, self.at_root, self.before, self.columns, self.is_kept_shown = calls or {}, at_root, before or {}, columns, is_kept_shown
        self.entries = {entry for page in self.before.values() for entry in page[-1].split()}

    def is_changed(self, page, known):
        return bool(self.before) and known != self.before.get(page)


class Card(Page):
    """A page as a card. `loose` says where it is, if it is in no tree."""

    def __init__(self, line, look=None, loose=None):
        self.look, self.loose = look or Look(), loose
        number, known = known_of(line)
        self.calls, self.is_changed = self.look.calls.get(number, ()), loose != IMAGE and self.look.is_changed(number, known)
        super().__init__(line)
        self.classes += " loose" * bool(loose)

    def measure(self):
        if self.loose and self.loose not in self.marks:
            self.marks.insert(0, self.loose)
        if self.kind == "index":
            self.texts = ["from the start" if text == "%" else f"from {text}" for text in self.texts]
        self.bounds = bounds(self.low, self.high)
        self.foot = f"base {self.base} + {self.links} link{'s' * (self.links != '1')}" if self.look.is_kept_shown and self.links not in (None, "0") else ""
        columns = len(self.texts) if self.kind == "index" else self.look.columns
        cell = max([len(text) for text in self.texts] or [5]) * LETTER + 12
        self.rows = [self.texts[at : at + columns] for at in range(0, len(self.texts), columns or 1)]
        texts = [(f"{self.kind} {self.number}" + "  changed" * self.is_changed, NAMES), (self.bounds, SAID), (self.foot, SAID)]
        texts += [(mark + "  ", MARKS) for mark in self.marks] + [(call + "  ", CALLS) for call in self.calls]
        self.wide = max([cell * min(columns, len(self.texts)), 84] + [len(text) * letter + 2 * EDGE for text, letter in texts])
        self.cell = max(cell, self.wide / max(min(columns, len(self.texts)), 1))
        self.cells = [self.cell] * len(self.texts)
        self.middle = TITLE / 2 + 2
        self.tall = TITLE + ROW * (1 + len(self.marks) + len(self.calls) + max(len(self.rows), 1)) + (ROW - 4 if self.foot else 0)

    def shorten(self):
        if self.kind == "leaf" and len(self.texts) > 4:
            self.texts = [self.texts[0], f"… {len(self.texts) - 2} …", self.texts[-1]]
            self.measure()

    def is_fresh(self, text):
        return self.is_changed and self.kind == "leaf" and text not in {shortened(entry) for entry in self.look.entries}

    def drawn(self):
        yield f'<g class="{self.classes}"><rect class="page" x="{self.x:.0f}" y="{self.y}" width="{self.wide:.0f}" height="{self.tall}" rx="6"/>'
        yield f'<path class="strip" d="M{self.x + 1:.1f},{self.y + TITLE}v{6 - TITLE}q0,-5 5,-5h{self.wide - 12:.1f}q5,0 5,5v{TITLE - 6}z"/>'
        yield written(self.x + EDGE, self.y + 17, f"{self.kind} {self.number}", "name")
        if self.is_changed:
            yield f'<text class="changed" x="{self.x + self.wide - EDGE:.0f}" y="{self.y + 17}" text-anchor="end">changed</text>'
        y = self.y + TITLE
        yield written(self.x + EDGE, y + 15, self.bounds, "bounds")
        y += ROW
        for mark in self.marks:
            yield f'<g class="mark"><rect x="{self.x + 6:.0f}" y="{y + 2}" width="{len(mark) * MARKS + 14:.0f}" height="{ROW - 4}" rx="2"/>{written(self.x + 13, y + 15, mark)}</g>'
            y += ROW
        for call in self.calls:
            yield token(self.x + 6, y + 2, call)
            y += ROW
        yield from self.drawn_rows(y)
        if self.foot:
            yield written(self.x + EDGE, self.bottom - 5, self.foot, "foot")
        yield "</g>"

    def drawn_rows(self, y):
        yield f'<path class="cell" d="M{self.x:.0f},{y}h{self.wide:.0f}"/>'
        if not self.rows:
            yield written(self.x + EDGE, y + 15, "empty", "bounds")
        for row in self.rows:
            for at, text in enumerate(row):
                x = self.x + at * self.cell
                if at and self.kind == "index":
                    yield f'<path class="cell" d="M{x:.0f},{y}v{ROW}"/>'
                if self.is_fresh(text):
                    yield f'<rect class="fresh" x="{x + 2:.1f}" y="{y + 2}" width="{self.cell - 4:.1f}" height="{ROW - 4}" rx="3"/>'
                yield entry(x + 6, y + 15, text)
            y += ROW


def token(x, y, call):
    """A call in flight."""
    return f'<g class="call"><rect x="{x:.0f}" y="{y:.0f}" width="{len(call) * CALLS + 14:.0f}" height="{ROW - 4}" rx="8"/>{written(x + 7, y + 13, call)}</g>'


def entry(x, y, text):
    """A pair with its key in bold."""
    key, equals, value = text.partition("=")
    if not equals:
        return written(x, y, text)
    return f'<text x="{x:.0f}" y="{y:.0f}" xml:space="preserve"><tspan class="key">{html.escape(key)}</tspan>={html.escape(value)}</text>'


def label(cards):
    """The tree in words, for who hears it."""
    texts = []
    for card in cards:
        marks = "".join(f", {mark}" for mark in card.marks) + "".join(f", here is {call}" for call in card.calls)
        holds = " ".join(card.entries) or "nothing"
        texts.append(f"{card.kind} {card.number}, {card.bounds}{marks}{f', next is {card.next}' * bool(card.next)}: {holds}.")
    return " ".join(texts)


def levels(lines, loose, look=None):
    """The cards of a tree, level by level. A page that is in none stands at the end of the level whose last keys it has, and otherwise
    above the tree or below it."""
    levels = levels_of(lines, lambda line: Card(line, look))
    led_to = {number for level in levels for card in level for _, number in card.pointers()}
    above, below = [], []
    for line, what in loose:
        card = Card(line, look, LEFT if what != IMAGE and known_of(line)[0] in led_to else what)
        beside = [level for level in levels if any((it.kind, it.high) == (card.kind, card.high) for it in level)]
        beside[-1].append(card) if beside and what != IMAGE else (above if card.kind == "index" else below).append(card)
    return [level for level in [above, *levels, below] if level]


def drawn(lines, loose=(), look=None):
    """The SVG of a tree: of the lines of its drawing, and of pages that are in none."""
    look = look or Look()
    all = levels(lines, loose, look)
    if not all:
        return ""
    wide, bottom = placed(all, ABOVE if lines else MARGIN)
    cards = [card for level in all for card in level]
    parts = [it for card in cards for it in card.drawn()] + list(arrows(all))
    if lines:
        root = next(card for card in cards if not card.loose)
        parts += above(root, look.at_root)
        wide = max(wide, root.x + 30 + sum(len(call) * CALLS + 20 for call in look.at_root))
    size = f'viewBox="0 0 {wide + 2 * MARGIN:.0f} {bottom + MARGIN}" width="{wide + 2 * MARGIN:.0f}" height="{bottom + MARGIN}"'
    begin = f'<svg xmlns="http://www.w3.org/2000/svg" class="tree" role="img" aria-label="{html.escape(label(cards))}" {size}>'
    return "\n".join([begin, DEFINITIONS, *parts, "</svg>"])


def above(root, at_root):
    """What leads to the root, and the calls that are to read it first."""
    yield written(root.x + 2, root.y - 14, "root", "foot")
    yield f'<path class="down" marker-end="url(#head)" d="M{root.x + 14:.0f},{root.y - 11}v10"/>'
    x = root.x + 44
    for call in at_root:
        yield token(x, root.y - 28, call)
        x += len(call) * CALLS + 20


def notes(lines, loose=()):
    """What the marks of a drawing mean, a sentence for each."""
    return list(dict.fromkeys(text for card, left in with_left(levels(lines, loose)) for text in notes_of(card, left)))


def with_left(levels):
    """Each card, and the one to its left."""
    cards = [card for level in levels for card in level]
    before = {card.next: card for card in cards if card.next and not card.loose}
    return [(card, before.get(card.number)) for card in cards]


def notes_of(card, left):
    name = f"{card.kind} {card.number}"
    if card.loose == IMAGE:
        yield "These are pages of an image, which somebody else made: all of them are checked before anything is opened."
    elif card.loose == LEFT:
        yield f"{name.capitalize()} has left its level: the page before it has all its pairs, and only its pointer is still there. Who comes by it begins again at the root."
    elif card.loose == NEW:
        yield f"{name.capitalize()} is in no tree yet: no page leads to it, and nobody misses it if its call is given up, or if a crash comes."
    elif card.loose == OLD:
        yield f"{name.capitalize()} is in no tree any more: the page before it has all its pairs, no pointer leads to it, and its call frees it next."
    elif card.loose:
        was_to = "free it" if "merging" in card.marks else "bring it in"
        yield f"{name.capitalize()} is there, but nothing leads to it, and the call that was to {was_to} is gone. No call ever reads it: it does no harm, and its room stays taken."
    if LATE in card.marks and left:
        yield f"Half-done split: {name} has no pointer yet. Readers reach it through its left neighbour's next: from {left.kind} {left.number} they go on to the right."
    if card.child:
        yield f"Half-done merge: {name} notes that page {card.child} is to go into the page before it. Whoever comes by goes on with that first."
    if "merging" in card.marks and not card.loose:
        yield f"{name.capitalize()} is merging: it never changes again, and who meets it begins again at the root."
