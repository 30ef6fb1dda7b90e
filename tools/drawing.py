"""Pictures of trees: what the shell's `draw` prints as an SVG, in which each drawing is a frame below the one before it."""
import html
import itertools
import re
import textwrap

# What tells such a picture from other files.
HEAD = '<svg xmlns="http://www.w3.org/2000/svg" data-of="donnaveku"'
LINE = re.compile(r"(leaf|index) (\d+)(?: under \d+)? from (\S+) to (\S+?)(?: next (\d+))?( merging)?(?: merging-child (\d+))?( no-pointer)?(?: base (\d+) links (\d+))?:((?: \S+)*)")
# Sizes in pixels: of a letter, of the room at the sides, of a page's two rows, and between pages and levels.
LETTER, MARGIN, HEADER, CELLS, BESIDE, BELOW = 7.3, 16, 20, 24, 48, 44
# A tree that is wider has the first and the last pair of each leaf.
WIDEST = 2000
LONGEST, LETTERS_OF_TITLE = 16, 88
STYLE = """text{fill:#222}.t{font-weight:bold}.s{font-size:10px}.page{fill:#fff;stroke:#222;stroke-width:1.4}.strip{fill:#eceff3}
.index .strip{fill:#d5e0f2}.late .page{stroke-dasharray:6 3;stroke-width:2}.merging .page{fill:url(#hatched)}.cell{stroke:#222;stroke-width:.6}
.down{fill:none;stroke:#222;stroke-width:1.3}.child{stroke-width:3}.next{fill:none;stroke:#222;stroke-width:1.1;stroke-dasharray:2 3}
.tag{fill:#222}.told{fill:#fff;font-size:10px;font-weight:bold}.rule{stroke:#bbb}"""
DEFINITIONS = """<defs><marker id="head" viewBox="0 0 8 8" refX="7" refY="4" markerWidth="8" markerHeight="8" markerUnits="userSpaceOnUse" orient="auto"><path d="M0,0L8,4L0,8z" fill="#222"/></marker>
<pattern id="hatched" width="7" height="7" patternUnits="userSpaceOnUse" patternTransform="rotate(45)"><rect width="7" height="7" fill="#fff"/><path d="M0,0V7" stroke="#bbb" stroke-width="2.5"/></pattern></defs>"""
LEGEND = [
    "solid arrow: pointer · dotted arrow: next page · dashed box: no pointer leads to it yet",
    "hatched box and thick arrow: merging · short stroke: a pointer to a page that left its level",
    "%: the empty key · ..: no bound",
]


def shortened(text):
    return text if len(text) <= LONGEST else text[: LONGEST - 1] + "…"


def is_drawing(line):
    return line.startswith("level ") or bool(LINE.fullmatch(line))


class Page:
    """A page as a line of a drawing tells of it, and where it stands."""

    def __init__(self, line):
        self.kind, self.number, self.low, self.high, self.next, merging, self.child, late, self.base, self.links, entries = LINE.fullmatch(line).groups()
        self.entries = entries.split()
        self.texts = [shortened(entry.split("->")[0] if self.kind == "index" else entry) for entry in self.entries]
        self.marks = [mark for mark, is_so in [("merging", merging), ("no pointer yet", late), (f"merging child {self.child}", self.child)] if is_so]
        self.classes = " ".join([self.kind, *["merging"] * bool(merging), *["late"] * bool(late)])
        self.header = f"{self.kind} {self.number}  from {shortened(self.low)} to {shortened(self.high)}"
        self.x = self.y = 0
        # How tall it is, and where `next` leaves it.
        self.tall, self.middle = HEADER + CELLS, HEADER + CELLS / 2
        self.measure()

    @property
    def bottom(self):
        return self.y + self.tall

    def measure(self):
        self.cells = [len(text) * LETTER + 10 for text in self.texts]
        self.wide = max(sum(self.cells), len(self.header) * LETTER * 0.84 + 16 + sum(len(mark) * 6.2 + 14 for mark in self.marks))

    def shorten(self):
        """Leaves out the pairs of a leaf but for the first and the last."""
        if self.kind == "leaf" and len(self.texts) > 3:
            self.texts[1:-1] = [f"… {len(self.texts) - 2} more …"]
            self.measure()

    def drawn(self):
        """The box of the page: what it is, and its entries."""
        yield f'<g class="{self.classes}"><rect class="page" x="{self.x:.0f}" y="{self.y}" width="{self.wide:.0f}" height="{self.tall}" rx="4"/>'
        yield f'<rect class="strip" x="{self.x + 1.5:.1f}" y="{self.y + 1.5}" width="{self.wide - 3:.1f}" height="{HEADER - 2}" rx="3"/>'
        yield written(self.x + 7, self.y + 14, self.header, "s")
        right = self.x + self.wide - 5
        for mark in reversed(self.marks):
            wide = len(mark) * 6.2 + 8
            yield f'<rect class="tag" x="{right - wide:.0f}" y="{self.y + 4}" width="{wide:.0f}" height="13" rx="6"/>'
            yield written(right - wide + 4, self.y + 14, mark, "told")
            right -= wide + 6
        at = self.x
        for text, wide in zip(self.texts or ["empty"], self.cells or [self.wide]):
            if at > self.x:
                yield f'<path class="cell" d="M{at:.0f},{self.y + HEADER}V{self.y + HEADER + CELLS}"/>'
            yield written(at + 5, self.y + HEADER + 16, text)
            at += wide
        if at < self.x + self.wide - 1 and self.texts:
            yield f'<path class="cell" d="M{at:.0f},{self.y + HEADER}V{self.y + HEADER + CELLS}"/>'
        yield "</g>"

    def pointers(self):
        """Where each pointer begins, and the number of the page that it leads to."""
        at = self.x
        for entry, wide in zip(self.entries, self.cells):
            if self.kind == "index":
                yield at + wide / 2, entry.split("->")[1]
            at += wide


def written(x, y, text, style=""):
    return f'<text x="{x:.0f}" y="{y:.0f}"{f" class={chr(34)}{style}{chr(34)}" if style else ""} xml:space="preserve">{html.escape(text)}</text>'


def levels_of(lines, page=Page):
    """The pages of a drawing, level by level."""
    levels = []
    for line in lines:
        if line.startswith("level "):
            levels.append([])
        else:
            levels[-1].append(page(line))
    return levels


def width_of(level):
    return sum(page.wide for page in level) + BESIDE * (len(level) - 1)


def placed(levels, top):
    """Gives each page its place, each level in the middle: how wide the drawing is, and where it ends."""
    if max(map(width_of, levels)) > WIDEST:
        for page in itertools.chain(*levels):
            page.shorten()
    wide = max(map(width_of, levels))
    for level in levels:
        x = MARGIN + (wide - width_of(level)) / 2
        for page in level:
            page.x, page.y = x, top
            x += page.wide + BESIDE
        top = max(page.bottom for page in level) + BELOW
    return wide, top - BELOW


def arrows(levels):
    """What leads down from an index, and to the page to the right."""
    pages = {page.number: page for level in levels for page in level}
    for page in pages.values():
        bottom = page.bottom
        for x, number in page.pointers():
            if child := pages.get(number):
                to = min(max(x, child.x + 24), child.x + child.wide - 24)
                style = "down child" if number == page.child else "down"
                yield f'<path class="{style}" marker-end="url(#head)" d="M{x:.0f},{bottom}C{x:.0f},{bottom + 24} {to:.0f},{child.y - 24} {to:.0f},{child.y - 1}"/>'
            else:
                yield f'<path class="down" d="M{x:.0f},{bottom}v9m-4,0h8"/>'
                yield written(x + 8, bottom + 12, number, "s")
        if other := pages.get(page.next):
            y = page.y + page.middle
            yield f'<path class="next" marker-end="url(#head)" d="M{page.x + page.wide + 1:.0f},{y:.0f}H{other.x - 1:.0f}"/>'
            yield written(page.x + page.wide + 10, y - 4, "next", "s")


def title_of(lines):
    """The lines that came before a drawing: those that begin alike, one after the other, are counted."""
    said = []
    for word, group in itertools.groupby(lines, lambda line: line if line.startswith("begin ") else line.split(" ")[0]):
        group = list(group)
        same = group[0] if len({*group}) == 1 else None
        said += [f"{same or word} ×{len(group)}"] if len(group) > 2 or same and len(group) > 1 else group
    return " · ".join(said)


def merged(drawings):
    """Drawings, each the lines before it and its own lines, without those that are the same again."""
    frames = []
    for before, drawing in drawings:
        if frames and frames[-1][1] == drawing:
            frames[-1][0].extend(before)
        elif drawing:
            frames.append((list(before), drawing))
    return frames


def picture(drawings):
    """The SVG of drawings."""
    parts, right, top = [], max(map(len, LEGEND)) * 6.1, 12
    for number, (before, drawing) in enumerate(merged(drawings), 1):
        if number > 1:
            parts.append(f'<path class="rule" d="M{MARGIN},{top - 6}H10000"/>')
        for line in textwrap.wrap(f"{number}  {title_of(before)}", LETTERS_OF_TITLE):
            top += 16
            parts.append(written(MARGIN, top - 4, line, "t"))
        levels = levels_of(drawing)
        wide, end = placed(levels, top + 6)
        parts += [it for level in levels for page in level for it in page.drawn()]
        parts += arrows(levels)
        right, top = max(right, wide), end + 22
    parts += [written(MARGIN, top + 2 + 14 * at, line, "s") for at, line in enumerate(LEGEND)]
    size = f'width="{right + 2 * MARGIN:.0f}" height="{top + 14 * len(LEGEND)}"'
    begin = [f'{HEAD} {size} font-family="DejaVu Sans Mono,Menlo,Consolas,monospace" font-size="12">', DEFINITIONS, f"<style>{STYLE}</style>"]
    return "\n".join([*begin, '<rect width="100%" height="100%" fill="#fff"/>', *parts, "</svg>"]) + "\n"


def drawings_of(lines):
    """The drawings among lines that were printed, each with the lines before it."""
    before, drawing = [], []
    for line in [*lines, ""]:
        if drawing and (line == "level 0" or not is_drawing(line)):
            if len(drawing) > 1:
                yield before, drawing
                before = []
            drawing = []
        (drawing if is_drawing(line) else before).append(line)


def before_each(lines):
    """The lines before each `draw`."""
    before = []
    for line in lines:
        if line == "draw":
            yield before
            before = []
        elif line and line[0] != "#":
            before.append(line)
