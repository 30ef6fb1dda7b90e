"""Which line `sledrun` cannot read, and why, in the words of the shell: for `run`. The program itself says only which one it is."""
import re
import shlex

GREATEST = 2**64 - 1
BYTES = rb"(?!-(?: |\Z))(?=[!-~])(?:%|[!-$&-~]*(?:%[0-9a-f]{2}[!-$&-~]*)*)"
# What stands for the words that a line takes.
TAKES = {rb"K": BYTES, rb"V": BYTES, rb"OLD": rb"(?:-|" + BYTES + rb")", rb"N": rb"(?:0|[1-9][0-9]*)"}
FORMS = rb"""tree K|insert K V|remove K|get K|cas K OLD OLD|begin insert K V|begin remove K|begin get K|begin cas K OLD OLD
batch(?: K OLD)*|(?:step|finish|abandon|crash) (?P<number>N)|flush|dump"""
READS = re.compile(re.sub(rb"\b(?:K|V|OLD|N)\b", lambda it: TAKES[it[0]], FORMS.replace(b"\n", b"|")))


def is_read(line):
    """Whether `sledrun` reads a line."""
    form = READS.fullmatch(line)
    return bool(form) and (form["number"] is None or int(form["number"]) <= GREATEST)


class Lines:
    """What goes by unchanged, and of its lines the first that cannot be read: its number, and itself."""

    def __init__(self):
        self.count, self.parts, self.bad = 0, [], None

    def see(self, part):
        if not self.bad:
            self.look_at(part)
        return part

    def look_at(self, part):
        if b"\n" not in part:
            self.parts.append(part)
            return
        *lines, rest = b"".join([*self.parts, part]).split(b"\n")
        self.parts = [rest]
        for line in lines:
            self.look_at_line(line)

    def end(self):
        """The last line may lack its end."""
        if rest := b"".join(self.parts):
            self.look_at_line(rest)
        return b""

    def look_at_line(self, line):
        self.count += 1
        if not self.bad and not is_read(line):
            self.bad = self.count, line


def reason(line):
    """Why a line cannot be read, and what the shell does with it."""
    # It reads all lines of the shell, and takes its time to load.
    from oracle import BadLine, read_line

    passed_over = "passes over empty lines, # comments and carriage returns"
    text = line.decode("latin-1").removesuffix("\r")
    if not text or text[0] == "#" or text.encode("latin-1") != line:
        what = "is empty" if not text else "is a comment" if text[0] == "#" else "ends in a carriage return"
        return what, passed_over
    try:
        read_line(text)
        return "is a line of the shell", f"reads it, and {passed_over}"
    except BadLine as why:
        # The program itself has no `help`.
        said = str(why).replace("`help` lists", "the shell's `help` lists")
        return f"cannot be read: {said}", f"goes on after it, and {passed_over}"


def told(bad, files):
    """The first line that could not be read, and why, as the shell says it."""
    number, line = bad
    what, shell = reason(line)
    return f"line {number} {what}; {shlex.join(['./run', '--shell', *files])} {shell}"
