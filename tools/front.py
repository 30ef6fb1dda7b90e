"""The shell for people at a terminal, for `run --shell`: line editing, a history over sessions, completion of the words of its `help`,
and quotes for bytes that no word has. It starts the shell at a terminal of its own, and hands it each line that was typed here."""
import contextlib
import glob
import os
import pathlib
import readline
import re
import subprocess
import sys

from drawing import HEAD, drawings_of, picture
from engine import Shell
from feed import write
from spelling import PLAIN, Mistyped, meant_by, spelled, words_of

MOST_LINES = 2000
HELP = {"draw svg": "draw svg [FILE]: adds a picture of the tree to those of this session in FILE, which is tree.svg if none is named"}


def paths_of(word):
    """The words of the files and folders whose paths begin as the word spells it. A byte may be spelled in part."""
    whole = re.sub("%[0-9a-f]?$", "", word)
    begun, rest = meant_by(whole), word[len(whole):]
    found = (path + "/" * os.path.isdir(path) for path in glob.glob(glob.escape(begun) + "*"))
    # A quote would begin a text with spaces here.
    plain = PLAIN - {ord('"')}
    words = ("%2d" if path == "-" else spelled(path, plain) for path in found)
    return [it for it in words if it.startswith(spelled(begun, plain) + rest)]


def listed(path):
    """What the lines for use begin with, as the `help` of a shell of its own lists them, which has no folder."""
    said = subprocess.run([path], input=b"help\n", stdout=subprocess.PIPE).stdout.decode(errors="replace")
    entries = [entry for line in said.splitlines() if line.startswith("    ") for entry in line.strip().split(", ")]
    # Behind the lists stands of what else there is help.
    topics = re.findall(r"`(help [a-z]+)`", said)
    return {" ".join(re.match(r"(?:[a-z?][a-z-]*(?: |$))*", entry)[0].split()) for entry in entries} - {""} | {*HELP, *topics}


class Completion:
    """What a word may become at the Tab key."""

    def __init__(self, lines):
        self.lines, self.found = lines, []

    def choices(self, before, text):
        if before in (["draw", "svg"], ["run"], ["each-crash"], ["each-refusal"]):
            return paths_of(text)
        found = set()
        for words in [before, *[before[1:]] * (before[:1] in (["help"], ["?"]))]:
            places = [line.split() for line in self.lines]
            found |= {place[len(words)] for place in places if place[: len(words)] == words and len(place) > len(words)}
        return [it for it in found if it.startswith(text)]

    def __call__(self, text, number):
        if not number:
            before = readline.get_line_buffer()[: readline.get_begidx()].split()
            self.found = sorted(self.choices(before, text))
            if len(self.found) == 1 and not self.found[0].endswith("/"):
                self.found[0] += " "
        return self.found[number] if number < len(self.found) else None


class History:
    """The lines of earlier sessions and of this one, in a file where one can be kept."""

    def __init__(self):
        state = os.environ.get("XDG_STATE_HOME", "")
        base = pathlib.Path(state if os.path.isabs(state) else os.path.expanduser("~/.local/state"))
        self.file = base / "donnaveku" / "history"
        readline.set_history_length(MOST_LINES)
        readline.set_auto_history(False)
        with self.kept():
            if not base.is_absolute():
                raise OSError
            self.file.parent.mkdir(mode=0o700, parents=True, exist_ok=True)
            os.close(os.open(self.file, os.O_RDWR | os.O_CREAT, 0o600))
            readline.read_history_file(self.file)

    @contextlib.contextmanager
    def kept(self):
        """Where the file cannot be kept, nothing is."""
        try:
            yield
        except (OSError, ValueError):
            self.file = None

    def add(self, line):
        """Each line is kept at once, since a terminal may be closed at any time."""
        count = readline.get_current_history_length()
        if line.strip() and line != (readline.get_history_item(count) if count else None):
            readline.add_history(line)
            with self.kept():
                if self.file:
                    readline.append_history_file(1, self.file)


class Pictures:
    """What was drawn in this session, by the file that has the pictures of it."""

    def __init__(self):
        self.drawn, self.lines = {}, []

    def add(self, shell, file):
        """Draws the tree, and writes the file anew: what there is to say of it."""
        said = b"".join(shell.ask("draw")).decode()
        drawings = [drawing for _, drawing in drawings_of(said.splitlines())]
        if len(drawings) != 1:
            return said
        path = pathlib.Path(file).expanduser()
        frames = self.drawn.get(path, [])
        try:
            if not frames and path.exists() and not path.read_text(errors="replace").startswith(HEAD):
                return f"{file} is there, and is no such picture\n"
            frames = [*frames, (self.lines, drawings[0])]
            path.write_text(picture(frames), encoding="utf-8")
        except OSError as fault:
            return f"{file} cannot be written: {fault.strerror}\n"
        except ValueError:
            return "a path has no zero byte\n"
        self.drawn[path], self.lines = frames, []
        return f"drawn {len(frames)} in {file}\n"


def say(text):
    write(1, text if isinstance(text, bytes) else text.encode(errors="surrogateescape"))


def help_on(text):
    """What this front has to say of its own lines that begin so."""
    if not text:
        return f"At this terminal: {', '.join(it.partition(':')[0] for it in HELP.values())}; Tab completes a word, and quotes hold any bytes\n"
    return "".join(it + "\n" for line, it in HELP.items() if line.startswith(text))


def answer(shell, pictures, line):
    """Has a line answered: by the shell, but for what only this front knows."""
    words = [(line, line)] if line.startswith("#") else words_of(line)
    meant, spells = [it for it, _ in words], " ".join(it for _, it in words)
    if meant[:2] == ["draw", "svg"] and len(meant) < 4:
        say(pictures.add(shell, meant_by(words[2][1]) if meant[2:] else "tree.svg"))
        return
    asked = " ".join(meant[1:]) if meant[0] in ("help", "?") else None
    if asked is None:
        pictures.lines.append(spells)
    if asked not in HELP:
        for part in shell.ask(spells):
            say(part)
    if asked is not None:
        say(help_on(asked))


def typed():
    """The next line, or None at the end. Ctrl-C gives a line up."""
    while True:
        try:
            return input("> ")
        except EOFError:
            say("\n")
            return None
        except KeyboardInterrupt:
            say("\n")


def converse(shell, lines):
    for part in shell.answer():
        say(part)
    history, pictures = History(), Pictures()
    for setting in ["tab: complete", "set enable-bracketed-paste off"]:
        readline.parse_and_bind(setting)
    readline.set_completer_delims(" ")
    readline.set_completer(Completion(lines))
    sys.stdin.reconfigure(errors="surrogateescape")
    while shell.is_there and (line := typed()) is not None:
        history.add(line)
        try:
            if line.strip():
                answer(shell, pictures, line)
        except Mistyped as why:
            say(f"{why}\n")
    for _ in shell.ask("quit") if shell.is_there else ():
        pass


def talk(path, *words):
    """Runs the shell with these words for somebody at this terminal: its status. Ctrl-C while a line is answered ends it."""
    shell = Shell(path, *words)
    try:
        converse(shell, listed(path))
    except (KeyboardInterrupt, SystemExit):
        shell.process.terminate()
        shell.status()
        raise
    return shell.status()
