"""The programs of crates.txt, built from the sources as they stand and kept beside them: for `run` and `tests/unproved`.

A program is kept in one of two ways: proved, or compiled with checks and not proved, as `rt try` does it. Beside it stands a stamp of
what it was built from. The stamp holds contents and no times, and those of the program itself, so a program that was cut, a source
that was taken away or put back, and a clock that was wrong are all noticed.
"""
import contextlib
import fcntl
import functools
import glob
import hashlib
import os
import pathlib
import subprocess
import sys
import tempfile
import time

TOP = pathlib.Path(__file__).resolve().parent.parent
# How often `rt try` runs the program that it compiled. Once is enough for it to be found, on a machine that does little else.
RUNS = 5


class NotBuilt(Exception):
    """Why a program is not there."""


def say(text):
    print(f"{pathlib.Path(sys.argv[0]).name}: {text}", file=sys.stderr, flush=True)


def lines_of_crates():
    """The line of each crate in crates.txt, by its name."""
    lines = (line.partition("#")[0].strip() for line in (TOP / "crates.txt").read_text().splitlines())
    return {line.split(":")[0].split()[0]: line for line in lines if ":" in line}


def folder_of(crate):
    return TOP / "crates" / crate


def programs():
    return [crate for crate in lines_of_crates() if (folder_of(crate) / "src/main.rt").exists()]


def crates_of(program):
    """A program's crate, and all that it stands on, also by way of others."""
    lines, found, left = lines_of_crates(), set(), [program]
    while left:
        crate = left.pop()
        if crate in lines and crate not in found:
            found.add(crate)
            left += lines[crate].partition(":")[2].split()
    return sorted(found)


@functools.lru_cache(None)
def version_of_kit():
    try:
        return subprocess.run(["rt", "version"], check=True, stdout=subprocess.PIPE).stdout
    except FileNotFoundError:
        raise NotBuilt("there is no command rt on the PATH") from None
    except subprocess.CalledProcessError:
        raise NotBuilt("rt cannot tell its version") from None


def sum_of(*parts):
    return hashlib.sha256(b"".join(hashlib.sha256(part).digest() for part in parts)).hexdigest()


class Kept:
    """Where a program is kept, and how it gets there."""

    folders = ()  # The folders of a crate that the program is made of.
    is_new = False  # Whether it was built just now.

    def __init__(self, program):
        self.program = program
        self.crate = folder_of(program)
        self.folder = self.crate / "out" / self.way
        self.path = self.folder / program
        self.stamp = self.folder / "stamp"

    def sum_of_sources(self):
        """What changes whenever a source or the kit does."""
        parts = [version_of_kit()]
        for crate in crates_of(self.program):
            parts.append(lines_of_crates()[crate].encode())
            for folder in self.folders:
                files = sorted(it for it in (folder_of(crate) / folder).rglob("*") if it.suffix in (".rt", ".antt"))
                for file in files:
                    parts += [bytes(file.relative_to(TOP)), file.read_bytes()]
        return sum_of(*parts)

    def is_there(self):
        try:
            return self.stamp.read_text() == f"{self.sum_of_sources()} {sum_of(self.path.read_bytes())}\n"
        except FileNotFoundError:
            return False

    def keep(self, sources, built):
        """Puts a program and its stamp there, each of them whole."""
        new, part, stamp = self.folder / "new", self.folder / "new.part", self.folder / "stamp.new"
        part.write_bytes(built)
        # Copied by a process of its own. What this one writes to may be open in another that it forks meanwhile, and could not be run.
        subprocess.run(["cp", part, new], check=True)
        part.unlink()
        new.chmod(0o755)
        stamp.write_text(f"{sources} {sum_of(built)}\n")
        with contextlib.suppress(FileNotFoundError):
            self.stamp.unlink()
        new.replace(self.path)
        stamp.replace(self.stamp)

    @contextlib.contextmanager
    def alone(self):
        """Waits until nobody else builds this."""
        with open(self.folder / "lock", "w") as lock:
            try:
                fcntl.flock(lock, fcntl.LOCK_EX | fcntl.LOCK_NB)
            except BlockingIOError:
                say(f"another build of {self.program} goes on; waiting for it")
                fcntl.flock(lock, fcntl.LOCK_EX)
            yield

    def make(self):
        """The path of the program, which is built where it is not there."""
        if self.is_there():
            return self.path
        if not (self.crate / "src").is_dir():
            raise NotBuilt(f"there is no folder {self.crate}/src")
        self.folder.mkdir(parents=True, exist_ok=True)
        with self.alone():
            if not self.is_there():
                # Summed before the build: where a source changes meanwhile, the stamp does not fit, and the next run builds anew.
                sources = self.sum_of_sources()
                self.keep(sources, self.build())
                self.is_new = True
        return self.path


class Proved(Kept):
    way = "proved"
    folders = ("src", "specs", "proofs")

    def build(self):
        say(f"proving and building {self.program}; the first time this takes some 25 minutes on four cores, and for the shell longer")
        # What rt says goes to standard error, since standard output is the program's.
        rt = subprocess.Popen(["rt", "run"], cwd=self.crate, stdin=subprocess.DEVNULL, stdout=sys.stderr)
        with ended(rt):
            rt.wait()
        if rt.returncode:
            raise NotBuilt("the program was not proved and built; what rt said stands above")
        try:
            return (self.crate / "out" / self.program).read_bytes()
        except FileNotFoundError:
            raise NotBuilt("rt built no program") from None


class Unproved(Kept):
    way = "unproved"
    folders = ("src",)

    def build(self):
        say(f"compiling {self.program} with checks and without proofs, once, in a minute or two")
        with tempfile.TemporaryDirectory() as room, open(f"{room}/said", "w+") as said:
            rt = self.start(room, said)
            with ended(rt):
                program = caught(rt, room)
            if rt.returncode:
                said.seek(0)
                raise NotBuilt(f"rt try built no program; it said:\n{said.read().rstrip()}")
            if not program:
                raise NotBuilt("rt try ran the program where this script did not find it")
            # Whole by now, since it was run and has ended. It can still be read, though rt has taken its name away.
            with program:
                return program.read()

    def start(self, room, said):
        """Has `rt try` run the program on a few files without a line, each time in a folder of the room."""
        cases = pathlib.Path(room, "cases")
        cases.mkdir()
        for number in range(RUNS):
            (cases / str(number)).touch()
        words = ["rt", "try", "--steps", "1", "--cases", str(cases)]
        how = {"stdin": subprocess.DEVNULL, "stdout": subprocess.DEVNULL, "stderr": said}
        return subprocess.Popen(words, cwd=self.crate, env={**os.environ, "TMPDIR": room}, **how)


def caught(rt, room):
    """The program that rt compiled, opened while rt runs it: rt itself keeps none."""
    found = None
    while rt.poll() is None:
        for path in [] if found else glob.glob(f"{glob.escape(room)}/**/program", recursive=True):
            with contextlib.suppress(FileNotFoundError):
                found = open(path, "rb")
                break
        time.sleep(0.01)
    return found


@contextlib.contextmanager
def ended(process):
    """Ends a process that still runs when this is left, as when somebody interrupts."""
    try:
        yield
    finally:
        if process.poll() is None:
            process.terminate()
            process.wait()
