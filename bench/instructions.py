"""How many instructions runs of the programs take, counted by `valgrind` (callgrind). They are the same in each run."""
import concurrent.futures
import os
import pathlib
import re
import shutil
import subprocess

# The lengths of the values of `crates/bench` where a limit speaks of them.
SHORTEST, LONGEST = 16, 100
SEED = 7
# After so many changes there is a flush.
FLUSH = 1_000
MASK = (1 << 64) - 1
LIMITS = pathlib.Path(__file__).resolve().parent / "limits"


def limits():
    """The limits of `bench/limits`, by the names of their figures."""
    rows = [line.rsplit(None, 1) for line in LIMITS.read_text().splitlines() if line.strip() and not line.startswith("#")]
    return {name.strip(): int(limit.replace(",", "")) for name, limit in rows}


def can_count():
    return shutil.which("valgrind") is not None


def counted(words, lines=os.devnull):
    """How many instructions a run takes, with the lines of a file as its input."""
    return int(re.search(r"Collected : (\d+)", told(words, lines))[1])


def mispredicted(words):
    """How many branches of a run go another way than the processor that `valgrind` has in mind expects."""
    return int(re.search(r"Mispredicts: +([\d,]+)", told(words, os.devnull, "--branch-sim=yes"))[1].replace(",", ""))


def told(words, lines, *options):
    """What `valgrind` says of a run that ends well, with the lines of a file as its input."""
    command = ["valgrind", "--tool=callgrind", "--callgrind-out-file=/dev/null", *options, *map(str, words)]
    with open(lines, "rb") as given:
        ran = subprocess.run(command, stdin=given, stdout=subprocess.DEVNULL, stderr=subprocess.PIPE, text=True)
    if ran.returncode:
        raise SystemExit(f"{words} ended with the status {ran.returncode}: {ran.stderr[-500:]}")
    return ran.stderr


def differences(work, runs):
    """Counts pairs of runs side by side: how many instructions the second of each pair takes more than the first."""
    flat = sorted({run for pair in runs for run in pair}, key=str)
    with concurrent.futures.ThreadPoolExecutor(max(1, (os.cpu_count() or 2) // 2)) as pool:
        counts = dict(zip(flat, pool.map(work, flat)))
    return [counts[more] - counts[less] for less, more in runs]


class Lines:
    """Lines for `sledrun`. The generator is written out, so that the lines are the same each time."""

    def __init__(self, lengths):
        self.number = 88172645463325252
        self.lengths = lengths
        self.keys = []
        self.made = 0

    def mixed(self):
        """The next number that looks random (xorshift of 64 bits)."""
        number = self.number
        number ^= (number << 13) & MASK
        number ^= number >> 7
        self.number = number ^ ((number << 17) & MASK)
        return self.number

    def new(self):
        """A key that was not there yet: 16 hexadecimal digits."""
        self.keys.append(f"{self.mixed():016x}")
        return self.keys[-1]

    def known(self):
        """A key that was inserted."""
        return self.keys[self.mixed() % len(self.keys)]

    def insert(self, key):
        """An insert of another value each time; now and then a flush after it."""
        self.made += 1
        shortest, longest = self.lengths
        length = shortest + (self.number >> 32) % (longest - shortest + 1)
        value = f"{self.made:08x}" * (longest // 8 + 1)
        flush = "flush\n" if self.made % FLUSH == 0 else ""
        return f"insert {key} {value[:length]}\n{flush}"

    def inserts(self, count):
        return "".join(self.insert(self.new()) for _ in range(count))

    def gets(self, count):
        return "".join(f"get {self.known()}\n" for _ in range(count))

    def mix(self, count):
        """So many lines, of which 95 in 100 are gets and 5 are inserts."""
        return "".join(self.insert(self.known()) if place % 20 == 0 else f"get {self.known()}\n" for place in range(count))


def put(folder, name, text):
    path = pathlib.Path(folder) / name
    path.write_text(text)
    return path
