"""The pairs that `crates/bench_files` writes, made again, and the checksums of its answers."""
import functools

# The lengths of the values.
SHORTEST, LONGEST = 16, 100
SEED = 7
# Values are pieces of one row of bytes, and begin at one of so many places.
STARTS = 256
MASK = (1 << 64) - 1


def scattered(place):
    """A number that looks random, another one for each place."""
    number = place * 0x9E3779B97F4A7C15 & MASK
    number = (number ^ (number >> 30)) * 0xBF58476D1CE4E5B9 & MASK
    number = (number ^ (number >> 27)) * 0x94D049BB133111EB & MASK
    return number ^ (number >> 31)


ROW = bytes(scattered(place) >> 56 for place in range(STARTS + LONGEST))


def digest(value):
    """A value as a number: how long it is, and its first six bytes."""
    return len(value) << 48 ^ int.from_bytes(value[:6], "big")


def sum_of_pair(place):
    """What the pair at a place adds to the checksum of a scan."""
    key, number = scattered(SEED + place).to_bytes(8, "big"), scattered(SEED ^ place)
    start, length = number % STARTS, SHORTEST + (number >> 32) % (LONGEST - SHORTEST + 1)
    return digest(key) ^ digest(ROW[start:start + length])


@functools.cache
def sum_of_scan(pairs):
    """The checksum of a scan of so many pairs, from the first on."""
    return sum(map(sum_of_pair, range(pairs))) & MASK


def sum_of_load(pairs):
    """The checksum of a load of so many pairs, of which none was there before."""
    total = 0
    for _ in range(pairs):
        total = (total << 1 | total >> 63) & MASK ^ 1 << 63
    return total


def words_of(folder, pairs, flushed_each, workload):
    """The words of the program for a workload on the database of a folder."""
    return [str(word) for word in (folder, pairs, SEED, SHORTEST, LONGEST, flushed_each, workload)]
