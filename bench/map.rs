//! The twin of `crates/bench` over the ordered map of the standard library: the same words, calls, output and checksums.
//!
//!     map PAIRS CALLS SEED SHORTEST LONGEST FLUSH WORKLOAD..
//!     map PAIRS CALLS SEED SHORTEST LONGEST FLUSH WORKLOAD.. direct WORKLOAD..
//!     map lines
//!
//! With the word `lines` it is a twin of `sledrun`: it reads `insert`, `get` and `remove` lines of plain words, and `flush`.
use std::collections::BTreeMap;
use std::io::{self, BufRead, BufWriter, Write};
use std::ops::Bound;

const STARTS: u64 = 256;
const CHOICES: u64 = 1 << 63;
const RANGE: usize = 100;
const BATCH: u64 = 100;

type Bytes = Box<[u8]>;

unsafe extern "C" {
    // The processor time of the process, in microseconds.
    safe fn clock() -> i64;
}

fn scattered(place: u64) -> u64 {
    let number = place.wrapping_mul(0x9e37_79b9_7f4a_7c15);
    let number = (number ^ (number >> 30)).wrapping_mul(0xbf58_476d_1ce4_e5b9);
    let number = (number ^ (number >> 27)).wrapping_mul(0x94d0_49bb_1331_11eb);
    number ^ (number >> 31)
}

fn digest(value: Option<&[u8]>) -> u64 {
    let Some(value) = value else {
        return 1 << 63;
    };
    let first = value.get(..6).unwrap_or(value);
    first.iter().fold(value.len() as u64, |digest, byte| {
        digest << 8 ^ u64::from(*byte)
    })
}

struct Bench {
    map: BTreeMap<Bytes, Bytes>,
    pairs: u64,
    calls: u64,
    seed: u64,
    shortest: u16,
    longest: u16,
    row: Vec<u8>,
    subscribers: u64,
}

impl Bench {
    fn key(&self, place: u64) -> [u8; 8] {
        scattered(self.seed.wrapping_add(place)).to_be_bytes()
    }

    fn value(&self, number: u64) -> Bytes {
        let number = scattered(self.seed ^ number);
        let more = u64::from(self.longest.saturating_sub(self.shortest)) + 1;
        let start = (number % STARTS) as usize;
        let len = usize::from(self.shortest) + ((number >> 32) % more) as usize;
        Box::from(self.row.get(start..start + len).unwrap_or_default())
    }

    fn choice(&self, turn: u64) -> u64 {
        scattered(self.seed.wrapping_add(CHOICES).wrapping_add(turn))
    }

    fn loaded(&self, turn: u64) -> u64 {
        self.choice(turn).checked_rem(self.pairs).unwrap_or(0)
    }

    fn get(&self, place: u64) -> u64 {
        digest(self.map.get(&self.key(place)[..]).map(|value| &value[..]))
    }

    fn insert(&mut self, place: u64, number: u64) -> u64 {
        let (key, value) = (Box::new(self.key(place)), self.value(number));
        digest(self.map.insert(key, value).as_deref())
    }

    // The inserts from this turn on, in one batch: how many there are.
    fn batch(&mut self, from: u64) -> u64 {
        let end = self.calls.min(from + BATCH);
        for turn in from..end {
            self.insert(self.pairs.wrapping_add(turn), !turn);
        }
        end - from
    }

    fn batches(&mut self) -> u64 {
        (0..self.calls.div_ceil(BATCH)).fold(0u64, |sum, batch| {
            sum.rotate_left(1) ^ self.batch(batch * BATCH)
        })
    }

    fn remove(&mut self, place: u64) -> u64 {
        digest(self.map.remove(&self.key(place)[..]).as_deref())
    }

    fn mixed(&mut self, turn: u64) -> u64 {
        let choice = self.choice(turn);
        let place = self.loaded(turn);
        if (choice >> 32) % 100 >= 5 {
            return self.get(place);
        }
        let other = self.pairs.wrapping_add(place);
        self.insert(if choice % 2 == 0 { place } else { other }, !turn)
    }

    // Nobody watches a map, so a subscriber has a number alone.
    fn watch(&mut self) -> u64 {
        self.subscribers += 1;
        self.subscribers
    }

    // So many pairs at most from a key on: how many there were, and a checksum of them.
    fn taken(&self, from: &[u8], most: usize) -> (u64, u64) {
        let pairs = self.map.range::<[u8], _>((Bound::Included(from), Bound::Unbounded));
        pairs.take(most).fold((0, 0u64), |(count, sum), (key, value)| {
            let pair = digest(Some(key)).wrapping_add(digest(Some(value)));
            (count + 1, sum.rotate_left(1) ^ pair)
        })
    }

    fn run(&mut self, workload: &str) -> Option<(u64, u64)> {
        if workload == "scan" || workload == "steps" {
            return Some(self.taken(b"", usize::MAX));
        }
        if workload == "batches" {
            return Some((self.calls, self.batches()));
        }
        let calls = if workload == "load" {
            self.pairs
        } else {
            self.calls
        };
        let turn: fn(&mut Bench, u64) -> u64 = match workload {
            "load" => |bench, turn| bench.insert(turn, turn),
            "inserts" => |bench, turn| bench.insert(bench.pairs.wrapping_add(turn), turn),
            "removals" => |bench, turn| bench.remove(turn),
            "mix" => |bench, turn| bench.mixed(turn),
            "ranges" => |bench, turn| bench.taken(&bench.key(bench.loaded(turn)), RANGE).1,
            "gets" | "slots" => |bench, turn| bench.get(bench.loaded(turn)),
            "watches" => |bench, _| bench.watch(),
            _ => return None,
        };
        let mut sum = 0u64;
        for number in 0..calls {
            sum = sum.rotate_left(1) ^ turn(self, number);
        }
        Some((calls, sum))
    }
}

fn measure(words: &[String]) -> Option<()> {
    let [pairs, calls, seed, shortest, longest, flush, workloads @ ..] = words else {
        return None;
    };
    flush.parse::<u64>().ok()?;
    let longest = longest.parse().ok()?;
    let mut bench = Bench {
        map: BTreeMap::new(),
        pairs: pairs.parse().ok()?,
        calls: calls.parse().ok()?,
        seed: seed.parse().ok()?,
        shortest: shortest.parse().ok()?,
        longest,
        row: (0..STARTS + u64::from(longest))
            .map(|place| scattered(place).to_be_bytes()[0])
            .collect(),
        subscribers: 0,
    };
    // Direct or not is all one to the map.
    for workload in workloads.iter().filter(|word| *word != "direct") {
        let start = clock();
        let (calls, sum) = bench.run(workload)?;
        let time = clock() - start;
        println!("{workload} {calls} {sum:016x}");
        eprintln!("{workload} {time}");
    }
    std::mem::forget(bench);
    Some(())
}

fn tell(output: &mut impl Write, kind: &[u8], value: Option<&[u8]>) -> io::Result<()> {
    output.write_all(kind)?;
    output.write_all(value.unwrap_or(b"-"))?;
    output.write_all(b"\n")
}

fn answer(
    map: &mut BTreeMap<Bytes, Bytes>,
    line: &[u8],
    output: &mut impl Write,
) -> io::Result<bool> {
    let mut words = line.split(|byte| *byte == b' ');
    match (words.next(), words.next(), words.next(), words.next()) {
        (Some(b"insert"), Some(key), Some(value), None) => tell(
            output,
            b"old ",
            map.insert(key.into(), value.into()).as_deref(),
        )?,
        (Some(b"remove"), Some(key), None, None) => {
            tell(output, b"old ", map.remove(key).as_deref())?
        }
        (Some(b"get"), Some(key), None, None) => {
            tell(output, b"value ", map.get(key).map(|value| &value[..]))?
        }
        (Some(b"flush"), None, None, None) => output.write_all(b"flushed 0\n")?,
        _ => return Ok(false),
    }
    Ok(true)
}

fn lines() -> io::Result<bool> {
    let mut map = BTreeMap::new();
    let mut input = io::stdin().lock();
    let mut output = BufWriter::new(io::stdout().lock());
    let mut line = Vec::new();
    loop {
        line.clear();
        if input.read_until(b'\n', &mut line)? == 0 {
            output.flush()?;
            std::mem::forget(map);
            return Ok(true);
        }
        let text = line.strip_suffix(b"\n").unwrap_or(&line);
        if !answer(&mut map, text, &mut output)? {
            return Ok(false);
        }
    }
}

fn main() {
    let words: Vec<String> = std::env::args().skip(1).collect();
    let is_well = match &words[..] {
        [word] if word == "lines" => lines().unwrap_or(false),
        words => measure(words).is_some(),
    };
    std::process::exit(if is_well { 0 } else { 1 });
}
