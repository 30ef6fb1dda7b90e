//! The twin of `crates/bench_threads` over an ordered map of the standard library behind a lock: the same words, calls, output and
//! checksums.
//!
//!     shared_map PAIRS CALLS SEED THREADS WORKLOAD..
use std::collections::BTreeMap;
use std::sync::{Arc, Mutex};
use std::thread;
use std::time::Instant;

const CHOICES: u64 = 1 << 63;
const TURNS: u64 = 1 << 40;
const INSERTS: u64 = 5;

type Bytes = Vec<u8>;
type Shared = Arc<Mutex<BTreeMap<Bytes, Bytes>>>;

fn scattered(place: u64) -> u64 {
    let number = place.wrapping_mul(0x9e37_79b9_7f4a_7c15);
    let number = (number ^ (number >> 30)).wrapping_mul(0xbf58_476d_1ce4_e5b9);
    let number = (number ^ (number >> 27)).wrapping_mul(0x94d0_49bb_1331_11eb);
    number ^ (number >> 31)
}

fn mark_of(value: Option<Bytes>) -> u64 {
    match value.as_deref().and_then(|value| value.first_chunk::<8>()) {
        Some(mark) => u64::from_be_bytes(*mark),
        None => 1,
    }
}

#[derive(Clone, Copy)]
struct Pairs {
    seed: u64,
    count: u64,
}

impl Pairs {
    fn key(&self, place: u64) -> [u8; 8] {
        scattered(self.seed.wrapping_add(place)).to_be_bytes()
    }

    fn value(&self, place: u64, number: u64) -> Bytes {
        let mark = scattered(self.seed ^ place);
        let value = u128::from(mark) << 64 | u128::from(number);
        value.to_be_bytes().to_vec()
    }

    fn choice(&self, caller: u64, turn: u64) -> u64 {
        let number = caller.wrapping_mul(TURNS).wrapping_add(turn);
        scattered(self.seed.wrapping_add(CHOICES).wrapping_add(number))
    }

    fn loaded(&self) -> BTreeMap<Bytes, Bytes> {
        let mut map = BTreeMap::new();
        for place in 0..self.count {
            map.insert(self.key(place).to_vec(), self.value(place, 0));
        }
        map
    }
}

#[derive(Clone, Copy)]
struct Work {
    pairs: Pairs,
    calls: u64,
    percent: u64,
}

impl Work {
    // Makes the call by this number: what stands for it in a checksum. The lock is held for the call alone.
    fn call(&self, map: &Shared, choice: u64) -> u64 {
        let place = choice % self.pairs.count;
        let key = self.pairs.key(place);
        if (choice >> 32) % 100 < self.percent {
            let value = self.pairs.value(place, choice);
            let old = map.lock().unwrap().insert(key.to_vec(), value);
            mark_of(old).rotate_left(1)
        } else {
            let value = map.lock().unwrap().get(&key[..]).cloned();
            mark_of(value)
        }
    }

    // Makes all calls of a caller: how many, and their sum.
    fn done(&self, map: &Shared, caller: u64) -> (u64, u64) {
        (0..self.calls).fold((0, 0u64), |(calls, sum), turn| {
            let choice = self.pairs.choice(caller, turn);
            (calls + 1, sum.wrapping_add(self.call(map, choice)))
        })
    }

    fn run(self, map: &Shared, callers: u64) -> (u64, u64) {
        let threads: Vec<_> = (1..=callers)
            .map(|caller| {
                let map = Arc::clone(map);
                thread::spawn(move || self.done(&map, caller))
            })
            .collect();
        threads.into_iter().fold((0, 0u64), |(calls, sum), thread| {
            let (more, its) = thread.join().unwrap();
            (calls + more, sum.wrapping_add(its))
        })
    }
}

fn measure(words: &[String]) -> Option<()> {
    let [pairs, calls, seed, threads, workloads @ ..] = words else {
        return None;
    };
    let pairs = Pairs {
        count: pairs.parse().ok().filter(|count| *count > 0)?,
        seed: seed.parse().ok()?,
    };
    let calls = calls.parse().ok()?;
    let threads = u64::from(threads.parse::<u8>().ok()?);
    let map = Arc::new(Mutex::new(pairs.loaded()));
    for workload in workloads {
        let percent = match &workload[..] {
            "gets" | "reads" => 0,
            "mix" | "mixed_reads" => INSERTS,
            _ => return None,
        };
        let work = Work {
            pairs,
            calls,
            percent,
        };
        let start = Instant::now();
        let (calls, sum) = work.run(&map, threads);
        let time = start.elapsed().as_micros();
        println!("{workload} {calls} {sum:016x}");
        eprintln!("{workload} {time}");
    }
    std::mem::forget(map);
    Some(())
}

fn main() {
    let words: Vec<String> = std::env::args().skip(1).collect();
    let is_well = measure(&words).is_some();
    std::process::exit(if is_well { 0 } else { 1 });
}
