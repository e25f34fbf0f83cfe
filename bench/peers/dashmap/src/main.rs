//! Measures dashmap on the workload that docs/SPEED.md describes.
//!
//! usage: dashmap_peer mix|get|merge|view|update|walk|fill|stall|memory THREADS CALLS KEYS uniform|zipf [numbers|spread|counts|bytes]
//!
//! Keys are texts, or numbers under dashmap's own hash or under the one of this repository's map, or byte strings, as their
//! values then are, too.
use dashmap::DashMap;
use std::collections::hash_map::RandomState;
use std::env;
use std::fs;
use std::hash::{BuildHasher, BuildHasherDefault, Hash, Hasher};
use std::hint::black_box;
use std::process::ExitCode;
use std::thread;
use std::time::{Duration, Instant};

#[derive(Clone, Copy, PartialEq)]
enum Mode {
    Mix,
    Get,
    Merge,
    View,
    Update,
    Walk,
    Fill,
    Stall,
    Memory,
}

impl Mode {
    fn named(name: &str) -> Option<Mode> {
        match name {
            "mix" => Some(Mode::Mix),
            "get" => Some(Mode::Get),
            "merge" => Some(Mode::Merge),
            "view" => Some(Mode::View),
            "update" => Some(Mode::Update),
            "walk" => Some(Mode::Walk),
            "fill" => Some(Mode::Fill),
            "stall" => Some(Mode::Stall),
            "memory" => Some(Mode::Memory),
            _ => None,
        }
    }
}

/// A value that stands for a number.
trait Value: Clone + Send + Sync {
    fn of(number: i64) -> Self;

    fn number(&self) -> i64;

    fn add_one(&mut self);
}

impl Value for i64 {
    fn of(number: i64) -> i64 {
        number
    }

    fn number(&self) -> i64 {
        *self
    }

    fn add_one(&mut self) {
        *self += 1;
    }
}

/// The number's eight bytes, twice.
impl Value for Box<[u8]> {
    fn of(number: i64) -> Box<[u8]> {
        let mut bytes = [0; 16];
        bytes[..8].copy_from_slice(&number.to_ne_bytes());
        bytes[8..].copy_from_slice(&number.to_ne_bytes());
        Box::new(bytes)
    }

    fn number(&self) -> i64 {
        self.first_chunk().map_or(0, |it| i64::from_ne_bytes(*it))
    }

    fn add_one(&mut self) {
        unimplemented!("byte strings are not merged");
    }
}

/// The hash of this repository's map, 31 bits, in both halves: dashmap goes by upper and by lower bits.
#[derive(Default)]
struct Spread(u64);

impl Hasher for Spread {
    fn write(&mut self, _bytes: &[u8]) {
        unreachable!();
    }

    fn write_u64(&mut self, number: u64) {
        let code = (number.wrapping_mul(0x9e37_79b9_7f4a_7c15) >> 32) as u32;
        let hash = u64::from((code ^ (code >> 16)) & 0x7fff_ffff);
        self.0 = hash << 33 | hash;
    }

    fn finish(&self) -> u64 {
        self.0
    }
}

/// The generator splitmix64.
struct Random(u64);

impl Random {
    fn draw(&mut self) -> u64 {
        self.0 = self.0.wrapping_add(0x9e37_79b9_7f4a_7c15);
        let mut z = self.0;
        z = (z ^ (z >> 30)).wrapping_mul(0xbf58_476d_1ce4_e5b9);
        z = (z ^ (z >> 27)).wrapping_mul(0x94d0_49bb_1331_11eb);
        z ^ (z >> 31)
    }
}

/// In how many steps the table of a choice by Zipf's law goes, each as likely as the others.
const STEPS: usize = 4096;

/// 2^40 over the rank to the 0.99, nearly.
fn weight(rank: u64) -> u64 {
    let exponent = rank.ilog2();
    let logarithm = u64::from(exponent) * 65_536 + ((rank << 16) >> exponent) - 65_536;
    let power = (logarithm * 454) >> 16;
    ((power + 65_536 + ((power * power) >> 17)) << 24) / rank
}

/// How the numbers of keys are chosen: each alike where there are no steps, or by Zipf's law with the exponent 0.99.
struct Choice {
    keys: u64,
    starts: Vec<u64>,
}

impl Choice {
    fn new(is_zipf: bool, keys: u64) -> Choice {
        let mut starts = Vec::new();
        if is_zipf {
            let total: u64 = (1..=keys).map(weight).sum();
            let mut before = 0;
            for rank in 1..=keys {
                before += weight(rank);
                while starts.len() < STEPS && (before >> 12) * 4096 >= (total >> 12) * starts.len() as u64 {
                    starts.push(rank - 1);
                }
            }
            starts.resize(STEPS + 1, keys - 1);
        }
        Choice { keys, starts }
    }

    fn number(&self, drawn: u64) -> usize {
        if self.starts.is_empty() {
            return ((drawn >> 16) % self.keys) as usize;
        }
        let step = (drawn >> 16) as usize % STEPS;
        let first = self.starts[step];
        let rank = first + (drawn >> 28) % (self.starts[step + 1] - first + 1);
        (rank * 7919 % self.keys) as usize
    }
}

/// Makes one thread's calls, and returns the sum of what its gets found, so that no get can be left out.
fn work<K: Clone + Eq + Hash, V: Value, S: BuildHasher + Clone>(
    map: &DashMap<K, V, S>,
    mode: Mode,
    seed: u64,
    calls: u64,
    names: &[K],
    choice: &Choice,
) -> i64 {
    let mut random = Random(seed);
    let mut found = V::of(0);
    let mut sum = 0_i64;
    for i in 0..calls {
        let drawn = random.draw();
        let name = &names[choice.number(drawn)];
        match (mode, drawn % 100) {
            (Mode::Merge, _) => map.entry(name.clone()).or_insert(V::of(0)).add_one(),
            (Mode::View, _) => {
                let seen = map.view(name, |_, value| value.number());
                sum = sum.wrapping_add(seen.unwrap_or(0));
            }
            (Mode::Update, _) => {
                map.entry(name.clone()).and_modify(V::add_one).or_insert_with(|| V::of(1));
            }
            (Mode::Get | Mode::Walk | Mode::Fill | Mode::Stall | Mode::Memory, _) | (Mode::Mix, 0..=79) => {
                if let Some(value) = map.get(name) {
                    found.clone_from(&value);
                    sum = sum.wrapping_add(found.number());
                }
            }
            (Mode::Mix, 80..=94) => {
                map.insert(name.clone(), V::of(i as i64));
            }
            (Mode::Mix, _) => {
                map.remove(name);
            }
        }
    }
    sum
}

/// Goes over the map so often, and returns the sum of the values that were shown.
fn walk<K: Eq + Hash, V: Value, S: BuildHasher + Clone>(map: &DashMap<K, V, S>, calls: u64) -> i64 {
    let mut sum = 0_i64;
    for _ in 0..calls {
        for entry in map.iter() {
            sum = sum.wrapping_add(entry.value().number());
        }
    }
    sum
}

/// Puts the keys from a number on that lie so far apart, and gives the longest put, where puts are timed.
fn fill<K: Clone + Eq + Hash, V: Value, S: BuildHasher + Clone>(
    map: &DashMap<K, V, S>,
    mode: Mode,
    first: usize,
    step: usize,
    names: &[K],
) -> Duration {
    let mut longest = Duration::ZERO;
    for (i, name) in names.iter().enumerate().skip(first).step_by(step) {
        if mode == Mode::Fill {
            map.insert(name.clone(), V::of(i as i64));
        } else {
            let start = Instant::now();
            map.insert(name.clone(), V::of(i as i64));
            longest = longest.max(start.elapsed());
        }
    }
    longest
}

/// Fills a new map. Gives how many million puts a second the threads made together, or the longest put in milliseconds.
fn run_fill<K, V, S>(mode: Mode, threads: usize, names: &[K], hasher: S) -> f64
where
    K: Clone + Eq + Hash + Send + Sync,
    V: Value,
    S: BuildHasher + Clone + Send + Sync,
{
    let map = DashMap::<K, V, S>::with_hasher(hasher);
    let start = Instant::now();
    let longest = thread::scope(|scope| {
        let fillers: Vec<_> = (0..threads)
            .map(|i| {
                let map = &map;
                scope.spawn(move || fill(map, mode, i, threads, names))
            })
            .collect();
        fillers.into_iter().map(|it| it.join().unwrap_or_default()).max()
    });
    if mode == Mode::Fill {
        names.len() as f64 / start.elapsed().as_secs_f64() / 1e6
    } else {
        longest.unwrap_or_default().as_secs_f64() * 1e3
    }
}

/// How many bytes of this process are resident, in pages of 4 KiB.
fn resident() -> f64 {
    let said = fs::read_to_string("/proc/self/statm").unwrap_or_default();
    let pages: Option<f64> = said.split(' ').nth(1).and_then(|it| it.parse().ok());
    pages.unwrap_or(0.0) * 4096.0
}

/// Fills a new map by one thread. Gives how many bytes more are resident for each key.
fn run_memory<K: Clone + Eq + Hash, V: Value, S: BuildHasher + Clone>(names: &[K], hasher: S) -> f64 {
    let before = resident();
    let map = DashMap::<K, V, S>::with_hasher(hasher);
    fill(&map, Mode::Fill, 0, 1, names);
    (resident() - before) / names.len() as f64
}

/// How many million calls a second the threads made together of a new map.
fn run<K, V, S>(mode: Mode, threads: u64, calls: u64, names: &[K], is_zipf: bool, hasher: S) -> f64
where
    K: Clone + Eq + Hash + Send + Sync,
    V: Value,
    S: BuildHasher + Clone + Send + Sync,
{
    if mode == Mode::Fill || mode == Mode::Stall {
        return run_fill::<K, V, S>(mode, threads as usize, names, hasher);
    }
    if mode == Mode::Memory {
        return run_memory::<K, V, S>(names, hasher);
    }
    let choice = Choice::new(is_zipf, names.len() as u64);
    let map = DashMap::<K, V, S>::with_hasher(hasher);
    for (i, name) in names.iter().enumerate().step_by(2) {
        map.insert(name.clone(), V::of(i as i64));
    }
    let start = Instant::now();
    thread::scope(|scope| {
        for i in 0..threads {
            let (map, choice) = (&map, &choice);
            scope.spawn(move || {
                black_box(match mode {
                    Mode::Walk => walk(map, calls),
                    _ => work(map, mode, i + 1, calls, names, choice),
                })
            });
        }
    });
    // (of walks the entries that they show)
    let each = if mode == Mode::Walk { names.len().div_ceil(2) as u64 } else { 1 };
    (threads * calls * each) as f64 / start.elapsed().as_secs_f64() / 1e6
}

fn measure(words: &[String]) -> Option<()> {
    let (words, kind) = words.split_at(words.len().min(5));
    let [mode, threads, calls, keys, choice] = words else {
        return None;
    };
    let (threads, calls, keys): (u64, u64, u64) = (threads.parse().ok()?, calls.parse().ok()?, keys.parse().ok()?);
    let (its_mode, is_zipf, numbers): (Mode, bool, Vec<u64>) = (Mode::named(mode)?, choice == "zipf", (0..keys).collect());
    let rate = match kind {
        [] => {
            let names: Vec<String> = numbers.iter().map(|i| format!("k{i}")).collect();
            let names: Vec<&str> = names.iter().map(String::as_str).collect();
            run::<_, i64, _>(its_mode, threads, calls, &names, is_zipf, RandomState::new())
        }
        [kind] if kind == "numbers" => run::<_, i64, _>(its_mode, threads, calls, &numbers, is_zipf, RandomState::new()),
        [kind] if kind == "spread" => {
            run::<_, i64, _>(its_mode, threads, calls, &numbers, is_zipf, BuildHasherDefault::<Spread>::default())
        }
        [kind] if kind == "counts" => {
            let names: Vec<Box<[u8]>> = numbers.iter().map(|i| format!("{i:016x}").into_bytes().into()).collect();
            run::<_, i64, _>(its_mode, threads, calls, &names, is_zipf, RandomState::new())
        }
        [kind] if kind == "bytes" => {
            let names: Vec<Box<[u8]>> = numbers.iter().map(|i| format!("{i:016x}").into_bytes().into()).collect();
            run::<_, Box<[u8]>, _>(its_mode, threads, calls, &names, is_zipf, RandomState::new())
        }
        _ => return None,
    };
    println!("dashmap {mode} {threads} {rate:.3}");
    Some(())
}

fn main() -> ExitCode {
    let words: Vec<String> = env::args().skip(1).collect();
    if measure(&words).is_none() {
        eprintln!("usage: dashmap_peer mix|get|merge|view|update|walk|fill|stall|memory THREADS CALLS KEYS uniform|zipf [numbers|spread|counts|bytes]");
        return ExitCode::from(2);
    }
    ExitCode::SUCCESS
}
