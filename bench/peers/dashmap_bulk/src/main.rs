//! Measures rayon's parallel iterators over a dashmap: how many microseconds the best of some runs of each took.
//!
//! usage: dashmap_bulk KEYS WORKERS WRITERS RUNS
use dashmap::DashMap;
use rayon::iter::{IntoParallelRefIterator, ParallelIterator};
use rayon::ThreadPoolBuilder;
use std::env;
use std::hint::black_box;
use std::process::ExitCode;
use std::sync::atomic::{AtomicBool, Ordering};
use std::thread;
use std::time::Instant;

type Numbers = DashMap<u64, u64>;

/// What the generator splitmix64 draws in this place: keys in no order, each once.
fn key_of(place: u64) -> u64 {
    let z = place.wrapping_mul(0x9e37_79b9_7f4a_7c15);
    let z = (z ^ (z >> 30)).wrapping_mul(0xbf58_476d_1ce4_e5b9);
    let z = (z ^ (z >> 27)).wrapping_mul(0x94d0_49bb_1331_11eb);
    z ^ (z >> 31)
}

/// Puts the keys of a thousand places from the first on and removes them, one after the other, until it is to stop.
fn write(map: &Numbers, first: u64, stop: &AtomicBool) {
    for round in 0..u64::MAX {
        if stop.load(Ordering::Relaxed) {
            return;
        }
        let key = key_of(first + round % 1_000);
        map.insert(key, 0);
        map.remove(&key);
    }
}

fn time(best: &mut u128, operation: impl FnOnce()) {
    let start = Instant::now();
    operation();
    *best = (*best).min(start.elapsed().as_micros());
}

/// The best of so many runs of a sum, a search that finds nothing, one that finds something at once, and an action with each entry.
fn measure(map: &Numbers, runs: u64) -> [u128; 4] {
    let [mut reduce, mut none, mut found, mut each] = [u128::MAX; 4];
    for _ in 0..runs {
        time(&mut reduce, || {
            black_box(map.par_iter().map(|entry| *entry.value()).sum::<u64>());
        });
        time(&mut none, || {
            black_box(map.par_iter().find_map_any(|entry| (*entry.value() == u64::MAX).then_some(*entry.value())));
        });
        time(&mut found, || {
            black_box(map.par_iter().find_map_any(|entry| (*entry.value() > 0).then_some(*entry.value())));
        });
        time(&mut each, || {
            map.par_iter().for_each(|entry| {
                black_box(entry.value());
            });
        });
    }
    [reduce, none, found, each]
}

fn run(words: &[String]) -> Option<()> {
    let [keys, workers, writers, runs] = words else {
        return None;
    };
    let (keys, workers, writers, runs): (u64, usize, u64, u64) =
        (keys.parse().ok()?, workers.parse().ok()?, writers.parse().ok()?, runs.parse().ok()?);
    let map: Numbers = (1..=keys).map(|place| (key_of(place), place)).collect();
    let pool = ThreadPoolBuilder::new().num_threads(workers).build().ok()?;
    let stop = AtomicBool::new(false);
    let [reduce, none, found, each] = thread::scope(|scope| {
        for number in 0..writers {
            let (map, stop) = (&map, &stop);
            scope.spawn(move || write(map, keys + 1 + 1_000 * number, stop));
        }
        let best = pool.install(|| measure(&map, runs));
        stop.store(true, Ordering::Relaxed);
        best
    });
    println!("reduce {reduce} none {none} found {found} for_each {each}");
    Some(())
}

fn main() -> ExitCode {
    let words: Vec<String> = env::args().skip(1).collect();
    if run(&words).is_none() {
        eprintln!("usage: dashmap_bulk KEYS WORKERS WRITERS RUNS");
        return ExitCode::from(2);
    }
    ExitCode::SUCCESS
}
