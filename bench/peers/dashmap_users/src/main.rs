//! Measures dashmap on what crates/user_bench measures: appends at one key, a rate limiter, an inverted index.
//!
//! usage: dashmap_users append|move|limit|index CLIENTS SIZE RUNS
use dashmap::DashMap;
use std::env;
use std::process::ExitCode;
use std::thread;
use std::time::{Duration, Instant};

/// What splitmix64 draws in this place.
fn drawn_at(place: u64) -> u64 {
    let state = place.wrapping_mul(0x9e37_79b9_7f4a_7c15);
    let z = (state ^ (state >> 30)).wrapping_mul(0xbf58_476d_1ce4_e5b9);
    let z = (z ^ (z >> 27)).wrapping_mul(0x94d0_49bb_1331_11eb);
    z ^ (z >> 31)
}

/// Appends the numbers from 0 on to a list at one key: to the list where it lies, or to the list that is taken out and put back.
fn append(in_place: bool, count: u64) -> (Duration, u64) {
    let map: DashMap<u64, Vec<u64>> = DashMap::new();
    map.insert(1, Vec::new());
    let start = Instant::now();
    for number in 0..count {
        if in_place {
            if let Some(mut list) = map.get_mut(&1) {
                list.push(number);
            }
        } else if let Some((key, mut list)) = map.remove(&1) {
            list.push(number);
            map.insert(key, list);
        }
    }
    (start.elapsed(), map.get(&1).map_or(0, |list| list.len() as u64))
}

const USERS: u64 = 1_000;
const MOST: u64 = 1_000;

struct Used {
    second: u64,
    requests: u64,
}

impl Used {
    fn admit(&mut self, second: u64) -> bool {
        if self.second != second {
            *self = Used { second, requests: 0 };
        }
        let passes = self.requests < MOST;
        self.requests += passes as u64;
        passes
    }
}

fn ask(map: &DashMap<u64, Used>, client: u64, requests: u64) -> u64 {
    let asked = (0..requests).filter(|request| {
        let user = drawn_at(client * requests + request) % USERS;
        map.entry(user).or_insert(Used { second: 1, requests: 0 }).admit(1)
    });
    asked.count() as u64
}

fn limit(clients: u64, requests: u64) -> (Duration, u64) {
    let map = DashMap::new();
    let start = Instant::now();
    let passed = thread::scope(|scope| {
        let map = &map;
        let threads: Vec<_> = (0..clients).map(|client| scope.spawn(move || ask(map, client, requests))).collect();
        threads.into_iter().map(|it| it.join().expect("a client ends")).sum()
    });
    (start.elapsed(), passed)
}

const ROWS: u64 = 17;

/// The number of the word at a place.
fn word_at(place: u64) -> usize {
    let drawn = drawn_at(place);
    let row = 1u64 << (drawn % ROWS);
    (row + ((drawn >> 32) & (row - 1)) - 1) as usize
}

fn read(map: &DashMap<String, Vec<u32>>, words: &[String], client: u32, places: u32) {
    for place in client * places..(client + 1) * places {
        let word = &words[word_at(place.into())];
        if let Some(mut list) = map.get_mut(word.as_str()) {
            list.push(place);
        } else {
            map.entry(word.clone()).or_default().push(place);
        }
    }
}

fn index(clients: u32, places: u32) -> (Duration, u64) {
    let words: Vec<String> = (0..(1 << ROWS) - 1).map(|number| format!("w{number}")).collect();
    let map = DashMap::new();
    let start = Instant::now();
    thread::scope(|scope| {
        let (map, words) = (&map, &words[..]);
        for client in 0..clients {
            scope.spawn(move || read(map, words, client, places / clients));
        }
    });
    (start.elapsed(), map.len() as u64)
}

fn run(words: &[String]) -> Option<()> {
    let [mode, clients, size, runs] = words else {
        return None;
    };
    let (clients, size, runs): (u32, u32, u32) = (clients.parse().ok()?, size.parse().ok()?, runs.parse().ok()?);
    let (mut best, mut result) = (u128::MAX, 0);
    for _ in 0..runs {
        let (taken, came_to) = match mode.as_str() {
            "append" => append(true, size.into()),
            "move" => append(false, size.into()),
            "limit" => limit(clients.into(), size.into()),
            "index" if clients > 0 => index(clients, size),
            _ => return None,
        };
        best = best.min(taken.as_micros());
        result = came_to;
    }
    println!("dashmap {mode} {clients} {best} {result}");
    Some(())
}

fn main() -> ExitCode {
    let words: Vec<String> = env::args().skip(1).collect();
    if run(&words).is_none() {
        eprintln!("usage: dashmap_users append|move|limit|index CLIENTS SIZE RUNS");
        return ExitCode::from(2);
    }
    ExitCode::SUCCESS
}
