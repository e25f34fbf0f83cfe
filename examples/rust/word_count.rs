//! Counts words in threads, and compares the counts with one thread's.
use facing::{CountsClient, CountsMap, Fault};
use std::collections::HashMap;

fn count(mut client: CountsClient, lines: &[String]) -> Result<(), Fault> {
    for word in lines.iter().flat_map(|line| line.split_whitespace()) {
        client.add(word.as_bytes(), 1)?;
    }
    Ok(())
}

fn main() -> Result<(), Box<dyn std::error::Error>> {
    let line = "one order of all calls and the calls of each thread in order";
    let text: Vec<String> = (0..20000).map(|i| format!("{line} w{}", i % 700)).collect();
    let mut map = CountsMap::open(16, 4)?;
    std::thread::scope(|scope| {
        let mut threads = Vec::new();
        for share in text.chunks(text.len() / 4) {
            let client = map.client()?;
            threads.push(scope.spawn(move || count(client, share)));
        }
        threads.into_iter().try_for_each(|thread| thread.join().expect("a thread ended early"))
    })?;
    let closed = map.close().map_err(|refused| refused.fault)?;
    let mut want = HashMap::new();
    for word in text.iter().flat_map(|line| line.split_whitespace()) {
        *want.entry(word.as_bytes().to_vec()).or_insert(0u64) += 1;
    }
    let got: HashMap<Vec<u8>, u64> = closed.pairs()?.into_iter().collect();
    let words: u64 = want.values().sum();
    println!("{words} words, {} different, {}", want.len(), if got == want { "0 wrong" } else { "wrong" });
    if got != want {
        std::process::exit(1);
    }
    Ok(())
}
