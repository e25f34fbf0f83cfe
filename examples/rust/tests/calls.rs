//! What calls answer, and what is refused.
use facing::{BytesMap, CountsMap, Cursor, Fault, Map, Pool, LONGEST, LONGEST_VALUE};
use std::sync::mpsc::channel;

#[test]
fn calls_answer_as_they_say() -> Result<(), Fault> {
    let mut map = Map::open(16, 1)?;
    let mut client = map.client()?;
    assert_eq!(client.put(1, 4)?, None);
    assert_eq!(client.put(1, 5)?, Some(4));
    assert_eq!(client.put_if_absent(1, 6)?, Some(5));
    assert_eq!(client.replace(1, 6)?, Some(5));
    assert_eq!((client.replace(2, 6)?, client.get(2)?), (None, None));
    assert!(!client.replace_if(1, 5, 7)?);
    assert!(client.replace_if(1, 6, 7)?);
    assert_eq!(client.add(1, 3)?, 10);
    assert_eq!(client.add(1, u64::MAX)?, u64::MAX);
    assert_eq!(client.set(1, 4)?, 4);
    assert_eq!(client.greatest(1, 3)?, 4);
    assert_eq!((client.greatest(1, 9)?, client.get(1)?, client.set(1, 4)?), (9, Some(9), 4));
    assert!(client.contains(1)? && !client.contains(2)?);
    assert!(!client.remove_if(1, 3)?);
    assert!(client.remove_if(1, 4)?);
    assert_eq!(client.remove(1)?, None);
    assert_eq!(client.get(1)?, None);
    Ok(())
}

#[test]
fn numbers_past_the_limits_are_refused() {
    assert_eq!(Map::open(0, 1).err(), Some(Fault::BadCapacity));
    assert_eq!(Map::open((1 << 26) + 1, 1).err(), Some(Fault::BadCapacity));
    assert_eq!(Map::open(16, 0).err(), Some(Fault::BadClients));
    assert_eq!(Map::open(16, 65_537).err(), Some(Fault::BadClients));
}

#[test]
fn a_map_closes_when_its_clients_are_back() -> Result<(), Fault> {
    let mut map = Map::open(16, 1)?;
    let mut client = map.client()?;
    assert_eq!(map.client().err(), Some(Fault::NoClient));
    client.put(1, 5)?;
    let refused = map.close().expect_err("a client is out");
    assert_eq!(refused.fault, Fault::ClientOut);
    assert_eq!(refused.to_string(), "the map was not closed: a client of the map is not dropped yet");
    let map = refused.map.expect("the map comes back");
    drop(client);
    let closed = map.close().map_err(|refused| refused.fault)?;
    assert_eq!((closed.count()?, closed.get(1)?, closed.get(2)?), (1, Some(5), None));
    let mut again = closed.reopen(2)?;
    assert_eq!(again.client()?.add(1, 1)?, 6);
    assert_eq!((again.count()?, closed.pairs()?), (1, vec![(1, 5)]));
    Ok(())
}

#[test]
fn a_client_outlives_its_map() -> Result<(), Fault> {
    let mut map = Map::open(16, 2)?;
    let (mut first, mut second) = (map.client()?, map.client()?);
    drop(map);
    first.put(1, 5)?;
    let its = std::thread::spawn(move || second.get(1));
    assert_eq!(its.join().expect("the thread ended"), Ok(Some(5)));
    Ok(())
}

#[test]
fn byte_strings_have_counts() -> Result<(), Fault> {
    let mut map = CountsMap::open(16, 1)?;
    let mut client = map.client()?;
    for i in 0..1000 {
        client.add(format!("word {}", i % 7).as_bytes(), 1)?;
    }
    assert_eq!((client.put(b"", 4)?, client.put(b"", 5)?), (None, Some(4)));
    assert_eq!(client.put_if_absent(b"", 6)?, Some(5));
    assert_eq!(client.replace(b"", 6)?, Some(5));
    assert_eq!((client.replace(b"?", 6)?, client.get(b"?")?), (None, None));
    assert!(!client.replace_if(b"", 5, 7)? && client.replace_if(b"", 6, 7)?);
    assert_eq!((client.greatest(b"", 9)?, client.get(b"")?), (9, Some(9)));
    assert_eq!((client.set(b"", 8)?, client.greatest(b"", 3)?, client.get(b"")?), (8, 8, Some(8)));
    assert!(client.contains(b"word 0")? && !client.contains(b"word")?);
    assert!(!client.remove_if(b"word 0", 1)?);
    client.put(b"gone", 1)?;
    assert!(client.remove_if(b"gone", 1)? && !client.contains(b"gone")?);
    assert_eq!(client.remove(b"word 0")?, Some(143));
    assert_eq!(client.add(&vec![0; LONGEST + 1], 1).err(), Some(Fault::TooLong));
    let (mut cursor, mut pairs) = (Cursor::default(), Vec::new());
    while !cursor.is_at_end() {
        pairs.append(&mut client.pairs(&mut cursor, 2)?);
    }
    pairs.sort();
    assert_eq!((pairs.len(), &pairs[0]), (7, &(Vec::new(), 8)));
    drop(client);
    let closed = map.close().map_err(|refused| refused.fault)?;
    assert_eq!((closed.count()?, closed.get(b"word 6")?, closed.get(b"word 0")?), (7, Some(142), None));
    assert_eq!(closed.reopen(1)?.client()?.add(b"", 1)?, 9);
    Ok(())
}

#[test]
fn byte_strings_have_byte_strings() -> Result<(), Fault> {
    let mut map = BytesMap::open(16, 1)?;
    let mut client = map.client()?;
    let large = vec![7; LONGEST];
    assert_eq!(client.put(b"a", b"one")?, None);
    assert_eq!(client.put(b"a", b"two")?, Some(b"one".to_vec()));
    assert_eq!(client.put_if_absent(b"", b"")?, None);
    assert_eq!((client.put_if_absent(b"a", b"no")?, client.replace(b"b", b"no")?), (Some(b"two".to_vec()), None));
    assert_eq!(client.replace(b"a", &large)?, Some(b"two".to_vec()));
    assert_eq!((client.get(b"a")?, client.get(b"")?, client.get(b"b")?), (Some(large.clone()), Some(Vec::new()), None));
    let mut held = client.hold(b"a")?.expect("there is a value");
    assert!(client.hold(b"b")?.is_none());
    assert!(client.replace_if(b"a", &large, b"three")? && !client.replace_if(b"a", &large, b"four")?);
    assert!(!client.remove_if(b"a", b"four")?);
    assert_eq!((held.len(), held.to_vec()?), (LONGEST, large));
    assert!(client.contains(b"")? && !client.contains(b"b")?);
    assert_eq!(client.remove(b"")?, Some(Vec::new()));
    let longer = vec![0; LONGEST + 1];
    assert_eq!(client.put(b"b", &longer).err(), Some(Fault::TooLong));
    assert_eq!(client.put_if_absent(b"b", &longer).err(), Some(Fault::TooLong));
    assert_eq!(client.replace(b"a", &longer).err(), Some(Fault::TooLong));
    assert_eq!(client.replace_if(b"a", b"three", &longer).err(), Some(Fault::TooLong));
    assert!(!client.remove_if(b"a", &longer)? && !client.replace_if(b"a", &longer, b"")?);
    client.put(b"gone", b"1")?;
    assert!(client.remove_if(b"gone", b"1")? && !client.contains(b"gone")?);
    let mut cursor = Cursor::default();
    assert_eq!(client.pairs(&mut cursor, 10)?, vec![(b"a".to_vec(), b"three".to_vec())]);
    drop(client);
    let closed = map.close().map_err(|refused| refused.fault)?;
    assert_eq!((closed.get(b"a")?, closed.get(b"b")?), (Some(b"three".to_vec()), None));
    assert_eq!(closed.pairs()?, vec![(b"a".to_vec(), b"three".to_vec())]);
    assert_eq!(closed.reopen(1)?.client()?.remove(b"a")?, Some(b"three".to_vec()));
    Ok(())
}

#[test]
fn a_held_value_is_read_in_parts() -> Result<(), Fault> {
    let mut map = BytesMap::open(16, 1)?;
    let mut client = map.client()?;
    let long: Vec<u8> = (0..200).collect();
    for value in [b"0123456789".to_vec(), long] {
        client.put(b"a", &value)?;
        let mut held = client.hold(b"a")?.expect("there is a value");
        client.remove(b"a")?;
        let (mut room, end) = ([7; 4], value.len());
        held.read(3, &mut room)?;
        assert_eq!(room, value[3..7]);
        held.read(end - 2, &mut room)?;
        assert_eq!(room, [value[end - 2], value[end - 1], value[5], value[6]]);
        for from in [end, usize::MAX] {
            held.read(from, &mut room)?;
            assert_eq!(room, [value[end - 2], value[end - 1], value[5], value[6]]);
        }
        assert!(!held.is_empty() && held.to_vec()? == value);
    }
    Ok(())
}

#[test]
fn values_are_changed_by_a_closure() -> Result<(), Fault> {
    let mut map = Map::open(16, 2)?;
    let mut client = map.client()?;
    assert_eq!(client.update(1, |seen| seen.map_or(Some(3), |_| None))?, Some(3));
    assert_eq!(client.update(1, |seen| seen.map(|value| value * 5))?, Some(15));
    assert_eq!(client.update(1, |seen| seen.filter(|value| *value == 7))?, None);
    assert_eq!(client.get(1)?, None);
    assert!(client.add_up_to(1, 2, 3)? && !client.add_up_to(1, 2, 3)?);
    assert_eq!(client.get(1)?, Some(2));
    let mut counts = CountsMap::open(16, 1)?;
    let mut client = counts.client()?;
    assert_eq!(client.update(b"a", |seen| Some(seen.unwrap_or(6) + 1))?, Some(7));
    assert_eq!(client.update(b"a", |seen| seen.filter(|_| false))?, None);
    assert!(client.add_up_to(b"a", 3, 3)? && !client.add_up_to(b"a", 1, 3)?);
    let mut texts = BytesMap::open(16, 1)?;
    let mut client = texts.client()?;
    let longer = |seen: Option<&[u8]>| Some([seen.unwrap_or(b"x"), b"y"].concat());
    assert_eq!(client.update(b"a", longer)?, Some(b"xy".to_vec()));
    assert_eq!(client.update(b"a", longer)?, Some(b"xyy".to_vec()));
    assert_eq!(client.update(b"a", |_| Some(vec![0; LONGEST + 1])).err(), Some(Fault::TooLong));
    assert_eq!(client.get(b"a")?, Some(b"xyy".to_vec()));
    assert_eq!(client.update(b"a", |_| None)?, None);
    assert!(!client.contains(b"a")?);
    Ok(())
}

#[test]
fn threads_read_a_closed_map() -> Result<(), Fault> {
    let (mut map, mut texts) = (Map::open(16, 1)?, BytesMap::open(16, 1)?);
    let (mut client, mut text) = (map.client()?, texts.client()?);
    for key in 0..1000u64 {
        client.put(key, key)?;
        text.put(&key.to_le_bytes(), &vec![7; usize::try_from(key).unwrap_or(0)])?;
    }
    drop((client, text));
    let closed = map.close().map_err(|refused| refused.fault)?;
    let closed_texts = texts.close().map_err(|refused| refused.fault)?;
    std::thread::scope(|scope| {
        let readers: Vec<_> = (0..4)
            .map(|_| {
                scope.spawn(|| {
                    for key in 0..1000 {
                        assert_eq!((closed.get(key)?, closed.get(key + 1000)?), (Some(key), None));
                        let value = closed_texts.get(&key.to_le_bytes())?.expect("there is a value");
                        assert_eq!(value, vec![7; usize::try_from(key).unwrap_or(0)]);
                        assert!(value.capacity() < value.len() + 64);
                    }
                    assert_eq!((closed.count()?, closed.pairs()?.len()), (1000, 1000));
                    Ok::<(), Fault>(())
                })
            })
            .collect();
        readers.into_iter().try_for_each(|reader| reader.join().expect("the thread ended"))
    })
}

/// The keys 0 to 99 in the order in which new maps of each kind have them.
fn orders() -> Result<[Vec<Vec<u8>>; 3], Fault> {
    let (mut numbers, mut counts, mut texts) = (Map::open(256, 1)?, CountsMap::open(256, 1)?, BytesMap::open(256, 1)?);
    let (mut number, mut count, mut text) = (numbers.client()?, counts.client()?, texts.client()?);
    for key in 0..100u64 {
        number.put(key, 0)?;
        count.put(&key.to_le_bytes(), 0)?;
        text.put(&key.to_le_bytes(), b"")?;
    }
    drop((number, count, text));
    let numbers = numbers.close().map_err(|refused| refused.fault)?.pairs()?;
    let counts = counts.close().map_err(|refused| refused.fault)?.pairs()?;
    let texts = texts.close().map_err(|refused| refused.fault)?.pairs()?;
    Ok([
        numbers.into_iter().map(|(key, _)| key.to_le_bytes().to_vec()).collect(),
        counts.into_iter().map(|(key, _)| key).collect(),
        texts.into_iter().map(|(key, _)| key).collect(),
    ])
}

#[test]
fn each_map_draws_a_seed() -> Result<(), Fault> {
    for (first, second) in orders()?.into_iter().zip(orders()?) {
        assert_eq!((first.len(), second.len()), (100, 100));
        assert_ne!(first, second);
    }
    Ok(())
}

#[test]
fn a_map_may_be_opened_for_long_values() -> Result<(), Fault> {
    let longest = vec![5; 1 << 20];
    let mut map = BytesMap::open_for_values(16, 1, longest.len())?;
    let mut client = map.client()?;
    assert_eq!(client.put(b"a", &longest)?, None);
    assert_eq!(client.get(b"a")?.as_deref(), Some(&longest[..]));
    assert_eq!(client.put(b"a", b"b")?.as_deref(), Some(&longest[..]));
    assert_eq!(client.put(b"a", &vec![5; (1 << 20) + 1]).err(), Some(Fault::TooLong));
    client.put(b"a", &longest)?;
    drop(client);
    let closed = map.close().map_err(|refused| refused.fault)?;
    assert_eq!(closed.get(b"a")?.as_deref(), Some(&longest[..]));
    assert_eq!(closed.reopen(1)?.client()?.remove(b"a")?.as_deref(), Some(&longest[..]));
    assert_eq!(BytesMap::open_for_values(16, 1, LONGEST_VALUE + 1).err(), Some(Fault::TooLong));
    Ok(())
}

#[test]
fn all_types_have_a_debug_text() -> Result<(), Fault> {
    let mut map = BytesMap::open(16, 1)?;
    assert_eq!(format!("{map:?}"), r#"MapOf { kind: "Bytes", .. }"#);
    let mut client = map.client()?;
    client.put(b"a", b"one")?;
    assert_eq!(format!("{client:?}"), r#"ClientOf { kind: "Bytes", .. }"#);
    assert_eq!(format!("{:?}", client.hold(b"a")?), "Some(Held { len: 3, .. })");
    drop(client);
    assert_eq!(format!("{:?}", map.close()), r#"Ok(ClosedOf { kind: "Bytes", count: Some(1), .. })"#);
    assert_eq!(format!("{:?}", Pool::open(16, 3)), r#"Ok(PoolOf { kind: "Numbers", clients: 3, .. })"#);
    Ok(())
}

extern "C" {
    fn fork() -> i32;
    fn waitpid(child: i32, status: *mut i32, options: i32) -> i32;
    fn alarm(seconds: u32) -> u32;
    fn setrlimit(of: i32, limit: *const Limit) -> i32;
    fn _exit(status: i32) -> !;
}

#[repr(C)]
struct Limit {
    now: u64,
    most: u64,
}

#[test]
fn what_finds_no_memory_says_so() {
    const ADDRESSES: i32 = 9;
    let limit = Limit { now: 1 << 30, most: 1 << 30 };
    assert_eq!(
        child_of(|| {
            let is_limited = unsafe { setrlimit(ADDRESSES, &raw const limit) } == 0;
            Ok(is_limited && Map::open(1 << 26, 1).err() == Some(Fault::NoMemory))
        }),
        0
    );
}

/// Returns the status of a child that does this work, and is ended after a minute.
fn child_of(work: impl FnOnce() -> Result<bool, Fault>) -> i32 {
    let mut status = -1;
    unsafe {
        let child = fork();
        if child == 0 {
            alarm(60);
            _exit(i32::from(work() != Ok(true)));
        }
        assert!(child > 0 && waitpid(child, &raw mut status, 0) == child);
    }
    status
}

#[test]
fn a_child_does_not_wait_for_a_client_that_its_parent_uses() -> Result<(), Fault> {
    let pool = Pool::open(16, 1)?;
    let (taken, is_taken) = channel();
    let (done, is_done) = channel::<()>();
    std::thread::scope(|scope| {
        scope.spawn(|| {
            let is_done = is_done;
            pool.with(|client| {
                client.put(1, 5)?;
                taken.send(()).expect("the test waits");
                is_done.recv().map_or(Ok::<(), Fault>(()), |()| Ok(()))
            })
        });
        is_taken.recv().expect("the thread takes the client");
        assert_eq!(child_of(|| Ok(pool.with(|client| client.get(1)) == Err(Fault::AfterFork))), 0);
        assert_eq!(child_of(|| Map::open(16, 1)?.client()?.add(1, 7).map(|sum| sum == 7)), 0);
        drop(done);
    });
    assert_eq!(pool.with(|client| client.get(1))?, Some(5));
    let closed = pool.close().map_err(|refused| refused.fault)?;
    assert_eq!(child_of(|| Ok(closed.get(1)? == Some(5))), 0);
    Ok(())
}

#[test]
fn the_version_is_that_of_the_crate() {
    assert_eq!(facing::version().split(' ').next(), Some(env!("CARGO_PKG_VERSION")));
}
