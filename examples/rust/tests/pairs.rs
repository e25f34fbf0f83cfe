//! Walks over the pairs of a map.
use facing::{BytesMap, ClientOf, ClosedOf, CountsMap, Cursor, Fault, Kind, Map, MapOf, NotClosed, Numbers, PairsOf};
use std::collections::HashMap;

#[test]
fn a_cursor_is_any_number() -> Result<(), Fault> {
    let mut map = Map::open(16, 1)?;
    let mut client = map.client()?;
    client.put(7, 8)?;
    for number in [u64::MAX, u64::MAX - 1, 1 << 63, 77] {
        let mut cursor = Cursor(number);
        while !cursor.is_at_end() {
            assert!(client.pairs(&mut cursor, 10)?.into_iter().all(|pair| pair == (7, 8)));
        }
    }
    Ok(())
}

#[test]
fn large_lengths_are_no_allocation() -> Result<(), Fault> {
    let mut map = Map::open(16, 1)?;
    let mut client = map.client()?;
    (0..100).try_for_each(|key| client.put(key, key).map(drop))?;
    for len in [1 << 55, usize::MAX] {
        assert_eq!(client.pairs(&mut Cursor::default(), len)?.len(), 100);
    }
    assert!(!client.pairs(&mut Cursor::default(), 0)?.is_empty());
    let mut texts = BytesMap::open(16, 1)?;
    let mut client = texts.client()?;
    client.put(b"a", b"b")?;
    assert_eq!(client.pairs(&mut Cursor::default(), usize::MAX)?, vec![(b"a".to_vec(), b"b".to_vec())]);
    Ok(())
}

#[test]
fn a_step_looks_at_1024_buckets() -> Result<(), Fault> {
    let mut map = Map::open(65_536, 1)?;
    let mut client = map.client()?;
    client.put(1, 2)?;
    let (mut cursor, mut steps, mut pairs) = (Cursor::default(), 0, Vec::new());
    while !cursor.is_at_end() {
        pairs.append(&mut client.pairs(&mut cursor, 10)?);
        steps += 1;
    }
    assert!(steps >= 64, "{steps} steps");
    assert_eq!(pairs, vec![(1, 2)]);
    Ok(())
}

#[test]
fn a_step_returns_as_many_pairs_as_it_may() -> Result<(), Fault> {
    let mut map = Map::open(1024, 1)?;
    let mut client = map.client()?;
    (0..100).try_for_each(|key| client.put(key, 2 * key).map(drop))?;
    let (mut cursor, mut pairs) = (Cursor::default(), Vec::new());
    while !cursor.is_at_end() {
        let mut step = client.pairs(&mut cursor, 10)?;
        assert!(step.len() <= 10, "{} pairs", step.len());
        pairs.append(&mut step);
    }
    pairs.sort();
    assert_eq!(pairs, (0..100).map(|key| (key, 2 * key)).collect::<Vec<_>>());
    Ok(())
}

#[test]
fn an_iterator_meets_each_pair() -> Result<(), Fault> {
    let mut map = Map::open(16, 1)?;
    let mut client = map.client()?;
    assert!(client.iter().next().is_none());
    (0..5000).try_for_each(|key| client.put(key, 2 * key).map(drop))?;
    let want: HashMap<u64, u64> = (0..5000).map(|key| (key, 2 * key)).collect();
    assert_eq!(client.iter().collect::<Result<HashMap<_, _>, _>>()?, want);
    assert_eq!(client.iter().count(), 5000);
    let mut found = Err(Fault::NoClient);
    for pair in &mut client {
        if pair?.1 == 14 {
            found = pair;
        }
    }
    assert_eq!(found, Ok((7, 14)));
    drop(client);
    let closed = map.close().map_err(|refused| refused.fault)?;
    assert_eq!(closed.iter().collect::<Result<HashMap<_, _>, _>>()?, want);
    assert_eq!((&closed).into_iter().filter(|pair| pair.is_ok_and(|(key, _)| key < 10)).count(), 10);
    Ok(())
}

#[test]
fn an_iterator_meets_byte_strings() -> Result<(), Fault> {
    let (mut counts, mut texts) = (CountsMap::open(16, 1)?, BytesMap::open(16, 1)?);
    let (mut count, mut text) = (counts.client()?, texts.client()?);
    for i in 0..300usize {
        count.add(&vec![1; i], 7)?;
        text.put(&vec![2; i], &vec![3; 10 * i])?;
    }
    let (mut lens, mut text_lens) = (Vec::new(), Vec::new());
    for pair in &mut count {
        let (key, value) = pair?;
        assert!(value == 7 && key.iter().all(|byte| *byte == 1));
        lens.push(key.len());
    }
    for pair in &mut text {
        let (key, value) = pair?;
        assert!(value.len() == 10 * key.len() && value.iter().all(|byte| *byte == 3));
        text_lens.push(key.len());
    }
    lens.sort_unstable();
    text_lens.sort_unstable();
    assert_eq!((lens, text_lens), ((0..300).collect::<Vec<_>>(), (0..300).collect::<Vec<_>>()));
    Ok(())
}

/// What becomes a boxed error, or one of the crate anyhow, by `?`.
fn is_error_for_threads<E: std::error::Error + Send + Sync + 'static>() {}

fn is_for_threads<T: Send + Sync>() {}

fn check_kind<K: Kind + Send + Sync + 'static>() {
    is_error_for_threads::<NotClosed<K>>();
    is_for_threads::<(MapOf<K>, ClientOf<K>, ClosedOf<K>)>();
}

#[test]
fn what_fails_goes_through_threads() {
    is_error_for_threads::<Fault>();
    check_kind::<Numbers>();
    check_kind::<facing::Counts>();
    check_kind::<facing::Bytes>();
    is_for_threads::<(facing::Held, PairsOf<'_, Numbers>)>();
}

#[test]
fn a_close_that_fails_is_a_boxed_error() -> Result<(), Box<dyn std::error::Error + Send + Sync>> {
    fn closed_early() -> Result<u64, Box<dyn std::error::Error + Send + Sync>> {
        let mut map = Map::open(16, 1)?;
        let _client = map.client()?;
        Ok(map.close()?.count()?)
    }
    let refused = closed_early().expect_err("a client is out");
    assert_eq!(refused.to_string(), "the map was not closed: a client of the map is not dropped yet");
    assert_eq!(Map::open(16, 1)?.close()?.count()?, 0);
    Ok(())
}
