//! Pools, which any thread calls.
use facing::{BytesPool, CountsPool, Fault, Pool};

#[test]
fn threads_share_a_pool() -> Result<(), Fault> {
    let pool = Pool::open(16, 2)?;
    std::thread::scope(|scope| {
        for _ in 0..8 {
            scope.spawn(|| (0..1000).try_for_each(|key| pool.with(|client| client.add(key % 10, 1)).map(drop)));
        }
    });
    let closed = pool.close().map_err(|refused| refused.fault)?;
    assert_eq!(closed.count()?, 10);
    for key in 0..10 {
        assert_eq!(closed.get(key)?, Some(800));
    }
    Ok(())
}

#[test]
fn a_pool_that_cannot_be_opened() {
    assert_eq!(Pool::open(16, 0).err(), Some(Fault::BadClients));
    assert_eq!(Pool::open(0, 1).err(), Some(Fault::BadCapacity));
}

#[test]
fn threads_share_a_pool_of_counts() -> Result<(), Fault> {
    let pool = CountsPool::open(16, 2)?;
    std::thread::scope(|scope| {
        for _ in 0..4 {
            scope.spawn(|| (0..1000).try_for_each(|_| pool.with(|client| client.add(b"key", 1)).map(drop)));
        }
    });
    let closed = pool.close().map_err(|refused| refused.fault)?;
    assert_eq!(closed.get(b"key")?, Some(4000));
    Ok(())
}

#[test]
fn two_threads_change_one_value() -> Result<(), Fault> {
    let pool = Pool::open(16, 2)?;
    std::thread::scope(|scope| {
        for _ in 0..2 {
            scope.spawn(|| {
                (0..5000).try_for_each(|_| pool.with(|c| c.update(7, |seen| Some(seen.unwrap_or(0) + 1))).map(drop))
            });
        }
    });
    assert_eq!(pool.with(|client| client.get(7))?, Some(10_000));
    Ok(())
}

#[test]
fn a_pool_is_not_called_by_its_own_closure() -> Result<(), Fault> {
    for clients in 1..3 {
        let (pool, other) = (Pool::open(16, clients)?, Pool::open(16, 1)?);
        assert_eq!(pool.with(|_| pool.with(|client| client.put(1, 2))), Err(Fault::Nested));
        assert_eq!(pool.with(|_| other.with(|client| client.put(1, 2)))?, None);
        assert_eq!(pool.with(|client| client.put(1, 2))?, None);
        assert_eq!(Fault::Nested.to_string(), "the thread already uses a client of this pool");
    }
    Ok(())
}

#[test]
fn a_panic_gives_the_client_back() -> Result<(), Fault> {
    let pool = Pool::open(16, 1)?;
    let panics = std::panic::AssertUnwindSafe(|| pool.with(|_| -> Result<(), Fault> { panic!("wanted") }));
    assert!(std::panic::catch_unwind(panics).is_err());
    assert_eq!(pool.with(|client| client.add(1, 2))?, 2);
    Ok(())
}

/// A failure of a program's own.
#[derive(Debug, PartialEq)]
enum Refused {
    ByMap(Fault),
    TooMany(u64),
}

impl From<Fault> for Refused {
    fn from(fault: Fault) -> Refused {
        Refused::ByMap(fault)
    }
}

#[test]
fn a_closure_fails_with_an_error_of_its_own() -> Result<(), Refused> {
    let pool = Pool::open(16, 1)?;
    let add = |most| {
        pool.with(|client| match client.add(1, 5)? {
            sum if sum > most => Err(Refused::TooMany(sum)),
            sum => Ok(sum),
        })
    };
    assert_eq!((add(9), add(9)), (Ok(5), Err(Refused::TooMany(10))));
    assert_eq!(pool.with(|_| add(99)), Err(Refused::ByMap(Fault::Nested)));
    Ok(())
}

#[test]
fn a_pool_counts_its_keys() -> Result<(), Fault> {
    let pool = Pool::open(16, 1)?;
    assert_eq!(pool.count()?, 0);
    pool.with(|client| (0..10).try_for_each(|key| client.put(key, 0).map(drop)))?;
    assert_eq!(pool.count()?, 10);
    assert_eq!(pool.with(|client| client.remove(3).and_then(|_| pool.count()))?, 9);
    Ok(())
}

#[test]
fn a_pool_may_be_opened_for_long_values() -> Result<(), Fault> {
    let longest = vec![5; 1 << 20];
    let pool = BytesPool::open_for_values(16, 2, longest.len())?;
    for _ in 0..2 {
        pool.with(|client| client.put(b"a", &longest))?;
    }
    assert_eq!(pool.with(|client| client.get(b"a"))?.as_deref(), Some(&longest[..]));
    assert_eq!(pool.with(|client| client.put(b"a", &[&longest[..], b"x"].concat())), Err(Fault::TooLong));
    assert_eq!(BytesPool::open_for_values(16, 1, facing::LONGEST_VALUE + 1).err(), Some(Fault::TooLong));
    assert_eq!(BytesPool::open_for_values(16, 0, 10).err(), Some(Fault::BadClients));
    Ok(())
}
