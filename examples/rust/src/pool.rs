//! A map with clients of its own, which any thread calls.
use crate::bytes::Bytes;
use crate::fault::Fault;
use crate::handle::take;
use crate::maps::{ClientOf, ClosedOf, Kind, MapOf, NotClosed};
use std::cell::RefCell;
use std::sync::atomic::{AtomicUsize, Ordering};
use std::sync::{Mutex, PoisonError};

thread_local! {
    /// The pools of which this thread uses a client, by their addresses.
    static IN_USE: RefCell<Vec<usize>> = const { RefCell::new(Vec::new()) };
}

/// A map that any thread calls by `&self`. A call takes a client that no other thread uses, and backs off where all are in
/// use: so open it with at least as many clients as threads call at the same time.
///
/// ```
/// use facing::Pool;
///
/// let pool = Pool::open(16, 2)?;
/// std::thread::scope(|scope| {
///     for _ in 0..2 {
///         scope.spawn(|| pool.with(|client| client.add(7, 1)));
///     }
/// });
/// assert_eq!(pool.with(|client| client.get(7))?, Some(2));
/// # Ok::<(), facing::Fault>(())
/// ```
pub struct PoolOf<K> {
    map: Mutex<MapOf<K>>,
    clients: Vec<Mutex<ClientOf<K>>>,
    next: AtomicUsize,
    forks: u32,
}

impl<K: Kind> PoolOf<K> {
    /// Opens an empty map with a pool of 1 to 65,536 clients.
    ///
    /// # Errors
    ///
    /// As [`MapOf::open`].
    pub fn open(capacity: usize, clients: u32) -> Result<PoolOf<K>, Fault> {
        PoolOf::of(MapOf::open(capacity, clients)?, clients)
    }

    /// A pool of all clients of a map.
    fn of(mut map: MapOf<K>, clients: u32) -> Result<PoolOf<K>, Fault> {
        let forks = map.0.origin.forks;
        let clients = (0..clients).map(|_| map.client().map(Mutex::new)).collect::<Result<_, _>>()?;
        Ok(PoolOf { map: Mutex::new(map), clients, next: AtomicUsize::new(0), forks })
    }

    /// Makes calls by a client that no other thread uses meanwhile, and returns what the closure returns. A panic of the
    /// closure gives the client back. The closure fails with any error that a [`Fault`] can become.
    ///
    /// # Errors
    ///
    /// What the closure fails with. [`Fault::Nested`] in a closure that was given to this very function, of the same pool.
    /// [`Fault::AfterFork`] in the child of a fork where all clients were in use during the fork.
    pub fn with<T, E: From<Fault>>(&self, calls: impl FnOnce(&mut ClientOf<K>) -> Result<T, E>) -> Result<T, E> {
        let _only = Using::begin(std::ptr::from_ref(self) as usize)?;
        let start = self.next.fetch_add(1, Ordering::Relaxed);
        let mut client = take(&self.clients, start, self.forks)?;
        calls(&mut client)
    }

    /// Returns how many keys there are; an estimate while calls run.
    ///
    /// # Errors
    ///
    /// [`Fault::AfterFork`] in the child of a fork during which another thread was counting.
    pub fn count(&self) -> Result<u64, Fault> {
        take(std::slice::from_ref(&self.map), 0, self.forks)?.count()
    }

    /// Closes the map.
    ///
    /// # Errors
    ///
    /// As [`MapOf::close`].
    pub fn close(self) -> Result<ClosedOf<K>, NotClosed<K>> {
        drop(self.clients);
        self.map.into_inner().unwrap_or_else(PoisonError::into_inner).close()
    }
}

impl PoolOf<Bytes> {
    /// Opens a pool as [`PoolOf::open`] does, for values of up to so many bytes: up to 2^29. Each client has room for so many,
    /// which takes memory where it is used.
    ///
    /// # Errors
    ///
    /// As [`MapOf::open_for_values`].
    pub fn open_for_values(capacity: usize, clients: u32, longest: usize) -> Result<PoolOf<Bytes>, Fault> {
        PoolOf::of(MapOf::open_for_values(capacity, clients, longest)?, clients)
    }
}

impl<K: Kind> std::fmt::Debug for PoolOf<K> {
    fn fmt(&self, f: &mut std::fmt::Formatter<'_>) -> std::fmt::Result {
        f.debug_struct("PoolOf").field("kind", &K::NAME).field("clients", &self.clients.len()).finish_non_exhaustive()
    }
}

/// This thread uses a client of a pool while this lives.
struct Using(usize);

impl Using {
    fn begin(pool: usize) -> Result<Using, Fault> {
        IN_USE.with_borrow_mut(|pools| {
            if pools.contains(&pool) {
                return Err(Fault::Nested);
            }
            pools.push(pool);
            Ok(Using(pool))
        })
    }
}

impl Drop for Using {
    fn drop(&mut self) {
        IN_USE.with_borrow_mut(|pools| pools.retain(|pool| *pool != self.0));
    }
}
