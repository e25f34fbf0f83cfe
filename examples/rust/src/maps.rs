//! Maps, their clients and closed maps, of each kind.
use crate::bytes::LONGEST;
use crate::exports::{facing_c_again, facing_c_client, facing_c_close, facing_c_reopen};
use crate::fault::Fault;
use crate::fork::forks;
use crate::handle::{done, take, Origin, Owned};
use crate::pairs::{read, PairsOf, Room, Told};
use std::marker::PhantomData;
use std::sync::atomic::{AtomicUsize, Ordering};
use std::sync::Mutex;

/// What a map's keys and values are: [`Numbers`](crate::Numbers), [`Counts`](crate::Counts) or [`Bytes`](crate::Bytes).
pub trait Kind: Sized {
    /// A pair, as it is listed.
    type Pair;

    /// The kind's name.
    const NAME: &'static str;

    #[doc(hidden)]
    fn open(capacity: usize, clients: u32, map: &mut Owned) -> Result<(), Fault>;

    #[doc(hidden)]
    fn copy_pairs(any: &mut Owned, at: u64, room: &mut Room, told: &mut Told) -> Result<u32, Fault>;

    #[doc(hidden)]
    fn add_pairs(room: &Room, count: usize, pairs: &mut Vec<Self::Pair>) -> Result<(), Fault>;
}

/// An open map. It gives out clients, and can be closed once all of them are dropped.
///
/// ```
/// use facing::Map;
///
/// let mut map = Map::open(16, 2)?;
/// let mut client = map.client()?;
/// assert_eq!(client.put(7, 1)?, None);
/// assert_eq!(client.add(7, 2)?, 3);
/// drop(client);
/// let closed = map.close()?;
/// assert_eq!(closed.get(7)?, Some(3));
/// # Ok::<(), Box<dyn std::error::Error>>(())
/// ```
pub struct MapOf<K>(pub(crate) Owned, PhantomData<K>);

/// A client of a map, which makes calls for one thread at a time. It keeps its map alive.
///
/// Each call locks the bucket of its key, and no other lock; while another thread has that lock it spins, then yields, then
/// sleeps for a millisecond at a time.
pub struct ClientOf<K>(pub(crate) Owned, pub(crate) Vec<u8>, PhantomData<K>);

/// A closed map, which threads read at the same time by `&self`, and which can be reopened.
///
/// A read takes a handle that no other thread uses; there is room for 32 of them, which are made when they are first used.
pub struct ClosedOf<K> {
    first: [Mutex<Owned>; 1],
    more: Box<[Mutex<Owned>]>,
    origin: Origin,
    kind: PhantomData<K>,
}

/// A place in a walk over the pairs of a map. It begins as `Cursor::default()`, and may be kept as a number.
#[derive(Clone, Copy, Debug, Default, PartialEq, Eq)]
pub struct Cursor(
    /// 0 at the beginning, `u64::MAX` at the end.
    pub u64,
);

impl Cursor {
    /// Whether all pairs were walked over.
    #[must_use]
    pub fn is_at_end(self) -> bool {
        self.0 == u64::MAX
    }
}

/// Why a map was not closed. It comes back, but after [`Fault::BinMissing`], when it has ended.
pub struct NotClosed<K> {
    /// What failed.
    pub fault: Fault,
    /// The map, which can be closed again.
    pub map: Option<MapOf<K>>,
}

impl<K> std::fmt::Debug for NotClosed<K> {
    fn fmt(&self, f: &mut std::fmt::Formatter<'_>) -> std::fmt::Result {
        f.debug_struct("NotClosed").field("fault", &self.fault).field("map", &self.map.is_some()).finish()
    }
}

impl<K> std::fmt::Display for NotClosed<K> {
    fn fmt(&self, f: &mut std::fmt::Formatter<'_>) -> std::fmt::Result {
        write!(f, "the map was not closed: {}", self.fault)
    }
}

impl<K> std::error::Error for NotClosed<K> {
    fn source(&self) -> Option<&(dyn std::error::Error + 'static)> {
        Some(&self.fault)
    }
}

impl<K: Kind> std::fmt::Debug for MapOf<K> {
    fn fmt(&self, f: &mut std::fmt::Formatter<'_>) -> std::fmt::Result {
        f.debug_struct("MapOf").field("kind", &K::NAME).finish_non_exhaustive()
    }
}

impl<K: Kind> std::fmt::Debug for ClientOf<K> {
    fn fmt(&self, f: &mut std::fmt::Formatter<'_>) -> std::fmt::Result {
        f.debug_struct("ClientOf").field("kind", &K::NAME).finish_non_exhaustive()
    }
}

impl<K: Kind> std::fmt::Debug for ClosedOf<K> {
    fn fmt(&self, f: &mut std::fmt::Formatter<'_>) -> std::fmt::Result {
        f.debug_struct("ClosedOf").field("kind", &K::NAME).field("count", &self.count().ok()).finish_non_exhaustive()
    }
}

impl<K: Kind> MapOf<K> {
    /// Opens an empty map for 1 to 65,536 clients, with a table of `capacity` buckets to begin with: 1 to 2^26. The table
    /// grows by itself. The map draws a secret seed, so keys that others choose collide no more than other keys do.
    ///
    /// # Errors
    ///
    /// [`Fault::BadCapacity`], [`Fault::BadClients`], [`Fault::NoMemory`] and [`Fault::NoSeed`].
    pub fn open(capacity: usize, clients: u32) -> Result<MapOf<K>, Fault> {
        MapOf::open_for(capacity, clients, LONGEST)
    }

    pub(crate) fn open_for(capacity: usize, clients: u32, longest: usize) -> Result<MapOf<K>, Fault> {
        let mut map = MapOf(Owned::null(Origin { forks: forks()?, longest }), PhantomData);
        K::open(capacity, clients, &mut map.0).map(|()| map)
    }

    /// Returns a client that is not in use. It goes back to the map when it is dropped, in any thread.
    ///
    /// # Errors
    ///
    /// [`Fault::NoClient`] where all are in use; [`Fault::NoMemory`].
    pub fn client(&mut self) -> Result<ClientOf<K>, Fault> {
        let mut client = ClientOf(Owned::null(self.0.origin), Vec::new(), PhantomData);
        let made = &raw mut client.0.handle;
        // SAFETY: as of `ask!`; `made` is room for a handle.
        done(self.0.lend(|map, out| unsafe { facing_c_client(map, out, made) }))?;
        Ok(client)
    }

    /// Returns how many keys there are; an estimate while calls run.
    ///
    /// # Errors
    ///
    /// [`Fault::WrongHandle`] alone, which does not happen.
    pub fn count(&mut self) -> Result<u64, Fault> {
        self.0.count()
    }

    /// Closes the map, whose clients must all be dropped.
    ///
    /// # Errors
    ///
    /// [`Fault::ClientOut`] where a client is not dropped, and [`Fault::NoMemory`]: the map comes back. [`Fault::BinMissing`]:
    /// it has ended; no run has met this.
    pub fn close(mut self) -> Result<ClosedOf<K>, NotClosed<K>> {
        // SAFETY: as of `ask!`.
        match done(self.0.lend(|map, out| unsafe { facing_c_close(map, out) })) {
            Ok(()) => Ok(ClosedOf::of(self.0)),
            Err(Fault::BinMissing) => Err(NotClosed { fault: Fault::BinMissing, map: None }),
            Err(fault) => Err(NotClosed { fault, map: Some(self) }),
        }
    }
}

impl<K: Kind> ClientOf<K> {
    /// Returns the pairs of the next buckets, and moves the cursor. Call it until the cursor is at its end. It returns at
    /// most `len` pairs, unless the first bucket that has any has more, and looks at 1,024 buckets at most: so it may return
    /// none before the end. Each bucket is as it is when it is read.
    ///
    /// # Errors
    ///
    /// [`Fault::NoMemory`] and [`Fault::AfterFork`]: the cursor is where it was, and no pairs are lost.
    pub fn pairs(&mut self, cursor: &mut Cursor, len: usize) -> Result<Vec<K::Pair>, Fault> {
        let (mut pairs, mut at) = (Vec::new(), cursor.0);
        read::<K>(&mut self.0, &mut at, len, &mut Room::default(), &mut pairs)?;
        cursor.0 = at;
        Ok(pairs)
    }

    /// Goes over all pairs, some buckets at a time: each bucket is as it is when it is read. A key that is there all the while
    /// is met once; one that comes or goes meanwhile may be met or not.
    ///
    /// ```
    /// use facing::{Fault, Map};
    ///
    /// let mut map = Map::open(16, 1)?;
    /// let mut client = map.client()?;
    /// (1..=3).try_for_each(|key| client.put(key, 10 * key).map(drop))?;
    /// let values: Vec<u64> = client.iter().map(|pair| Ok(pair?.1)).collect::<Result<_, Fault>>()?;
    /// assert_eq!(values.iter().sum::<u64>(), 60);
    /// for pair in &mut client {
    ///     let (key, value) = pair?;
    ///     assert_eq!(value, 10 * key);
    /// }
    /// # Ok::<(), Fault>(())
    /// ```
    pub fn iter(&mut self) -> PairsOf<'_, K> {
        PairsOf::of_client(&mut self.0)
    }
}

impl<'a, K: Kind> IntoIterator for &'a mut ClientOf<K> {
    type Item = Result<K::Pair, Fault>;
    type IntoIter = PairsOf<'a, K>;

    fn into_iter(self) -> PairsOf<'a, K> {
        self.iter()
    }
}

/// How many threads read a closed map at the same time.
const READERS: usize = 32;

/// A number of this thread, which tells where it looks first.
fn number_of_thread() -> usize {
    static NEXT: AtomicUsize = AtomicUsize::new(0);
    thread_local!(static NUMBER: usize = NEXT.fetch_add(1, Ordering::Relaxed));
    NUMBER.with(|number| *number)
}

impl<K: Kind> ClosedOf<K> {
    fn of(first: Owned) -> ClosedOf<K> {
        let origin = first.origin;
        let more = (0..READERS).map(|_| Mutex::new(Owned::null(origin))).collect();
        ClosedOf { first: [Mutex::new(first)], more, origin, kind: PhantomData }
    }

    /// Makes a call by a handle that no other thread uses. Where there is no memory for one, threads take turns.
    pub(crate) fn read<T>(&self, call: impl FnOnce(&mut Owned) -> Result<T, Fault>) -> Result<T, Fault> {
        let mut own = take(&self.more, number_of_thread(), self.origin.forks)?;
        if own.handle.at.is_null() {
            let mut first = take(&self.first, 0, self.origin.forks)?;
            let made = &raw mut own.handle;
            // SAFETY: as of `ask!`; `made` is room for a handle.
            if done(first.lend(|closed, out| unsafe { facing_c_again(closed, out, made) })).is_err() {
                return call(&mut first);
            }
        }
        call(&mut own)
    }

    /// Returns how many keys there are.
    ///
    /// # Errors
    ///
    /// [`Fault::AfterFork`] alone.
    pub fn count(&self) -> Result<u64, Fault> {
        self.read(Owned::count)
    }

    /// Returns all pairs.
    ///
    /// # Errors
    ///
    /// [`Fault::NoMemory`] and [`Fault::AfterFork`].
    pub fn pairs(&self) -> Result<Vec<K::Pair>, Fault> {
        self.read(|closed| {
            let (mut at, mut room, mut all) = (0, Room::default(), Vec::new());
            while at != u64::MAX {
                read::<K>(closed, &mut at, usize::MAX, &mut room, &mut all)?;
            }
            Ok(all)
        })
    }

    /// Goes over all pairs, some buckets at a time.
    ///
    /// ```
    /// use facing::{CountsMap, Fault};
    ///
    /// let mut map = CountsMap::open(16, 1)?;
    /// map.client()?.add(b"word", 4)?;
    /// for pair in &map.close()? {
    ///     assert_eq!(pair?, (b"word".to_vec(), 4));
    /// }
    /// # Ok::<(), Box<dyn std::error::Error + Send + Sync>>(())
    /// ```
    pub fn iter(&self) -> PairsOf<'_, K> {
        PairsOf::of_closed(self)
    }

    /// Opens a map with copies of the pairs. This one stays as it is.
    ///
    /// # Errors
    ///
    /// As [`MapOf::open`].
    pub fn reopen(&self, clients: u32) -> Result<MapOf<K>, Fault> {
        let mut map = MapOf(Owned::null(Origin { forks: forks()?, ..self.origin }), PhantomData);
        let made = &raw mut map.0.handle;
        // SAFETY: as of `ask!`; `made` is room for a handle.
        self.read(|closed| done(closed.lend(|closed, out| unsafe { facing_c_reopen(closed, out, clients, made) })))?;
        Ok(map)
    }
}

impl<'a, K: Kind> IntoIterator for &'a ClosedOf<K> {
    type Item = Result<K::Pair, Fault>;
    type IntoIter = PairsOf<'a, K>;

    fn into_iter(self) -> PairsOf<'a, K> {
        self.iter()
    }
}
