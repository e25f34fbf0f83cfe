//! Walks over the pairs of a map, a bucket at a time.
use crate::fault::{fault, Fault, DONE, NO_ROOM};
use crate::handle::Owned;
use crate::maps::{ClosedOf, Kind};
use std::iter::FusedIterator;
use std::vec::IntoIter;

/// The most buckets of one step.
const MOST_BUCKETS: u32 = 1024;

/// Room for the pairs of a bucket: numbers or lengths for each, and bytes for all.
#[derive(Debug, Default)]
pub struct Room {
    pub(crate) keys: Vec<u64>,
    pub(crate) values: Vec<u64>,
    pub(crate) bytes: Vec<u8>,
}

/// What a step told: where to go on, and how many pairs and bytes the bucket has.
#[derive(Clone, Copy, Debug, Default)]
pub struct Told {
    pub(crate) next: u64,
    pub(crate) pairs: usize,
    pub(crate) bytes: usize,
}

impl Room {
    /// Makes room for so many pairs and bytes.
    fn grow(&mut self, pairs: usize, bytes: usize) -> Result<(), Fault> {
        extend(&mut self.keys, pairs)?;
        extend(&mut self.values, pairs)?;
        extend(&mut self.bytes, bytes)
    }
}

fn extend<T: Clone + Default>(list: &mut Vec<T>, len: usize) -> Result<(), Fault> {
    list.try_reserve(len.saturating_sub(list.len())).map_err(|_| Fault::NoMemory)?;
    list.resize(len.max(list.len()), T::default());
    Ok(())
}

/// Returns the bytes as a list of their own.
pub(crate) fn copied(bytes: &[u8]) -> Result<Vec<u8>, Fault> {
    let mut list = Vec::new();
    list.try_reserve_exact(bytes.len()).map_err(|_| Fault::NoMemory)?;
    list.extend_from_slice(bytes);
    Ok(list)
}

/// Adds the pairs of the next buckets, at most so many unless the first bucket has more, and moves the cursor.
pub(crate) fn read<K: Kind>(
    any: &mut Owned,
    at: &mut u64,
    len: usize,
    room: &mut Room,
    pairs: &mut Vec<K::Pair>,
) -> Result<(), Fault> {
    let (before, mut buckets) = (pairs.len(), 0);
    room.grow(64, 4096)?;
    while *at != u64::MAX && buckets < MOST_BUCKETS {
        let mut told = Told { next: *at, ..Told::default() };
        match K::copy_pairs(any, *at, room, &mut told)? {
            DONE if pairs.len() > before && pairs.len() - before + told.pairs > len => break,
            DONE => {
                pairs.try_reserve(told.pairs).map_err(|_| Fault::NoMemory)?;
                K::add_pairs(room, told.pairs, pairs)?;
                (*at, buckets) = (told.next, buckets + 1);
            }
            NO_ROOM => room.grow(told.pairs, told.bytes)?,
            status => return Err(fault(status)),
        }
    }
    Ok(())
}

/// About how many pairs an iterator reads at a time.
const STEP: usize = 1024;

/// An iterator over the pairs of a map, of [`ClientOf::iter`](crate::ClientOf::iter) and [`ClosedOf::iter`]. It ends after a
/// failure: [`Fault::NoMemory`] or [`Fault::AfterFork`].
pub struct PairsOf<'a, K: Kind> {
    source: Source<'a, K>,
    at: u64,
    room: Room,
    ahead: IntoIter<K::Pair>,
}

/// Whose pairs they are.
enum Source<'a, K> {
    Client(&'a mut Owned),
    Closed(&'a ClosedOf<K>),
}

impl<'a, K: Kind> PairsOf<'a, K> {
    pub(crate) fn of_client(client: &'a mut Owned) -> PairsOf<'a, K> {
        PairsOf::of(Source::Client(client))
    }

    pub(crate) fn of_closed(closed: &'a ClosedOf<K>) -> PairsOf<'a, K> {
        PairsOf::of(Source::Closed(closed))
    }

    fn of(source: Source<'a, K>) -> PairsOf<'a, K> {
        PairsOf { source, at: 0, room: Room::default(), ahead: Vec::new().into_iter() }
    }

    /// Reads the pairs of the next buckets, of which there may be none.
    fn step(&mut self) -> Result<(), Fault> {
        let (at, room, mut pairs) = (&mut self.at, &mut self.room, Vec::new());
        match &mut self.source {
            Source::Client(client) => read::<K>(client, at, STEP, room, &mut pairs)?,
            Source::Closed(closed) => closed.read(|it| read::<K>(it, at, STEP, room, &mut pairs))?,
        }
        self.ahead = pairs.into_iter();
        Ok(())
    }
}

impl<K: Kind> Iterator for PairsOf<'_, K> {
    type Item = Result<K::Pair, Fault>;

    fn next(&mut self) -> Option<Result<K::Pair, Fault>> {
        loop {
            if let Some(pair) = self.ahead.next() {
                return Some(Ok(pair));
            }
            if self.at == u64::MAX {
                return None;
            }
            if let Err(fault) = self.step() {
                self.at = u64::MAX;
                return Some(Err(fault));
            }
        }
    }
}

impl<K: Kind> FusedIterator for PairsOf<'_, K> {}

impl<K: Kind> std::fmt::Debug for PairsOf<'_, K> {
    fn fmt(&self, f: &mut std::fmt::Formatter<'_>) -> std::fmt::Result {
        f.debug_struct("PairsOf").field("kind", &K::NAME).field("at", &self.at).finish_non_exhaustive()
    }
}
