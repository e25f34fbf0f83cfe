//! The map from byte strings to numbers.
use crate::exports::{
    facing_c_counts_find, facing_c_counts_open, facing_c_counts_try_add, facing_c_counts_try_add_up_to,
    facing_c_counts_try_contains, facing_c_counts_try_exchange, facing_c_counts_try_get, facing_c_counts_try_greatest,
    facing_c_counts_try_pairs, facing_c_counts_try_put, facing_c_counts_try_put_if_absent, facing_c_counts_try_remove,
    facing_c_counts_try_remove_if, facing_c_counts_try_replace, facing_c_counts_try_replace_if, facing_c_counts_try_set,
    Seen, Sizes,
};
use crate::fault::Fault;
use crate::handle::{ask, done, Owned};
use crate::maps::{ClientOf, ClosedOf, Kind};
use crate::pairs::{copied, Room, Told};
use crate::seed::{seed, size};

/// Keys are byte strings of up to 65,536 bytes, and values are 64-bit numbers.
#[derive(Clone, Copy, Debug)]
pub struct Counts;

impl Kind for Counts {
    type Pair = (Vec<u8>, u64);

    const NAME: &'static str = "Counts";

    fn open(capacity: usize, clients: u32, map: &mut Owned) -> Result<(), Fault> {
        let [first, second] = seed()?;
        // SAFETY: the handle is room that nobody else uses.
        done(unsafe { facing_c_counts_open(capacity, clients, first, second, &raw mut map.handle) })
    }

    fn copy_pairs(any: &mut Owned, at: u64, room: &mut Room, told: &mut Told) -> Result<u32, Fault> {
        let mut sizes = Sizes::default();
        let (lens, values, len) = (room.keys.as_mut_ptr(), room.values.as_mut_ptr(), room.keys.len());
        let (bytes, room_len) = (room.bytes.as_mut_ptr(), room.bytes.len());
        let (next, copied) = (&raw mut told.next, &raw mut sizes);
        // SAFETY: as of `ask!`; the pointers are those of lists that live until the call returns, with their lengths.
        let pairs = |any, out| unsafe {
            facing_c_counts_try_pairs(any, out, at, next, lens, len, values, len, bytes, room_len, copied)
        };
        let status = any.lend_until_done(pairs)?;
        (told.pairs, told.bytes) = (size(sizes.pairs), size(sizes.bytes));
        Ok(status)
    }

    fn add_pairs(room: &Room, count: usize, pairs: &mut Vec<Self::Pair>) -> Result<(), Fault> {
        let mut rest = room.bytes.as_slice();
        for (len, value) in room.keys.iter().zip(&room.values).take(count) {
            let (key, after) = rest.split_at(size(*len));
            pairs.push((copied(key)?, *value));
            rest = after;
        }
        Ok(())
    }
}

/// Each call fails with [`Fault::TooLong`], [`Fault::NoMemory`], [`Fault::ClientFull`] or [`Fault::AfterFork`], and then it
/// was not made.
#[allow(clippy::missing_errors_doc)]
impl ClientOf<Counts> {
    /// Returns the value at the key.
    pub fn get(&mut self, key: &[u8]) -> Result<Option<u64>, Fault> {
        Ok(ask!(self.0, facing_c_counts_try_get, key.as_ptr(), key.len())?.value())
    }

    /// Returns whether the key has a value.
    pub fn contains(&mut self, key: &[u8]) -> Result<bool, Fault> {
        Ok(ask!(self.0, facing_c_counts_try_contains, key.as_ptr(), key.len())?.truth())
    }

    /// Stores the value, and returns the one before.
    pub fn put(&mut self, key: &[u8], value: u64) -> Result<Option<u64>, Fault> {
        Ok(ask!(self.0, facing_c_counts_try_put, key.as_ptr(), key.len(), value)?.value())
    }

    /// Stores the value where the key has none, and returns the one before.
    pub fn put_if_absent(&mut self, key: &[u8], value: u64) -> Result<Option<u64>, Fault> {
        Ok(ask!(self.0, facing_c_counts_try_put_if_absent, key.as_ptr(), key.len(), value)?.value())
    }

    /// Removes the key, and returns its value.
    pub fn remove(&mut self, key: &[u8]) -> Result<Option<u64>, Fault> {
        Ok(ask!(self.0, facing_c_counts_try_remove, key.as_ptr(), key.len())?.value())
    }

    /// Removes the key where it has this value, and returns whether it had.
    pub fn remove_if(&mut self, key: &[u8], value: u64) -> Result<bool, Fault> {
        Ok(ask!(self.0, facing_c_counts_try_remove_if, key.as_ptr(), key.len(), value)?.truth())
    }

    /// Stores the value where the key has one, and returns the one before.
    pub fn replace(&mut self, key: &[u8], value: u64) -> Result<Option<u64>, Fault> {
        Ok(ask!(self.0, facing_c_counts_try_replace, key.as_ptr(), key.len(), value)?.value())
    }

    /// Stores the new value where the key has the old one, and returns whether it had.
    pub fn replace_if(&mut self, key: &[u8], old: u64, new: u64) -> Result<bool, Fault> {
        Ok(ask!(self.0, facing_c_counts_try_replace_if, key.as_ptr(), key.len(), old, new)?.truth())
    }

    /// Adds to the value at the key, up to `u64::MAX`, and returns the value after.
    pub fn add(&mut self, key: &[u8], value: u64) -> Result<u64, Fault> {
        Ok(ask!(self.0, facing_c_counts_try_add, key.as_ptr(), key.len(), value)?.value)
    }

    /// Adds to the value at the key, or to 0, where the sum is at most `most`, and returns whether it is.
    pub fn add_up_to(&mut self, key: &[u8], amount: u64, most: u64) -> Result<bool, Fault> {
        let (at, len) = (key.as_ptr(), key.len());
        let told = ask!(self.0, facing_c_counts_try_add_up_to, at, len, amount, most)?;
        Ok(told.truth())
    }

    /// Stores what the closure makes of the key's value, or removes the key where it makes none, and returns that. No bucket
    /// is locked while the closure runs; it is called again where another client changed the value meanwhile.
    pub fn update(&mut self, key: &[u8], mut change: impl FnMut(Option<u64>) -> Option<u64>) -> Result<Option<u64>, Fault> {
        let mut now = self.get(key)?;
        loop {
            let next = change(now);
            let (expected, value, mut seen) = (now.unwrap_or(0), next.unwrap_or(0), Seen::default());
            let (has, sets) = (u32::from(now.is_some()), u32::from(next.is_some()));
            let (at, len) = (key.as_ptr(), key.len());
            // SAFETY: as of `ask!`; `seen` is room for this call alone.
            let exchange =
                |c, out| unsafe { facing_c_counts_try_exchange(c, out, at, len, has, expected, sets, value, &raw mut seen) };
            done(self.0.lend_until_done(exchange)?)?;
            if seen.exchanged == 1 {
                return Ok(next);
            }
            now = seen.value();
        }
    }

    /// Stores the greater of the key's value and this one, and returns it.
    pub fn greatest(&mut self, key: &[u8], value: u64) -> Result<u64, Fault> {
        Ok(ask!(self.0, facing_c_counts_try_greatest, key.as_ptr(), key.len(), value)?.value)
    }

    /// Stores the value, and returns it.
    pub fn set(&mut self, key: &[u8], value: u64) -> Result<u64, Fault> {
        Ok(ask!(self.0, facing_c_counts_try_set, key.as_ptr(), key.len(), value)?.value)
    }
}

impl ClosedOf<Counts> {
    /// Returns the value at the key.
    ///
    /// # Errors
    ///
    /// [`Fault::TooLong`] and [`Fault::AfterFork`].
    pub fn get(&self, key: &[u8]) -> Result<Option<u64>, Fault> {
        let (at, len) = (key.as_ptr(), key.len());
        self.read(|it| Ok(ask!(it, facing_c_counts_find, at, len)?.value()))
    }
}
