//! The map of byte strings.
use crate::exports::{
    facing_c_bytes_find, facing_c_bytes_open, facing_c_bytes_read, facing_c_bytes_try_contains, facing_c_bytes_try_exchange,
    facing_c_bytes_try_get, facing_c_bytes_try_hold, facing_c_bytes_try_pairs, facing_c_bytes_try_put,
    facing_c_bytes_try_put_if_absent, facing_c_bytes_try_remove, facing_c_bytes_try_remove_if, facing_c_bytes_try_replace,
    facing_c_bytes_try_replace_if, Answer, Handle, Seen, Sizes,
};
use crate::fault::{fault, Fault, DONE, NO_ROOM};
use crate::handle::{ask, done, Owned};
use crate::maps::{ClientOf, ClosedOf, Kind, MapOf};
use crate::pairs::{copied, Room, Told};
use crate::seed::{seed, size};

/// Keys are byte strings of up to 65,536 bytes, and values byte strings of as many, or of as many as
/// [`BytesMap::open_for_values`](crate::BytesMap::open_for_values) was told.
#[derive(Clone, Copy, Debug)]
pub struct Bytes;

/// The most bytes of a key, and of a value unless its map was opened for longer ones.
pub const LONGEST: usize = 65_536;

/// The most bytes of a value of any map: 2^29.
pub const LONGEST_VALUE: usize = 1 << 29;

impl Kind for Bytes {
    type Pair = (Vec<u8>, Vec<u8>);

    const NAME: &'static str = "Bytes";

    fn open(capacity: usize, clients: u32, map: &mut Owned) -> Result<(), Fault> {
        let [first, second] = seed()?;
        // SAFETY: the handle is room that nobody else uses.
        done(unsafe { facing_c_bytes_open(capacity, clients, first, second, &raw mut map.handle) })
    }

    fn copy_pairs(any: &mut Owned, at: u64, room: &mut Room, told: &mut Told) -> Result<u32, Fault> {
        let mut sizes = Sizes::default();
        let (lens, values, len) = (room.keys.as_mut_ptr(), room.values.as_mut_ptr(), room.keys.len());
        let (bytes, room_len) = (room.bytes.as_mut_ptr(), room.bytes.len());
        let (next, copied) = (&raw mut told.next, &raw mut sizes);
        // SAFETY: as of `ask!`; the pointers are those of lists that live until the call returns, with their lengths.
        let pairs = |any, out| unsafe {
            facing_c_bytes_try_pairs(any, out, at, next, lens, len, values, len, bytes, room_len, copied)
        };
        let status = any.lend_until_done(pairs)?;
        (told.pairs, told.bytes) = (size(sizes.pairs), size(sizes.bytes));
        Ok(status)
    }

    fn add_pairs(room: &Room, count: usize, pairs: &mut Vec<Self::Pair>) -> Result<(), Fault> {
        let mut rest = room.bytes.as_slice();
        for (key_len, value_len) in room.keys.iter().zip(&room.values).take(count) {
            let (key, after) = rest.split_at(size(*key_len));
            let (value, after) = after.split_at(size(*value_len));
            pairs.push((copied(key)?, copied(value)?));
            rest = after;
        }
        Ok(())
    }
}

/// Makes a call by an export that answers with a value, with these byte strings between the handle and the room for it.
macro_rules! value {
    ($client:expr, $export:ident $(, $bytes:expr)*) => {
        $client.value(|handle, out, room, len, answer| {
            // SAFETY: as of `ask!`; `room` has `len` bytes, and nobody else uses it.
            unsafe { $export(handle, out, $($bytes.as_ptr(), $bytes.len(),)* room, len, answer) }
        })
    };
}

impl MapOf<Bytes> {
    /// Opens an empty map as [`MapOf::open`] does, for values of up to so many bytes: up to 2^29. Each client has room for so
    /// many, which takes memory where it is used.
    ///
    /// # Errors
    ///
    /// As [`MapOf::open`]; [`Fault::TooLong`] where `longest` is past 2^29.
    pub fn open_for_values(capacity: usize, clients: u32, longest: usize) -> Result<MapOf<Bytes>, Fault> {
        if longest > LONGEST_VALUE {
            return Err(Fault::TooLong);
        }
        MapOf::open_for(capacity, clients, longest)
    }
}

/// A value, which stays as it is when the map changes, and outlives it.
pub struct Held {
    owned: Owned,
    len: usize,
}

impl std::fmt::Debug for Held {
    fn fmt(&self, f: &mut std::fmt::Formatter<'_>) -> std::fmt::Result {
        f.debug_struct("Held").field("len", &self.len).finish_non_exhaustive()
    }
}

impl Held {
    /// Returns how many bytes it has.
    #[must_use]
    pub fn len(&self) -> usize {
        self.len
    }

    /// Returns whether it has no bytes.
    #[must_use]
    pub fn is_empty(&self) -> bool {
        self.len == 0
    }

    /// Copies bytes from number `from` on, as many as there is room for.
    ///
    /// # Errors
    ///
    /// [`Fault::WrongHandle`] alone, which does not happen.
    pub fn read(&mut self, from: usize, room: &mut [u8]) -> Result<(), Fault> {
        let (at, len) = (room.as_mut_ptr(), room.len());
        ask!(self.owned, facing_c_bytes_read, from, at, len).map(drop)
    }

    /// Returns all its bytes.
    ///
    /// # Errors
    ///
    /// [`Fault::NoMemory`].
    pub fn to_vec(&mut self) -> Result<Vec<u8>, Fault> {
        let mut all = Vec::new();
        all.try_reserve_exact(self.len).map_err(|_| Fault::NoMemory)?;
        all.resize(self.len, 0);
        self.read(0, &mut all).map(|()| all)
    }
}

/// Each call fails with [`Fault::TooLong`], [`Fault::NoMemory`], [`Fault::ClientFull`] or [`Fault::AfterFork`], and then it
/// was not made.
#[allow(clippy::missing_errors_doc)]
impl ClientOf<Bytes> {
    /// Makes a call that answers with a value, for which there is room whatever its length.
    fn value(
        &mut self,
        try_it: impl Fn(Handle, *mut Handle, *mut u8, usize, *mut Answer) -> u32,
    ) -> Result<Option<Vec<u8>>, Fault> {
        let (longest, room) = (self.0.origin.longest, &mut self.1);
        room.clear();
        room.try_reserve_exact(longest).map_err(|_| Fault::NoMemory)?;
        let at = room.as_mut_ptr();
        let answer = self.0.ask(|client, out, answer| try_it(client, out, at, longest, answer))?;
        if !answer.truth() {
            return Ok(None);
        }
        // SAFETY: the call wrote so many bytes, for which there is room: no value of this map is longer.
        unsafe { room.set_len(answer.len().min(longest)) };
        // (the call was made, so it does not fail: where there is no memory for a copy the room itself is returned)
        Ok(Some(copied(room).unwrap_or_else(|_| std::mem::take(room))))
    }

    /// What the map stores finds room in each of its clients.
    fn bound(&self, value: &[u8]) -> Result<(), Fault> {
        if value.len() <= self.0.origin.longest {
            Ok(())
        } else {
            Err(Fault::TooLong)
        }
    }

    /// Returns a copy of the value at the key.
    pub fn get(&mut self, key: &[u8]) -> Result<Option<Vec<u8>>, Fault> {
        value!(self, facing_c_bytes_try_get, key)
    }

    /// Returns the value at the key, which is not copied.
    pub fn hold(&mut self, key: &[u8]) -> Result<Option<Held>, Fault> {
        let mut owned = Owned::null(self.0.origin);
        let held = &raw mut owned.handle;
        let (at, len) = (key.as_ptr(), key.len());
        let answer = ask!(self.0, facing_c_bytes_try_hold, at, len, held)?;
        Ok(answer.truth().then(|| Held { owned, len: answer.len() }))
    }

    /// Returns whether the key has a value.
    pub fn contains(&mut self, key: &[u8]) -> Result<bool, Fault> {
        let told = ask!(self.0, facing_c_bytes_try_contains, key.as_ptr(), key.len())?;
        Ok(told.truth())
    }

    /// Stores the value, and returns the one before.
    pub fn put(&mut self, key: &[u8], value: &[u8]) -> Result<Option<Vec<u8>>, Fault> {
        self.bound(value)?;
        value!(self, facing_c_bytes_try_put, key, value)
    }

    /// Stores the value where the key has none, and returns the one before.
    pub fn put_if_absent(&mut self, key: &[u8], value: &[u8]) -> Result<Option<Vec<u8>>, Fault> {
        self.bound(value)?;
        value!(self, facing_c_bytes_try_put_if_absent, key, value)
    }

    /// Removes the key, and returns its value.
    pub fn remove(&mut self, key: &[u8]) -> Result<Option<Vec<u8>>, Fault> {
        value!(self, facing_c_bytes_try_remove, key)
    }

    /// Removes the key where it has this value, and returns whether it had.
    pub fn remove_if(&mut self, key: &[u8], value: &[u8]) -> Result<bool, Fault> {
        let told = ask!(self.0, facing_c_bytes_try_remove_if, key.as_ptr(), key.len(), value.as_ptr(), value.len())?;
        Ok(told.truth())
    }

    /// Stores the value where the key has one, and returns the one before.
    pub fn replace(&mut self, key: &[u8], value: &[u8]) -> Result<Option<Vec<u8>>, Fault> {
        self.bound(value)?;
        value!(self, facing_c_bytes_try_replace, key, value)
    }

    /// Stores the new value where the key has the old one, and returns whether it had.
    pub fn replace_if(&mut self, key: &[u8], old: &[u8], new: &[u8]) -> Result<bool, Fault> {
        self.bound(new)?;
        let (at, len) = (key.as_ptr(), key.len());
        let told = ask!(self.0, facing_c_bytes_try_replace_if, at, len, old.as_ptr(), old.len(), new.as_ptr(), new.len(),)?;
        Ok(told.truth())
    }

    /// Stores what the closure makes of the key's value, or removes the key where it makes none, and returns that. No bucket
    /// is locked while the closure runs; it is called again where another client changed the value meanwhile.
    pub fn update(
        &mut self,
        key: &[u8],
        mut change: impl FnMut(Option<&[u8]>) -> Option<Vec<u8>>,
    ) -> Result<Option<Vec<u8>>, Fault> {
        loop {
            let now = self.get(key)?;
            let next = change(now.as_deref());
            let (expected, value) = (now.as_deref().unwrap_or_default(), next.as_deref().unwrap_or_default());
            self.bound(value)?;
            let (has, sets, mut seen) = (u32::from(now.is_some()), u32::from(next.is_some()), Seen::default());
            let ((key, key_len), none) = ((key.as_ptr(), key.len()), [].as_mut_ptr());
            let ((from, from_len), (to, to_len)) = ((expected.as_ptr(), expected.len()), (value.as_ptr(), value.len()));
            let told = &raw mut seen;
            // SAFETY: as of `ask!`; `seen` is room for this call alone.
            let exchange = |c, out| unsafe {
                facing_c_bytes_try_exchange(c, out, key, key_len, has, from, from_len, sets, to, to_len, none, 0, told)
            };
            done(self.0.lend_until_done(exchange)?)?;
            if seen.exchanged == 1 {
                return Ok(next);
            }
        }
    }
}

impl ClosedOf<Bytes> {
    /// Returns a copy of the value at the key.
    ///
    /// # Errors
    ///
    /// [`Fault::TooLong`], [`Fault::NoMemory`] and [`Fault::AfterFork`].
    pub fn get(&self, key: &[u8]) -> Result<Option<Vec<u8>>, Fault> {
        self.read(|closed| {
            let (mut value, mut answer) = (Vec::<u8>::new(), Answer::default());
            loop {
                let (at, len) = (value.as_mut_ptr(), value.len());
                // SAFETY: as of `ask!`.
                let find =
                    |it, out| unsafe { facing_c_bytes_find(it, out, key.as_ptr(), key.len(), at, len, &raw mut answer) };
                match closed.lend(find) {
                    DONE => return Ok(answer.truth().then_some(value)),
                    NO_ROOM => {
                        value.try_reserve_exact(answer.len()).map_err(|_| Fault::NoMemory)?;
                        value.resize(answer.len(), 0);
                    }
                    status => return Err(fault(status)),
                }
            }
        })
    }
}
