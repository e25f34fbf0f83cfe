//! What the static library exports, as the headers have it, and the system's random bytes.
use std::os::raw::{c_char, c_void};

/// What an export takes and gives back.
#[repr(C)]
#[derive(Clone, Copy, Debug)]
pub struct Handle {
    pub(crate) at: *mut c_void,
}

impl Handle {
    pub(crate) const fn null() -> Handle {
        Handle { at: std::ptr::null_mut() }
    }
}

#[repr(C)]
#[derive(Clone, Copy, Default)]
pub(crate) struct Answer {
    pub(crate) found: u32,
    pub(crate) value: u64,
}

impl Answer {
    pub(crate) fn value(self) -> Option<u64> {
        (self.found == 1).then_some(self.value)
    }

    pub(crate) fn truth(self) -> bool {
        self.found == 1
    }

    /// The answer's value, which is a length or a count.
    pub(crate) fn len(self) -> usize {
        usize::try_from(self.value).unwrap_or(usize::MAX)
    }
}

#[repr(C)]
#[derive(Clone, Copy, Default)]
pub(crate) struct Sizes {
    pub(crate) pairs: u64,
    pub(crate) bytes: u64,
}

/// What an exchange saw.
#[repr(C)]
#[derive(Clone, Copy, Default)]
pub(crate) struct Seen {
    pub(crate) exchanged: u32,
    pub(crate) found: u32,
    pub(crate) value: u64,
}

impl Seen {
    /// The value that was seen.
    pub(crate) fn value(self) -> Option<u64> {
        (self.found == 1).then_some(self.value)
    }
}

type Out = *mut Handle;
type Told = *mut Answer;
type Found = *mut Seen;
type Bytes = *const u8;
type Room = *mut u8;
type Numbers = *mut u64;

// Of each kind of handle.
extern "C" {
    pub(crate) fn facing_c_client(map: Handle, out: Out, client: Out) -> u32;
    pub(crate) fn facing_c_count(any: Handle, out: Out, answer: Told) -> u32;
    pub(crate) fn facing_c_close(map: Handle, out: Out) -> u32;
    pub(crate) fn facing_c_reopen(closed: Handle, out: Out, clients: u32, map: Out) -> u32;
    pub(crate) fn facing_c_again(closed: Handle, out: Out, more: Out) -> u32;
    pub(crate) fn facing_c_free(any: Handle);
}

// Numbers by numbers.
extern "C" {
    pub(crate) fn facing_c_open_seeded(
        capacity: usize,
        clients: u32,
        salt: u32,
        seed0: u64,
        seed1: u64,
        out: Out,
    ) -> u32;
    pub(crate) fn facing_c_try_get(client: Handle, out: Out, key: u64, answer: Told) -> u32;
    pub(crate) fn facing_c_try_contains(client: Handle, out: Out, key: u64, answer: Told) -> u32;
    pub(crate) fn facing_c_try_put(client: Handle, out: Out, key: u64, value: u64, answer: Told) -> u32;
    pub(crate) fn facing_c_try_put_if_absent(client: Handle, out: Out, key: u64, value: u64, answer: Told) -> u32;
    pub(crate) fn facing_c_try_remove(client: Handle, out: Out, key: u64, answer: Told) -> u32;
    pub(crate) fn facing_c_try_remove_if(client: Handle, out: Out, key: u64, value: u64, answer: Told) -> u32;
    pub(crate) fn facing_c_try_replace(client: Handle, out: Out, key: u64, value: u64, answer: Told) -> u32;
    pub(crate) fn facing_c_try_replace_if(client: Handle, out: Out, key: u64, old: u64, new: u64, answer: Told) -> u32;
    pub(crate) fn facing_c_try_add(client: Handle, out: Out, key: u64, value: u64, answer: Told) -> u32;
    pub(crate) fn facing_c_try_greatest(client: Handle, out: Out, key: u64, value: u64, answer: Told) -> u32;
    pub(crate) fn facing_c_try_set(client: Handle, out: Out, key: u64, value: u64, answer: Told) -> u32;
    pub(crate) fn facing_c_try_add_up_to(client: Handle, out: Out, key: u64, amount: u64, most: u64, answer: Told) -> u32;
    pub(crate) fn facing_c_try_exchange(
        client: Handle,
        out: Out,
        key: u64,
        has_expected: u32,
        expected: u64,
        has_value: u32,
        value: u64,
        seen: Found,
    ) -> u32;
    pub(crate) fn facing_c_find(closed: Handle, out: Out, key: u64, answer: Told) -> u32;
    pub(crate) fn facing_c_try_pairs(
        any: Handle,
        out: Out,
        at: u64,
        next: Numbers,
        keys: Numbers,
        keys_len: usize,
        values: Numbers,
        values_len: usize,
        answer: Told,
    ) -> u32;
}

// Numbers by byte strings.
extern "C" {
    pub(crate) fn facing_c_counts_open(capacity: usize, clients: u32, seed0: u64, seed1: u64, out: Out) -> u32;
    pub(crate) fn facing_c_counts_try_get(client: Handle, out: Out, key: Bytes, len: usize, answer: Told) -> u32;
    pub(crate) fn facing_c_counts_try_contains(client: Handle, out: Out, key: Bytes, len: usize, answer: Told) -> u32;
    pub(crate) fn facing_c_counts_try_put(client: Handle, out: Out, key: Bytes, len: usize, value: u64, answer: Told)
        -> u32;
    pub(crate) fn facing_c_counts_try_put_if_absent(
        client: Handle,
        out: Out,
        key: Bytes,
        len: usize,
        value: u64,
        answer: Told,
    ) -> u32;
    pub(crate) fn facing_c_counts_try_remove(client: Handle, out: Out, key: Bytes, len: usize, answer: Told) -> u32;
    pub(crate) fn facing_c_counts_try_remove_if(
        client: Handle,
        out: Out,
        key: Bytes,
        len: usize,
        value: u64,
        answer: Told,
    ) -> u32;
    pub(crate) fn facing_c_counts_try_replace(
        client: Handle,
        out: Out,
        key: Bytes,
        len: usize,
        value: u64,
        answer: Told,
    ) -> u32;
    pub(crate) fn facing_c_counts_try_replace_if(
        client: Handle,
        out: Out,
        key: Bytes,
        len: usize,
        old: u64,
        new: u64,
        answer: Told,
    ) -> u32;
    pub(crate) fn facing_c_counts_try_add(client: Handle, out: Out, key: Bytes, len: usize, value: u64, answer: Told)
        -> u32;
    pub(crate) fn facing_c_counts_try_greatest(
        client: Handle,
        out: Out,
        key: Bytes,
        len: usize,
        value: u64,
        answer: Told,
    ) -> u32;
    pub(crate) fn facing_c_counts_try_set(client: Handle, out: Out, key: Bytes, len: usize, value: u64, answer: Told)
        -> u32;
    pub(crate) fn facing_c_counts_try_add_up_to(
        client: Handle,
        out: Out,
        key: Bytes,
        len: usize,
        amount: u64,
        most: u64,
        answer: Told,
    ) -> u32;
    pub(crate) fn facing_c_counts_try_exchange(
        client: Handle,
        out: Out,
        key: Bytes,
        len: usize,
        has_expected: u32,
        expected: u64,
        has_value: u32,
        value: u64,
        seen: Found,
    ) -> u32;
    pub(crate) fn facing_c_counts_find(closed: Handle, out: Out, key: Bytes, len: usize, answer: Told) -> u32;
    pub(crate) fn facing_c_counts_try_pairs(
        any: Handle,
        out: Out,
        at: u64,
        next: Numbers,
        key_lens: Numbers,
        key_lens_len: usize,
        values: Numbers,
        values_len: usize,
        room: Room,
        room_len: usize,
        copied: *mut Sizes,
    ) -> u32;
}

// Byte strings by byte strings.
extern "C" {
    pub(crate) fn facing_c_bytes_open(capacity: usize, clients: u32, seed0: u64, seed1: u64, out: Out) -> u32;
    pub(crate) fn facing_c_bytes_try_get(
        client: Handle,
        out: Out,
        key: Bytes,
        len: usize,
        room: Room,
        room_len: usize,
        answer: Told,
    ) -> u32;
    pub(crate) fn facing_c_bytes_try_hold(client: Handle, out: Out, key: Bytes, len: usize, held: Out, answer: Told) -> u32;
    pub(crate) fn facing_c_bytes_read(held: Handle, out: Out, from: usize, room: Room, room_len: usize, answer: Told)
        -> u32;
    pub(crate) fn facing_c_bytes_try_contains(client: Handle, out: Out, key: Bytes, len: usize, answer: Told) -> u32;
    pub(crate) fn facing_c_bytes_try_put(
        client: Handle,
        out: Out,
        key: Bytes,
        len: usize,
        value: Bytes,
        value_len: usize,
        room: Room,
        room_len: usize,
        answer: Told,
    ) -> u32;
    pub(crate) fn facing_c_bytes_try_put_if_absent(
        client: Handle,
        out: Out,
        key: Bytes,
        len: usize,
        value: Bytes,
        value_len: usize,
        room: Room,
        room_len: usize,
        answer: Told,
    ) -> u32;
    pub(crate) fn facing_c_bytes_try_remove(
        client: Handle,
        out: Out,
        key: Bytes,
        len: usize,
        room: Room,
        room_len: usize,
        answer: Told,
    ) -> u32;
    pub(crate) fn facing_c_bytes_try_remove_if(
        client: Handle,
        out: Out,
        key: Bytes,
        len: usize,
        value: Bytes,
        value_len: usize,
        answer: Told,
    ) -> u32;
    pub(crate) fn facing_c_bytes_try_replace(
        client: Handle,
        out: Out,
        key: Bytes,
        len: usize,
        value: Bytes,
        value_len: usize,
        room: Room,
        room_len: usize,
        answer: Told,
    ) -> u32;
    pub(crate) fn facing_c_bytes_try_replace_if(
        client: Handle,
        out: Out,
        key: Bytes,
        len: usize,
        old: Bytes,
        old_len: usize,
        new: Bytes,
        new_len: usize,
        answer: Told,
    ) -> u32;
    pub(crate) fn facing_c_bytes_try_exchange(
        client: Handle,
        out: Out,
        key: Bytes,
        len: usize,
        has_expected: u32,
        expected: Bytes,
        expected_len: usize,
        has_value: u32,
        value: Bytes,
        value_len: usize,
        room: Room,
        room_len: usize,
        seen: Found,
    ) -> u32;
    pub(crate) fn facing_c_bytes_find(
        closed: Handle,
        out: Out,
        key: Bytes,
        len: usize,
        room: Room,
        room_len: usize,
        answer: Told,
    ) -> u32;
    pub(crate) fn facing_c_bytes_try_pairs(
        any: Handle,
        out: Out,
        at: u64,
        next: Numbers,
        key_lens: Numbers,
        key_lens_len: usize,
        value_lens: Numbers,
        value_lens_len: usize,
        room: Room,
        room_len: usize,
        copied: *mut Sizes,
    ) -> u32;
}

// Forks, and the version.
extern "C" {
    pub(crate) fn facing_version() -> *const c_char;
    pub(crate) fn facing_forks_watch() -> u32;
    pub(crate) fn facing_forks_seen() -> u32;
    pub(crate) fn facing_back_off(round: u32, forks_before: u32) -> u32;
}

// Of the system's C library.
extern "C" {
    pub(crate) fn getrandom(room: *mut c_void, len: usize, flags: u32) -> isize;
}
