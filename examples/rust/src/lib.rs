//! Concurrent hash maps: safe Rust over the installed C library.
//!
//! | Map | Keys | Values |
//! |---|---|---|
//! | [`Map`] | 64-bit numbers | 64-bit numbers |
//! | [`CountsMap`] | byte strings | 64-bit numbers |
//! | [`BytesMap`] | byte strings | byte strings |
//!
//! A [`ClientOf`] makes the calls. It serves one thread at a time, and may be sent to another. A [`PoolOf`] is a map with
//! clients of its own, which any thread calls by `&self`. A [`ClosedOf`] is read by several threads at once.
//!
//! A call that fails says why by a [`Fault`], was not made, and changed nothing.
//!
//! ```
//! use facing::{CountsMap, Fault};
//!
//! let mut map = CountsMap::open(16, 4)?;
//! std::thread::scope(|scope| {
//!     for _ in 0..4 {
//!         let mut client = map.client()?;
//!         scope.spawn(move || client.add(b"word", 1));
//!     }
//!     Ok::<(), Fault>(())
//! })?;
//! let closed = map.close()?;
//! assert_eq!(closed.get(b"word")?, Some(4));
//! # Ok::<(), Box<dyn std::error::Error>>(())
//! ```
//!
//! The child of a fork has a copy of each map. A call there fails with [`Fault::AfterFork`] where another thread was using
//! what it waits for during the fork.
#![deny(missing_docs, missing_debug_implementations, clippy::undocumented_unsafe_blocks)]
mod bytes;
mod counts;
mod exports;
mod fault;
mod fork;
mod handle;
mod maps;
mod numbers;
mod pairs;
mod pool;
mod seed;

pub use bytes::{Bytes, Held, LONGEST, LONGEST_VALUE};
pub use counts::Counts;
pub use fault::Fault;
pub use maps::{ClientOf, ClosedOf, Cursor, Kind, MapOf, NotClosed};
pub use numbers::Numbers;
pub use pairs::PairsOf;
pub use pool::PoolOf;

/// Returns the version of the library that is linked, as "0.1.0"; "0.1.0 unproved" of one that was built without its proofs.
#[must_use]
pub fn version() -> &'static str {
    // SAFETY: the function takes nothing, and returns a constant string that ends with 0.
    let told = unsafe { std::ffi::CStr::from_ptr(exports::facing_version()) };
    told.to_str().unwrap_or_default()
}

#[cfg(doctest)]
#[doc = include_str!("../README.md")]
struct ExamplesOfReadme;

/// An open map from numbers to numbers.
pub type Map = MapOf<Numbers>;
/// A client of a [`Map`].
pub type Client = ClientOf<Numbers>;
/// A closed [`Map`].
pub type Closed = ClosedOf<Numbers>;
/// A [`Map`] that any thread calls.
pub type Pool = PoolOf<Numbers>;

/// An open map from byte strings to numbers.
pub type CountsMap = MapOf<Counts>;
/// A client of a [`CountsMap`].
pub type CountsClient = ClientOf<Counts>;
/// A closed [`CountsMap`].
pub type ClosedCounts = ClosedOf<Counts>;
/// A [`CountsMap`] that any thread calls.
pub type CountsPool = PoolOf<Counts>;

/// An open map from byte strings to byte strings.
pub type BytesMap = MapOf<Bytes>;
/// A client of a [`BytesMap`].
pub type BytesClient = ClientOf<Bytes>;
/// A closed [`BytesMap`].
pub type ClosedBytes = ClosedOf<Bytes>;
/// A [`BytesMap`] that any thread calls.
pub type BytesPool = PoolOf<Bytes>;
