//! What fails.

/// Why a call failed. The map and its clients are as they were, but after [`Fault::BinMissing`].
#[derive(Clone, Copy, Debug, PartialEq, Eq)]
#[non_exhaustive]
pub enum Fault {
    /// Out of memory. A map whose close failed so gives out no more clients, and can be closed again.
    NoMemory,
    /// The client made all the calls that it may: drop it and take another.
    ClientFull,
    /// The capacity is not 1 to 2^26.
    BadCapacity,
    /// The number of clients is not 1 to 65,536.
    BadClients,
    /// Of a close: a client is not dropped yet.
    ClientOut,
    /// Of a close: a part of the map was not found, and the map has ended. No run has met this.
    BinMissing,
    /// The handle was lost; no call loses it.
    WrongHandle,
    /// A key has more than 65,536 bytes, or a value more than its map was opened for.
    TooLong,
    /// Every client of the map is in use.
    NoClient,
    /// The system gave no random bytes for the seed of a map.
    NoSeed,
    /// This process was forked while another thread was using what the call waits for: a bucket, a client of a pool, or a
    /// closed map. That thread is not in this process, so nobody gives it back.
    AfterFork,
    /// A closure that was given to [`PoolOf::with`](crate::PoolOf::with) called it again on the same pool. Threads that hold
    /// a client and wait for another could wait for ever.
    Nested,
}

impl std::fmt::Display for Fault {
    fn fmt(&self, f: &mut std::fmt::Formatter<'_>) -> std::fmt::Result {
        f.write_str(match self {
            Fault::NoMemory => "out of memory",
            Fault::ClientFull => "the client made all the calls that it may",
            Fault::BadCapacity => "the capacity is not 1 to 2^26",
            Fault::BadClients => "the number of clients is out of its range",
            Fault::ClientOut => "a client of the map is not dropped yet",
            Fault::BinMissing => "a part of the map is missing",
            Fault::WrongHandle => "the handle is null or of another kind",
            Fault::TooLong => "a key has more than 65,536 bytes, or a value more than the map was opened for",
            Fault::NoClient => "every client of the map is in use",
            Fault::NoSeed => "the system gave no random bytes",
            Fault::AfterFork => "a thread that the fork left behind holds the lock",
            Fault::Nested => "the thread already uses a client of this pool",
        })
    }
}

impl std::error::Error for Fault {}

pub(crate) const DONE: u32 = 0;
pub(crate) const BUSY: u32 = 1;
pub(crate) const WRONG_HANDLE: u32 = 8;
pub(crate) const NO_ROOM: u32 = 13;

/// The fault of a status that is neither done, nor busy, nor without room.
pub(crate) fn fault(status: u32) -> Fault {
    match status {
        2 => Fault::NoMemory,
        3 => Fault::ClientFull,
        4 => Fault::BadCapacity,
        5 => Fault::BadClients,
        6 => Fault::ClientOut,
        7 => Fault::BinMissing,
        10 => Fault::TooLong,
        11 => Fault::NoClient,
        _ => Fault::WrongHandle,
    }
}
