//! Forks of this process, which the library counts, and what a call waits for.
use crate::exports::{facing_back_off, facing_forks_seen, facing_forks_watch};
use crate::fault::Fault;
use crate::handle::done;

/// Returns how often this process, or one that it was forked from, was forked since forks are counted.
pub(crate) fn forks() -> Result<u32, Fault> {
    // SAFETY: both functions take nothing, and any thread may call them.
    let (status, seen) = unsafe { (facing_forks_watch(), facing_forks_seen()) };
    done(status).map(|()| seen)
}

/// Backs off before the next try, and returns the next round: spins, later yields, and then sleeps for a millisecond.
///
/// # Errors
///
/// [`Fault::AfterFork`] where no try will succeed: the map was opened before `forks` changed, so this is the child of a
/// fork, and what the call waits for was in use by a thread that the fork left behind.
pub(crate) fn next_round(round: u32, forks: u32) -> Result<u32, Fault> {
    // SAFETY: the function takes numbers alone, and any thread may call it.
    match unsafe { facing_back_off(round, forks) } {
        0 => Err(Fault::AfterFork),
        next => Ok(next),
    }
}
