//! Handles, and calls that are tried again while a bucket is locked.
use crate::exports::{facing_c_count, facing_c_free, Answer, Handle};
use crate::fault::{fault, Fault, BUSY, DONE, WRONG_HANDLE};
use crate::fork::next_round;
use std::sync::{Mutex, MutexGuard, TryLockError};

/// Makes a call by an export that answers, with these arguments between the handle and the answer.
macro_rules! ask {
    ($owned:expr, $export:ident $(, $argument:expr)* $(,)?) => {
        $owned.ask(|handle, out, answer| {
            // SAFETY: `handle` is what an export gave back last, and nobody else has it. `out` and `answer` are room for this
            // call alone. A pointer among the arguments is that of a slice, or of room for a handle, which lives until the
            // call returns, and a slice's length is passed with it.
            unsafe { $export(handle, out, $($argument,)* answer) }
        })
    };
}
pub(crate) use ask;

/// What all handles of a map have in common.
#[derive(Clone, Copy, Debug)]
pub(crate) struct Origin {
    /// How many forks had been counted when the map was opened.
    pub(crate) forks: u32,
    /// The most bytes of a value, in a map of byte strings.
    pub(crate) longest: usize,
}

/// A handle that this value alone has, or null.
#[derive(Debug)]
pub struct Owned {
    pub(crate) handle: Handle,
    pub(crate) origin: Origin,
}

// SAFETY: the library proves `Send` of what a handle stands for.
unsafe impl Send for Owned {}

// SAFETY: nothing is done with a handle by `&Owned`.
unsafe impl Sync for Owned {}

impl Owned {
    pub(crate) const fn null(origin: Origin) -> Owned {
        Owned { handle: Handle::null(), origin }
    }

    /// Hands the handle to an export, with room for it to come back to, and returns the status.
    pub(crate) fn lend(&mut self, export: impl FnOnce(Handle, *mut Handle) -> u32) -> u32 {
        let given = std::mem::replace(&mut self.handle, Handle::null());
        if given.at.is_null() {
            return WRONG_HANDLE;
        }
        export(given, &raw mut self.handle)
    }

    /// Hands the handle to an export again and again while a bucket is locked.
    pub(crate) fn lend_until_done(&mut self, mut export: impl FnMut(Handle, *mut Handle) -> u32) -> Result<u32, Fault> {
        let mut round = 0;
        loop {
            match self.lend(&mut export) {
                BUSY => round = next_round(round, self.origin.forks)?,
                status => return Ok(status),
            }
        }
    }

    /// Makes a call that answers.
    pub(crate) fn ask(&mut self, mut export: impl FnMut(Handle, *mut Handle, *mut Answer) -> u32) -> Result<Answer, Fault> {
        let mut answer = Answer::default();
        let status = self.lend_until_done(|handle, out| export(handle, out, &raw mut answer))?;
        done(status).map(|()| answer)
    }

    pub(crate) fn count(&mut self) -> Result<u64, Fault> {
        Ok(ask!(self, facing_c_count)?.value)
    }
}

impl Drop for Owned {
    fn drop(&mut self) {
        if !self.handle.at.is_null() {
            // SAFETY: the handle is what an export gave back last, and nobody has it any more.
            unsafe { facing_c_free(self.handle) }
        }
    }
}

pub(crate) fn done(status: u32) -> Result<(), Fault> {
    if status == DONE {
        Ok(())
    } else {
        Err(fault(status))
    }
}

/// Takes one of these that no other thread uses, the one at `start` if it can, once there is one.
pub(crate) fn take<T>(all: &[Mutex<T>], start: usize, forks: u32) -> Result<MutexGuard<'_, T>, Fault> {
    let mut round = 0;
    loop {
        for i in 0..all.len() {
            match all[start.wrapping_add(i) % all.len()].try_lock() {
                Ok(taken) => return Ok(taken),
                // (it is as it was before a call that panicked)
                Err(TryLockError::Poisoned(taken)) => return Ok(taken.into_inner()),
                Err(TryLockError::WouldBlock) => {}
            }
        }
        round = next_round(round, forks)?;
    }
}
