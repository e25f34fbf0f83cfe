//! The secret seed of a map.
use crate::exports::getrandom;
use crate::fault::Fault;

/// Returns 16 random bytes of the system.
pub(crate) fn seed() -> Result<[u64; 2], Fault> {
    let mut seed = [0u64; 2];
    loop {
        // SAFETY: the seed has 16 bytes.
        match unsafe { getrandom(seed.as_mut_ptr().cast(), 16, 0) } {
            16 => return Ok(seed),
            -1 if std::io::Error::last_os_error().kind() == std::io::ErrorKind::Interrupted => {}
            _ => return Err(Fault::NoSeed),
        }
    }
}

/// A length that an export told.
pub(crate) fn size(told: u64) -> usize {
    usize::try_from(told).unwrap_or(usize::MAX)
}
