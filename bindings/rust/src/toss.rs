//! The random bits of events.

use crate::fault::{Fault, check_abi, checked};
use crate::sys;

/// A stream of tosses: ChaCha20 of a secret seed. Each event takes the next one.
///
/// Never use a stream twice with one seed: whoever saw the first use knows the coins of the second.
/// After a restart, take another: `bracha run` takes 256 times the number of records when the
/// member was opened, plus the peer's number.
///
/// ```
/// let seed = [7; 32]; // a real one is drawn from the system, and secret
/// let (mut one, mut other) = (bracha::Toss::open(&seed, 0)?, bracha::Toss::open(&seed, 1)?);
/// assert_ne!(one.draw(), other.draw());
/// # Ok::<(), bracha::Fault>(())
/// ```
pub struct Toss {
    handle: sys::Handle,
}

// SAFETY: plain data behind one owner (bracha.h, THREADS).
unsafe impl Send for Toss {}

impl Toss {
    /// Opens a stream of the seed.
    ///
    /// # Errors
    ///
    /// [`Fault::OtherAbi`], [`Fault::Memory`].
    pub fn open(seed: &[u8; 32], stream: u64) -> Result<Toss, Fault> {
        check_abi()?;
        let mut handle = sys::NO_HANDLE;
        // SAFETY: 32 bytes are read, and `handle` is written only with status 0.
        checked(unsafe { sys::bracha_toss_open(&mut handle, seed.as_ptr(), stream) })?;
        Ok(Toss { handle })
    }

    /// Returns the next 64 bits of the stream.
    pub fn draw(&mut self) -> u64 {
        // SAFETY: the handle is open.
        unsafe { sys::bracha_toss_next(&mut self.handle) }
    }
}

impl core::fmt::Debug for Toss {
    fn fmt(&self, f: &mut core::fmt::Formatter<'_>) -> core::fmt::Result {
        f.write_str("Toss")
    }
}

impl Drop for Toss {
    fn drop(&mut self) {
        // SAFETY: the handle was opened, and is closed once.
        unsafe { sys::bracha_toss_close(self.handle) }
    }
}
