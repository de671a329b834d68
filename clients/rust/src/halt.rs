use std::io;
use std::net::{Shutdown, TcpStream};
use std::sync::{Condvar, Mutex, MutexGuard, PoisonError};
use std::time::{Duration, Instant};

#[derive(Debug, Default)]
struct State {
    halted: bool,
    stream: Option<TcpStream>,
}

/// The end of a thread that waits at a stream: it is told by another thread.
#[derive(Debug, Default)]
pub(crate) struct Halt {
    state: Mutex<State>,
    told: Condvar,
}

impl Halt {
    fn state(&self) -> MutexGuard<'_, State> {
        self.state.lock().unwrap_or_else(PoisonError::into_inner)
    }

    /// Remembers the stream at which the thread waits from now on.
    ///
    /// # Errors
    ///
    /// An error if the thread has to end, or if the system gives no handle of the stream.
    pub(crate) fn hold(&self, stream: &TcpStream) -> io::Result<()> {
        let mut state = self.state();
        if state.halted {
            return Err(io::ErrorKind::Interrupted.into());
        }
        state.stream = Some(stream.try_clone()?);
        Ok(())
    }

    /// Forgets the stream.
    pub(crate) fn release(&self) {
        self.state().stream = None;
    }

    /// Returns `true` if the thread has to end.
    pub(crate) fn is_halted(&self) -> bool {
        self.state().halted
    }

    /// Waits for this time, or until the thread has to end.
    pub(crate) fn rest(&self, time: Duration) {
        let end = Instant::now() + time;
        let mut state = self.state();
        while !state.halted {
            let left = end.saturating_duration_since(Instant::now());
            if left.is_zero() {
                return;
            }
            let waited = self.told.wait_timeout(state, left);
            state = waited.unwrap_or_else(PoisonError::into_inner).0;
        }
    }

    /// Ends the stream at which the thread waits, and lets the thread go on.
    pub(crate) fn cut(&self) {
        if let Some(stream) = &self.state().stream {
            let _ = stream.shutdown(Shutdown::Both);
        }
    }

    /// Tells the thread to end, and ends its stream.
    pub(crate) fn halt(&self) {
        let mut state = self.state();
        state.halted = true;
        if let Some(stream) = state.stream.take() {
            let _ = stream.shutdown(Shutdown::Both);
        }
        self.told.notify_all();
    }
}
