use crate::Error;
use crate::halt::Halt;
use std::sync::Arc;
use std::thread::{Builder, JoinHandle};

/// A thread, and what ends it.
struct Worker {
    halt: Arc<Halt>,
    thread: JoinHandle<()>,
}

/// Threads that end when they are dropped.
#[derive(Default)]
pub(crate) struct Workers(Vec<Worker>);

impl Workers {
    /// Starts another thread.
    ///
    /// # Errors
    ///
    /// [`Error::Thread`] if the system refused it.
    pub(crate) fn start(&mut self, run: impl FnOnce(&Halt) + Send + 'static) -> Result<(), Error> {
        let halt = Arc::new(Halt::default());
        let own = halt.clone();
        let thread = Builder::new().name("bracha".to_string()).spawn(move || run(&own));
        let thread = thread.map_err(|error| Error::Thread(error.to_string()))?;
        self.0.push(Worker { halt, thread });
        Ok(())
    }

    /// Returns the number of threads.
    pub(crate) fn count(&self) -> usize {
        self.0.len()
    }

    /// Ends the stream at which a thread waits, and lets the thread go on.
    pub(crate) fn cut(&self, place: usize) {
        self.0[place].halt.cut();
    }
}

impl Drop for Workers {
    fn drop(&mut self) {
        for worker in &self.0 {
            worker.halt.halt();
        }
        for worker in self.0.drain(..) {
            let _ = worker.thread.join();
        }
    }
}
