//! The proved core of a member of asynchronous Byzantine agreement (Bracha 1987), for programs that
//! have a network and a disk of their own. It wraps the C library of `include/bracha.h`.
//!
//! n members, of whom at most t are faulty, and n > 3t, settle questions, each with one bit. A
//! [`Core`] is one member's state machine. It has no socket, file, thread, clock or random number of
//! its own.
//!
//! # The one rule: save, sync, then send
//!
//! ```
//! use bracha::{Core, Journal, Size, Statement, Toss};
//!
//! # struct Disk;
//! # impl bracha::Disk for Disk {
//! #     type Error = std::io::Error;
//! #     fn write_at(&mut self, _: u64, _: &[u8]) -> std::io::Result<()> { Ok(()) }
//! #     fn sync(&mut self) -> std::io::Result<()> { Ok(()) }
//! # }
//! # fn send_to_all(_: Statement) {}
//! # fn main() -> Result<(), Box<dyn std::error::Error>> {
//! # let (size, me, saved) = (Size { n: 4, t: 1, questions: 64 }, 1, Vec::new());
//! # let mut journal = Journal::create(Disk, &bracha::Member { cluster: 7, size, me })?;
//! # let mut toss = Toss::open(&[7; 32], 0)?;
//! # let (from, statement) = (0, Statement([1, 0, 5, 0, 1, 1, 1]));
//! let mut core = Core::open(size, me, &saved)?; // all records of earlier lives
//! let answer = core.hear(from, &statement, toss.draw())?; // or core.propose(question, bit, ..)
//! for due in answer.save(|records| journal.append(records))? { // on the disk before it is sent
//!     send_to_all(due); // to yourself too: core.hear(me, &due, ..)
//! }
//! if let Some(decision) = core.verdict(5) { println!("question 5: {}", decision.bit); }
//! # Ok(())
//! # }
//! ```
//!
//! A member that sends before it has saved may crash in between, and then contradict itself: that
//! counts as lying. So does one that is opened with fewer records than it sent. [`Answer::save`]
//! gives the statements only once they are saved.
//!
//! What the links owe: the sender is authenticated, each sender's statements stay in order, and
//! everything arrives in the end. A member that was opened again has heard nothing: each peer sends
//! it everything once more. `examples/member.rs` does all of it over TCP, together with processes
//! of `bracha run`.
#![no_std]

extern crate alloc;
#[cfg(feature = "std")]
extern crate std;

mod fault;
#[cfg(all(feature = "std", unix))]
mod file;
mod frames;
mod journal;
mod machine;
mod statement;
mod sys;
mod toss;

pub use fault::{ABI, Fault, library_version};
pub use frames::{
    FRAME_ROOM, Feeder, Hello, IDLE, Message, idle_frame, statement_frame, statements_frame,
    welcome_frame,
};
pub use journal::{Disk, Journal, JournalFault, Opened};
pub use machine::{Answer, Core, Outcome, audit};
pub use statement::{Decision, Member, RECORD, Size, Statement, Statements, decisions};
pub use toss::Toss;
