use crate::board::Board;
use crate::cluster::after;
use crate::follower::{Begin, Follower};
use crate::halt::Halt;
use crate::window::Window;
use crate::workers::Workers;
use crate::{Cluster, Decision, Error, Settings};
use std::sync::Arc;
use std::time::{Duration, Instant};

/// The followers of a chain's members, and the decisions that they tell.
pub(crate) struct Stream {
    window: Arc<Window>,
    followers: Workers,
}

impl Stream {
    /// Follows every member from the epoch of this slot on.
    ///
    /// # Errors
    ///
    /// [`Error::Thread`] if the system refused a thread.
    pub(crate) fn start(settings: &Settings, slot: u64) -> Result<Stream, Error> {
        let window = Arc::new(Window::new(settings, slot));
        let mut stream = Stream { window, followers: Workers::default() };
        for member in 0..settings.n() {
            let window = stream.window.clone();
            let begin = Begin::new(settings.first_of(slot));
            let mut follower = Follower::new(settings, member, begin);
            stream.followers.start(move |halt| {
                while let Some(told) = follower.next(halt) {
                    window.take(member, told.question, told.bit);
                }
            })?;
        }
        Ok(stream)
    }
}

impl Drop for Stream {
    fn drop(&mut self) {
        self.window.end(); // before the threads are waited for
    }
}

/// The source of decisions that more than t members told.
pub(crate) enum Source<'a> {
    /// The cluster's board, which keeps all of them, from this place on.
    Board(&'a Board, usize),
    /// A stream of its own.
    Chain(Stream),
}

/// Decisions that more than t members told, without an end.
///
/// In a chain it follows the members by connections and threads of its own, which end when it is
/// dropped, and keeps at most 16,384 slots: while nobody takes decisions, it reads no more of them.
pub struct Follow<'a> {
    source: Source<'a>,
    from: u64,
}

impl<'a> Follow<'a> {
    /// Creates the decisions of this source on questions from that one on.
    pub(crate) fn new(source: Source<'a>, from: u64) -> Follow<'a> {
        Follow { source, from }
    }

    /// Returns the next decision, or `None` if there is none in this time. A later call goes on.
    pub fn next_within(&mut self, timeout: Duration) -> Option<Decision> {
        self.next_until(Some(after(timeout)))
    }

    fn next_until(&mut self, deadline: Option<Instant>) -> Option<Decision> {
        loop {
            let decision = match &mut self.source {
                Source::Chain(stream) => stream.window.next(deadline)?,
                Source::Board(board, place) => {
                    let decision = board.at(*place, deadline)?;
                    *place += 1;
                    decision
                }
            };
            if decision.question >= self.from {
                return Some(decision);
            }
        }
    }
}

impl Iterator for Follow<'_> {
    type Item = Decision;

    fn next(&mut self) -> Option<Decision> {
        self.next_until(None)
    }
}

/// Decisions that one member told, in the order of its journal, without an end.
pub struct FollowMember<'a> {
    _cluster: &'a Cluster,
    follower: Follower,
    halt: Halt,
}

impl<'a> FollowMember<'a> {
    /// Creates the decisions of a member from this number on.
    pub(crate) fn new(cluster: &'a Cluster, member: usize, number: u64) -> FollowMember<'a> {
        let follower = Follower::new(cluster.settings(), member, Begin::new(number));
        FollowMember { _cluster: cluster, follower, halt: Halt::default() }
    }
}

impl Iterator for FollowMember<'_> {
    type Item = Decision;

    fn next(&mut self) -> Option<Decision> {
        let told = self.follower.next(&self.halt)?;
        Some(Decision { question: told.question, bit: told.bit, number: Some(told.number) })
    }
}
