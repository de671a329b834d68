use crate::board::{Board, Call, Held};
use crate::follow::{Follow, FollowMember, Source, Stream};
use crate::follower::{Begin, Follower};
use crate::line::{Job, Line, Reply};
use crate::reply::{Word, refusal_in, stage_in, stands_in, status_in, word_in};
use crate::workers::Workers;
use crate::{Answer, Error, Settings, State, Status};
use std::path::Path;
use std::sync::mpsc::{Receiver, Sender, channel};
use std::sync::{Arc, Mutex, PoisonError};
use std::time::{Duration, Instant};

/// The time that a reply usually is waited for: five seconds.
pub const PATIENCE: Duration = Duration::from_secs(5);

/// The time for the last members to be asked, once enough have answered.
const GRACE: Duration = Duration::from_millis(250);

/// The time before a member that didn't take a proposal gets it again.
const REST: Duration = Duration::from_millis(250);

/// The longest time before a member is asked again for a slot that a call waits for.
const POLL: Duration = Duration::from_secs(1);

/// The threads that follow each member for all calls, and where each of them begins.
#[derive(Default)]
struct Followers {
    begins: Vec<Begin>,
    threads: Workers,
}

/// A cluster, as its clients see it. Threads may share one.
///
/// It keeps at most two connections to each member, with a thread for each; in a chain, one more for
/// each [`Follow`]. Dropping it closes them and ends the threads: at once, or within a second while a
/// member's host doesn't answer a connection.
///
/// The members may run a chain of epochs ([`Settings::is_chain`]). Then a question is a *slot*, any
/// `u64`: slot S is question S mod Q of epoch S / Q, with Q = [`Settings::questions`], and epochs
/// follow one another without an end. Propose slots in order, and leave none out.
pub struct Cluster {
    settings: Settings,
    board: Arc<Board>,
    // The senders are dropped first: the threads of `_lines` end once they are.
    jobs: Vec<Sender<Job>>,
    _lines: Workers,
    followers: Mutex<Followers>,
}

impl Cluster {
    /// Opens the cluster of a client.toml. Nothing is sent.
    ///
    /// # Errors
    ///
    /// - [`Error::BadSettings`] with what is wrong with the file;
    /// - [`Error::Thread`] if the system refused a thread.
    pub fn open(path: impl AsRef<Path>) -> Result<Cluster, Error> {
        Cluster::new(Settings::read(path)?)
    }

    /// Opens the cluster of these settings. Nothing is sent.
    ///
    /// # Errors
    ///
    /// [`Error::Thread`] if the system refused a thread.
    pub fn new(settings: Settings) -> Result<Cluster, Error> {
        let board = Arc::new(Board::new(&settings));
        let mut lines = Workers::default();
        let mut jobs = Vec::new(); // dropped before the threads that wait for them
        for desk in settings.desks().iter().copied() {
            let (sender, receiver) = channel();
            lines.start(move |halt| Line::new(desk, halt).serve(&receiver))?;
            jobs.push(sender);
        }
        Ok(Cluster { settings, board, jobs, _lines: lines, followers: Mutex::default() })
    }

    /// Returns the settings of the cluster.
    pub fn settings(&self) -> &Settings {
        &self.settings
    }

    /// Proposes a bit to every member, and returns each member's answer. A member that hasn't
    /// answered in time has none.
    ///
    /// # Errors
    ///
    /// [`Error::NoSuchQuestion`] if there is no such question.
    pub fn propose(
        &self,
        question: u64,
        bit: bool,
        timeout: Duration,
    ) -> Result<Vec<Answer>, Error> {
        self.check(question)?;
        let replies = self.say_all(&proposal(question, bit), after(timeout));
        let answer = |(member, reply): (usize, &Vec<u8>)| {
            let (stands, refusal) = (stands_in(reply, bit), refusal_in(reply));
            Answer { member, stands, refusal }
        };
        Ok(replies.iter().enumerate().map(answer).collect())
    }

    /// Returns the decision that more than t members tell, or `None` while there is none to be
    /// believed.
    ///
    /// # Errors
    ///
    /// - [`Error::NoSuchQuestion`] if there is no such question;
    /// - [`Error::Gone`] if more than t members of a chain have put the slot's journal away;
    /// - [`Error::Unreachable`] if t or fewer members answered.
    pub fn ask(&self, question: u64, timeout: Duration) -> Result<Option<bool>, Error> {
        self.check(question)?;
        let held = self.board.hold(question);
        if let Some(bit) = held.decision() {
            return Ok(Some(bit));
        }
        let answered = self.ask_all(&held, after(timeout), GRACE);
        if let Some(bit) = held.decision() {
            return Ok(Some(bit));
        }
        if let Some(error) = held.refusal() {
            return Err(error);
        }
        let silent: Vec<usize> =
            (0..self.settings.n()).filter(|member| !answered[*member]).collect();
        if self.settings.n() - silent.len() <= self.settings.t() {
            return Err(Error::Unreachable(silent));
        }
        Ok(None)
    }

    /// Returns what one member says, which is worth as much as that member: its decision, or
    /// `None` while it has none.
    ///
    /// # Errors
    ///
    /// - [`Error::NoSuchQuestion`] or [`Error::NoSuchMember`] if there is none;
    /// - [`Error::Gone`] if it has put the slot's journal away, in a chain;
    /// - [`Error::Unreachable`] if it gave no reply of the protocol in time.
    pub fn ask_member(
        &self,
        member: usize,
        question: u64,
        timeout: Duration,
    ) -> Result<Option<bool>, Error> {
        self.check(question)?;
        self.check_member(member)?;
        let (sender, receiver) = channel();
        let deadline = after(timeout);
        self.say(member, &format!("ASK {question}"), deadline, into(member, &sender));
        drop(sender);
        let reply = next_reply(&receiver, deadline).and_then(|(_, reply)| reply);
        match reply.as_deref().and_then(word_in) {
            Some(Word::Decided(bit)) => Ok(Some(bit)),
            Some(Word::Undecided) => Ok(None),
            Some(Word::Gone) => Err(Error::Gone(vec![member])),
            None => Err(Error::Unreachable(vec![member])),
        }
    }

    /// Proposes a bit to every member, again to those that don't take it, and returns the decision,
    /// which more than t members tell. It decides what another client left half proposed. The
    /// decision may be the other bit.
    ///
    /// # Errors
    ///
    /// - [`Error::NoSuchQuestion`] if there is no such question;
    /// - [`Error::Gone`] or [`Error::TooFar`] if more than t members of a chain refuse the slot: at
    ///   once if n - t do, and otherwise when the time is over;
    /// - [`Error::Undecided`] if the time is over;
    /// - [`Error::Thread`] if the system refused a thread.
    pub fn decide(&self, question: u64, bit: bool, timeout: Duration) -> Result<bool, Error> {
        self.check(question)?;
        let (held, deadline) = (self.board.hold(question), after(timeout));
        if let Some(known) = self.known(&held, deadline) {
            return known;
        }
        self.start(question)?;
        let (sender, receiver) = channel();
        let propose = |member| self.propose_to(member, held.call(), bit, deadline, &sender);
        (0..self.settings.n()).for_each(propose);
        self.settle(&held, deadline, || {
            let again: Vec<usize> = receiver.try_iter().collect();
            again.into_iter().for_each(propose);
        })
    }

    /// Returns the decision once more than t members tell it. It proposes nothing.
    ///
    /// # Errors
    ///
    /// - [`Error::NoSuchQuestion`] if there is no such question;
    /// - [`Error::Gone`] if more than t members of a chain have put the slot's journal away: at once
    ///   if n - t have, and otherwise when the time is over;
    /// - [`Error::Undecided`] if the time is over;
    /// - [`Error::Thread`] if the system refused a thread.
    pub fn wait(&self, question: u64, timeout: Duration) -> Result<bool, Error> {
        self.check(question)?;
        let (held, deadline) = (self.board.hold(question), after(timeout));
        if let Some(known) = self.known(&held, deadline) {
            return known;
        }
        self.start(question)?;
        self.settle(&held, deadline, || {})
    }

    /// Returns an iterator over decisions, for ever, over restarts of members: first those of
    /// before, then each once more than t members tell it.
    ///
    /// In a chain it is [`Cluster::follow_from`] slot 0.
    ///
    /// # Errors
    ///
    /// [`Error::Thread`] if the system refused a thread.
    pub fn follow(&self) -> Result<Follow<'_>, Error> {
        self.follow_from(0)
    }

    /// Returns an iterator as [`Cluster::follow`], over decisions of this question and later ones.
    ///
    /// In a chain it reads nothing of epochs before this slot's, so use it to go on after a restart.
    /// Slots come roughly in order. Those may be left out that were decided after members had passed
    /// their epoch, or of an epoch whose journal some members have put away: [`Cluster::ask`] for
    /// them.
    ///
    /// # Errors
    ///
    /// [`Error::Thread`] if the system refused a thread.
    pub fn follow_from(&self, question: u64) -> Result<Follow<'_>, Error> {
        let source = if self.settings.is_chain() {
            Source::Chain(Stream::start(&self.settings, question)?)
        } else {
            self.start(0)?;
            Source::Board(&self.board, 0)
        };
        Ok(Follow::new(source, question))
    }

    /// Returns an iterator over what one member alone tells, in the order of its journal, from this
    /// number on, for ever, over its restarts. It has a connection of its own.
    ///
    /// In a chain, epoch e has the numbers from e Q on, with Q questions an epoch. To go on later,
    /// use the greatest number that it told, and one more. A decision that comes late of an epoch
    /// that was passed may have a lower number than those before it.
    ///
    /// # Errors
    ///
    /// [`Error::NoSuchMember`] if there is no such member.
    pub fn follow_member(&self, member: usize, number: u64) -> Result<FollowMember<'_>, Error> {
        self.check_member(member)?;
        Ok(FollowMember::new(self, member, number))
    }

    /// Returns how far each member is on a question by its own word. What one says is worth as much as
    /// that member.
    ///
    /// # Errors
    ///
    /// [`Error::NoSuchQuestion`] if there is no such question.
    pub fn state(&self, question: u64, timeout: Duration) -> Result<Vec<State>, Error> {
        self.check(question)?;
        let replies = self.say_all(&format!("STATE {question}"), after(timeout));
        let members = replies.iter().enumerate();
        Ok(members.map(|(member, reply)| State { member, stage: stage_in(reply) }).collect())
    }

    /// Returns each member's status by its own word. A member that doesn't answer in time isn't up.
    pub fn status(&self, timeout: Duration) -> Vec<Status> {
        let replies = self.say_all("STATUS", after(timeout));
        replies.iter().enumerate().map(|(member, reply)| status_in(member, reply)).collect()
    }

    fn check(&self, question: u64) -> Result<(), Error> {
        if self.settings.has(question) { Ok(()) } else { Err(Error::NoSuchQuestion(question)) }
    }

    fn check_member(&self, member: usize) -> Result<(), Error> {
        if member < self.settings.n() { Ok(()) } else { Err(Error::NoSuchMember(member)) }
    }

    fn say(
        &self,
        member: usize,
        line: &str,
        deadline: Instant,
        reply: impl FnOnce(Reply) + Send + 'static,
    ) {
        // It fails only if the member's thread is gone: then nothing comes, as from a silent one.
        let _ = self.jobs[member].send(Job::new(line, deadline, reply));
    }

    /// Returns each member's reply to a line, empty if none came in time.
    fn say_all(&self, line: &str, deadline: Instant) -> Vec<Vec<u8>> {
        let (sender, receiver) = channel();
        for member in 0..self.settings.n() {
            self.say(member, line, deadline, into(member, &sender));
        }
        drop(sender);
        let mut replies = vec![Vec::new(); self.settings.n()];
        while let Some((member, reply)) = next_reply(&receiver, deadline) {
            replies[member] = reply.unwrap_or_default();
        }
        replies
    }

    /// Returns the decision of a question, if it is known, or the error of a slot that n - t members
    /// refuse. In a chain the members are asked for it: a proposal would make an epoch run again that
    /// has ended.
    fn known(&self, held: &Held<'_>, deadline: Instant) -> Option<Result<bool, Error>> {
        if let Some(bit) = held.decision() {
            return Some(Ok(bit));
        }
        if !self.settings.is_chain() {
            return None;
        }
        self.ask_all(held, deadline, Duration::ZERO);
        held.wait(Instant::now())
    }

    /// Takes each member's word on a question, until a decision is believed, the deadline, or this
    /// grace after n - t members have answered. Returns which members answered.
    fn ask_all(&self, held: &Held<'_>, deadline: Instant, grace: Duration) -> Vec<bool> {
        let line = format!("ASK {}", held.call().question);
        let (sender, receiver) = channel();
        for member in 0..self.settings.n() {
            let patience = deadline.min(Instant::now() + PATIENCE);
            self.say(member, &line, patience, into(member, &sender));
        }
        drop(sender);
        let mut answered = vec![false; self.settings.n()];
        let mut end = deadline;
        while let Some((member, reply)) = next_reply(&receiver, end) {
            answered[member] = self.board.hear(member, held.call(), reply.as_deref());
            if held.decision().is_some() {
                break;
            }
            // n - t members answer whatever the faulty do. More may, but nobody is waited for.
            let count = answered.iter().filter(|answered| **answered).count();
            if answered[member] && count == self.settings.n() - self.settings.t() {
                end = deadline.min(Instant::now() + grace);
            }
        }
        answered
    }

    /// Proposes a bit to a member, and gives the member to `again` if it didn't take it.
    fn propose_to(
        &self,
        member: usize,
        call: Call,
        bit: bool,
        deadline: Instant,
        again: &Sender<usize>,
    ) {
        let (board, again) = (self.board.clone(), again.clone());
        let patience = deadline.min(Instant::now() + PATIENCE);
        self.say(member, &proposal(call.question, bit), patience, move |reply| {
            if let Some(reply) = &reply {
                board.refuse(member, call, refusal_in(reply));
            }
            if reply.and_then(|reply| stands_in(&reply, bit)).is_none() {
                give(&again, member);
            }
        });
    }

    /// Waits for a decision, doing `again` every quarter of a second. In a chain the members are asked
    /// too, in the end every second: a follower may be held back by a slot that stays open, and one
    /// that is past the slot's epoch isn't told the decision.
    fn settle(&self, held: &Held<'_>, deadline: Instant, again: impl Fn()) -> Result<bool, Error> {
        let (sender, receiver) = channel();
        let asked = if self.settings.is_chain() { 0..self.settings.n() } else { 0..0 };
        asked.for_each(|member| give(&sender, member));
        let mut pause = REST;
        let mut next = Instant::now() + pause;
        loop {
            let now = Instant::now();
            if now >= next {
                pause = POLL.min(2 * pause);
                next = now + pause;
                let due: Vec<usize> = receiver.try_iter().collect();
                due.into_iter()
                    .for_each(|member| self.poll(member, held.call(), deadline, &sender));
            }
            if let Some(ended) = held.wait(deadline.min(now + REST)) {
                return ended;
            }
            if Instant::now() >= deadline {
                return Err(held.failure());
            }
            again();
        }
    }

    /// Asks a member for a slot, and gives the member to `again` once it has answered.
    fn poll(&self, member: usize, call: Call, deadline: Instant, again: &Sender<usize>) {
        let (board, again) = (self.board.clone(), again.clone());
        let patience = deadline.min(Instant::now() + PATIENCE);
        self.say(member, &format!("ASK {}", call.question), patience, move |reply| {
            board.hear(member, call, reply.as_deref());
            give(&again, member);
        });
    }

    /// Begins to follow every member, if that hasn't begun: in a chain from the epoch of this slot
    /// on. A member that has told nothing yet is followed from an earlier epoch, if the slot is of
    /// one: it may wait for an epoch that is far ahead.
    fn start(&self, question: u64) -> Result<(), Error> {
        let first = self.settings.first_of(question);
        let mut followers = self.followers.lock().unwrap_or_else(PoisonError::into_inner);
        let Followers { begins, threads } = &mut *followers;
        for (member, begin) in begins.iter().enumerate() {
            if begin.lower(first) {
                threads.cut(member);
            }
        }
        for member in threads.count()..self.settings.n() {
            let (begin, board) = (Begin::new(first), self.board.clone());
            let mut follower = Follower::new(&self.settings, member, begin.clone());
            threads.start(move |halt| {
                while let Some(told) = follower.next(halt) {
                    board.take(member, told.question, told.bit);
                }
            })?;
            begins.push(begin);
        }
        Ok(())
    }
}

impl std::fmt::Debug for Cluster {
    fn fmt(&self, out: &mut std::fmt::Formatter<'_>) -> std::fmt::Result {
        out.debug_struct("Cluster").field("settings", &self.settings).finish_non_exhaustive()
    }
}

/// Returns the time after this one, at most in a hundred years.
pub(crate) fn after(timeout: Duration) -> Instant {
    const LONG: Duration = Duration::from_secs(100 * 365 * 24 * 3600);
    Instant::now() + timeout.min(LONG)
}

/// Returns the line that proposes a bit.
fn proposal(question: u64, bit: bool) -> String {
    format!("PROPOSE {question} {}", u8::from(bit))
}

/// Returns what gives a member's reply to a channel.
fn into(member: usize, sender: &Sender<(usize, Reply)>) -> impl FnOnce(Reply) + Send + 'static {
    let sender = sender.clone();
    move |reply| give(&sender, (member, reply))
}

/// Gives a thing to a channel, unless nobody waits there any more.
fn give<T>(sender: &Sender<T>, thing: T) {
    let _ = sender.send(thing);
}

/// Returns the next reply, or `None` at the deadline or once no more can come.
fn next_reply(replies: &Receiver<(usize, Reply)>, deadline: Instant) -> Option<(usize, Reply)> {
    replies.recv_timeout(deadline.saturating_duration_since(Instant::now())).ok()
}
