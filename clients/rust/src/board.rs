use crate::guarded::Guarded;
use crate::reply::{Refusal, Word, word_in};
use crate::{Decision, Error, Reading, Settings};
use std::collections::{BTreeMap, HashMap};
use std::time::Instant;

/// The members that refuse a slot to a call, with the cause of each.
type Refusals = BTreeMap<usize, Refusal>;

/// What members say of one question.
struct Entry {
    reading: Reading,
    /// The calls that want it, by their numbers, with what members refuse to each.
    calls: BTreeMap<u64, Refusals>,
}

impl Entry {
    /// Returns the error of a slot that at least so many members refuse to a call for one cause.
    fn refused_by(&self, least: usize, call: Call) -> Option<Error> {
        let refusals = self.calls.get(&call.number)?;
        let by = |cause| -> Vec<usize> {
            let those = refusals.iter().filter(|(_, refusal)| **refusal == cause);
            those.map(|(member, _)| *member).collect()
        };
        let (gone, far) = (by(Refusal::Gone), by(Refusal::TooFar));
        if gone.len() >= least {
            Some(Error::Gone(gone))
        } else if far.len() >= least {
            Some(Error::TooFar(far))
        } else {
            None
        }
    }
}

struct State {
    entries: HashMap<u64, Entry>,
    decisions: Vec<Decision>,
    /// The number of the next call.
    next: u64,
}

/// A call that wants a question.
#[derive(Debug, Clone, Copy)]
pub(crate) struct Call {
    pub(crate) question: u64,
    number: u64,
}

/// What members say of questions, and the decisions that are believed, in the order in which they
/// came to be believed. In a chain it knows only the slots that a call holds, and keeps no decisions:
/// so its size is bounded, however many slots are told.
pub(crate) struct Board {
    settings: Settings,
    state: Guarded<State>,
}

impl Board {
    /// Creates a board on which nothing was told.
    pub(crate) fn new(settings: &Settings) -> Board {
        let state = State { entries: HashMap::new(), decisions: Vec::new(), next: 0 };
        Board { settings: settings.clone(), state: Guarded::new(state) }
    }

    fn fresh(&self) -> Entry {
        let reading = Reading::new(self.settings.n(), self.settings.t());
        Entry { reading, calls: BTreeMap::new() }
    }

    /// Returns what is known of a question, or `None` if nothing is to be.
    fn entry<'a>(&self, state: &'a mut State, question: u64) -> Option<&'a mut Entry> {
        if self.settings.is_chain() {
            return state.entries.get_mut(&question);
        }
        let exists = self.settings.has(question);
        exists.then(|| state.entries.entry(question).or_insert_with(|| self.fresh()))
    }

    /// Holds a question for a call.
    pub(crate) fn hold(&self, question: u64) -> Held<'_> {
        let mut state = self.state.lock();
        let call = Call { question, number: state.next };
        state.next += 1;
        let entry = state.entries.entry(question).or_insert_with(|| self.fresh());
        entry.calls.insert(call.number, Refusals::new());
        Held { board: self, call }
    }

    /// Takes a member's word on a question.
    pub(crate) fn take(&self, member: usize, question: u64, bit: bool) {
        let mut state = self.state.lock();
        let Some(entry) = self.entry(&mut state, question) else { return };
        let before = entry.reading.decision();
        entry.reading.take(member, bit);
        if let (None, Some(bit)) = (before, entry.reading.decision()) {
            if !self.settings.is_chain() {
                state.decisions.push(Decision { question, bit, number: None });
            }
            self.state.notify();
        }
    }

    /// Takes a member's reply to `ASK` of a call's question. Returns `false` if it is none.
    pub(crate) fn hear(&self, member: usize, call: Call, reply: Option<&[u8]>) -> bool {
        match reply.and_then(word_in) {
            Some(Word::Decided(bit)) => self.take(member, call.question, bit),
            Some(Word::Gone) => self.refuse(member, call, Some(Refusal::Gone)),
            Some(Word::Undecided) => {}
            None => return false,
        }
        true
    }

    /// Takes the cause for which a member refuses the slot to a call, if it does. The last one counts.
    /// It is nothing to other calls: one that proposes nothing is refused no proposal.
    pub(crate) fn refuse(&self, member: usize, call: Call, refusal: Option<Refusal>) {
        let mut state = self.state.lock();
        let Some(entry) = state.entries.get_mut(&call.question) else { return };
        let Some(refusals) = entry.calls.get_mut(&call.number) else { return };
        if let Some(refusal) = refusal {
            refusals.insert(member, refusal);
            self.state.notify();
        } else {
            refusals.remove(&member);
        }
    }

    /// Returns the decision at a place once there is one, or `None` at the deadline.
    pub(crate) fn at(&self, place: usize, deadline: Option<Instant>) -> Option<Decision> {
        self.state.until(deadline, |state| state.decisions.get(place).copied())
    }
}

/// A question that a call wants: what members say of it is kept as long as this is there.
pub(crate) struct Held<'a> {
    board: &'a Board,
    call: Call,
}

impl Held<'_> {
    /// Returns the call.
    pub(crate) fn call(&self) -> Call {
        self.call
    }

    /// Returns the decision that is believed.
    pub(crate) fn decision(&self) -> Option<bool> {
        self.board.state.lock().entries[&self.call.question].reading.decision()
    }

    /// Returns the decision once it is believed, or an error once it can't be any more because so
    /// many members refuse the slot that t or fewer are left. `None` at the deadline.
    pub(crate) fn wait(&self, deadline: Instant) -> Option<Result<bool, Error>> {
        let settings = &self.board.settings;
        self.board.state.until(Some(deadline), |state| {
            let entry = &state.entries[&self.call.question];
            let refused = || entry.refused_by(settings.n() - settings.t(), self.call).map(Err);
            entry.reading.decision().map(Ok).or_else(refused)
        })
    }

    /// Returns the error for which more than t members refuse the slot.
    pub(crate) fn refusal(&self) -> Option<Error> {
        let least = self.board.settings.t() + 1;
        self.board.state.lock().entries[&self.call.question].refused_by(least, self.call)
    }

    /// Returns the error of a call whose time is over.
    pub(crate) fn failure(&self) -> Error {
        let words = || self.board.state.lock().entries[&self.call.question].reading.words();
        self.refusal().unwrap_or_else(|| Error::Undecided(words()))
    }
}

impl Drop for Held<'_> {
    fn drop(&mut self) {
        let mut state = self.board.state.lock();
        let Some(entry) = state.entries.get_mut(&self.call.question) else { return };
        entry.calls.remove(&self.call.number);
        if self.board.settings.is_chain() && entry.calls.is_empty() {
            state.entries.remove(&self.call.question);
        }
    }
}

#[cfg(test)]
mod tests {
    use super::Board;
    use crate::reply::Refusal;
    use crate::{Error, Settings};
    use std::time::{Duration, Instant};

    fn settings() -> Settings {
        let desks = (1..=4).map(|port| format!("127.0.0.1:{port}").parse().unwrap()).collect();
        Settings::new(7, 1, 16, desks).unwrap()
    }

    fn soon() -> Instant {
        Instant::now() + Duration::from_millis(20)
    }

    #[test]
    fn a_cluster_keeps_what_was_told() {
        let board = Board::new(&settings());
        board.take(0, 3, true);
        board.take(1, 3, true);
        board.take(0, 16, true);
        assert_eq!(board.hold(3).decision(), Some(true));
        assert_eq!(board.at(0, Some(soon())).map(|it| it.question), Some(3));
        assert_eq!(board.at(1, Some(soon())), None);
        assert_eq!(board.state.lock().entries.len(), 1);
    }

    #[test]
    fn a_chain_keeps_only_what_calls_hold() {
        let board = Board::new(&settings().in_chain());
        let held = board.hold(70_000);
        for slot in 0..100_000 {
            (0..4).for_each(|member| board.take(member, slot, slot % 3 == 0));
        }
        assert_eq!(held.decision(), Some(false));
        assert_eq!(board.hold(69_999).decision(), None); // it was told before
        let again = board.hold(70_000);
        drop(held);
        assert_eq!(again.decision(), Some(false));
        drop(again);
        let state = board.state.lock();
        assert_eq!((state.entries.len(), state.decisions.len()), (0, 0));
    }

    #[test]
    fn a_slot_that_n_minus_t_refuse_is_not_waited_for() {
        for (cause, error) in [
            (Refusal::Gone, Error::Gone as fn(Vec<usize>) -> Error),
            (Refusal::TooFar, Error::TooFar),
        ] {
            let board = Board::new(&settings().in_chain());
            let held = board.hold(5);
            board.take(3, 5, true);
            board.refuse(0, held.call(), Some(cause));
            board.refuse(0, held.call(), Some(cause));
            assert_eq!(held.wait(soon()), None);
            assert_eq!(held.failure(), Error::Undecided(vec![(3, true)]));
            board.refuse(1, held.call(), Some(cause));
            assert_eq!(held.wait(soon()), None); // two are left, and more than t
            assert_eq!(held.failure(), error(vec![0, 1]));
            board.refuse(2, held.call(), Some(cause));
            assert_eq!(held.wait(soon()), Some(Err(error(vec![0, 1, 2]))));
            board.refuse(1, held.call(), None);
            assert_eq!(held.wait(soon()), None);
            board.take(1, 5, true);
            assert_eq!(held.wait(soon()), Some(Ok(true)));
        }
    }

    #[test]
    fn two_causes_are_not_mixed() {
        let board = Board::new(&settings().in_chain());
        let held = board.hold(5);
        board.refuse(0, held.call(), Some(Refusal::Gone));
        board.refuse(1, held.call(), Some(Refusal::TooFar));
        board.refuse(2, held.call(), Some(Refusal::TooFar));
        assert_eq!(held.wait(soon()), None);
        assert_eq!(held.failure(), Error::TooFar(vec![1, 2]));
    }

    #[test]
    fn what_one_call_is_refused_ends_no_other() {
        let board = Board::new(&settings().in_chain());
        let (waits, decides) = (board.hold(5), board.hold(5));
        (0..4).for_each(|member| board.refuse(member, decides.call(), Some(Refusal::TooFar)));
        assert_eq!(decides.wait(soon()), Some(Err(Error::TooFar(vec![0, 1, 2, 3]))));
        assert_eq!(waits.wait(soon()), None);
        assert_eq!(waits.refusal(), None);
        let late = decides.call();
        drop(decides);
        board.refuse(0, late, Some(Refusal::TooFar)); // nobody wants it any more
        assert_eq!(board.hold(5).refusal(), None);
    }
}
