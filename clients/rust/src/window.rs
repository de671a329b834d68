use crate::guarded::Guarded;
use crate::{Decision, Reading, Settings};
use std::collections::VecDeque;
use std::time::Instant;

/// The most slots that are kept, unless four epochs have more.
const SLOTS: u64 = 8192;

/// The least epochs that are kept.
const EPOCHS: u64 = 4;

/// The readings of an epoch's slots, and the number of those that believe a decision.
struct Epoch {
    readings: Vec<Option<Reading>>,
    believed: u64,
}

struct State {
    /// The oldest epoch that is kept. None before it is.
    first: u64,
    /// That epoch and those after it, as far as members told slots of them.
    epochs: VecDeque<Epoch>,
    /// The newest epoch of which each member told a slot.
    reached: Vec<u64>,
    /// Decisions that are believed and that nobody took yet.
    decisions: VecDeque<Decision>,
    has_ended: bool,
}

/// The decisions of a chain as more than t members tell them, each once, for one who takes them.
///
/// It keeps the slots of some epochs in a row. The oldest epoch is dropped once all its slots are
/// decided, or once n - t members are past the newest: more than t of these are correct, so all that
/// they told of the oldest is believed by then. A member that is past the newest waits, and all wait
/// while too many decisions aren't taken. So the size is bounded, whatever members tell.
pub(crate) struct Window {
    settings: Settings,
    questions: u64,
    /// The most epochs that are kept.
    most: u64,
    state: Guarded<State>,
}

impl Window {
    /// Creates a window that begins with this slot's epoch.
    pub(crate) fn new(settings: &Settings, slot: u64) -> Window {
        let questions = u64::from(settings.questions());
        let state = State {
            first: slot / questions,
            epochs: VecDeque::new(),
            reached: vec![0; settings.n()],
            decisions: VecDeque::new(),
            has_ended: false,
        };
        Window {
            settings: settings.clone(),
            questions,
            most: EPOCHS.max(SLOTS / questions),
            state: Guarded::new(state),
        }
    }

    /// Takes a member's word on a slot, as soon as there is room for it. It is dropped if the slot's
    /// epoch isn't kept any more, and after the end.
    pub(crate) fn take(&self, member: usize, slot: u64, bit: bool) {
        let epoch = slot / self.questions;
        if self.reach(&mut self.state.lock(), member, epoch) {
            self.state.notify();
        }
        let is_new = self.state.until(None, |state| {
            if state.has_ended {
                return Some(false);
            }
            let has_room = self.has_room(state, epoch);
            has_room.then(|| epoch >= state.first && self.note(state, member, slot, bit))
        });
        if is_new == Some(true) {
            self.state.notify();
        }
    }

    fn has_room(&self, state: &State, epoch: u64) -> bool {
        let is_kept = epoch < state.first || epoch - state.first < self.most;
        is_kept && (state.decisions.len() as u64) < SLOTS
    }

    /// Notes that a member told a slot of this epoch. Returns `true` if the oldest epochs are dropped
    /// because n - t members are past the newest.
    fn reach(&self, state: &mut State, member: usize, epoch: u64) -> bool {
        state.reached[member] = epoch.max(state.reached[member]);
        let mut reached = state.reached.clone();
        reached.sort_unstable();
        let common = reached[self.settings.t()]; // n - t members have come so far
        let first = common.saturating_sub(self.most - 1);
        if first <= state.first {
            return false;
        }
        let dropped = state.epochs.len().min((first - state.first) as usize);
        state.epochs.drain(..dropped);
        state.first = first;
        true
    }

    /// Notes a word on a slot that is kept. Returns `true` if its decision is believed by that.
    fn note(&self, state: &mut State, member: usize, slot: u64, bit: bool) -> bool {
        let place = (slot / self.questions - state.first) as usize;
        while state.epochs.len() <= place {
            let readings = vec![None; self.questions as usize];
            state.epochs.push_back(Epoch { readings, believed: 0 });
        }
        let epoch = &mut state.epochs[place];
        let fresh = || Reading::new(self.settings.n(), self.settings.t());
        let reading = &mut epoch.readings[(slot % self.questions) as usize];
        let reading = reading.get_or_insert_with(fresh);
        let before = reading.decision();
        reading.take(member, bit);
        let (None, Some(bit)) = (before, reading.decision()) else { return false };
        epoch.believed += 1;
        state.decisions.push_back(Decision { question: slot, bit, number: None });
        while state.epochs.front().is_some_and(|epoch| epoch.believed == self.questions) {
            state.epochs.pop_front();
            state.first = state.first.saturating_add(1);
        }
        true
    }

    /// Takes the next decision, or returns `None` at the deadline.
    pub(crate) fn next(&self, deadline: Option<Instant>) -> Option<Decision> {
        let decision = self.state.until(deadline, |state| state.decisions.pop_front());
        self.state.notify();
        decision
    }

    /// Lets nobody wait any more who tells a word.
    pub(crate) fn end(&self) {
        self.state.lock().has_ended = true;
        self.state.notify();
    }
}

#[cfg(test)]
mod tests {
    use super::{SLOTS, Window};
    use crate::Settings;
    use std::thread;
    use std::time::{Duration, Instant};

    /// A window of a chain of four members, with epochs of so many slots.
    fn window(questions: u16, slot: u64) -> Window {
        let desks = (1..=4).map(|port| format!("127.0.0.1:{port}").parse().unwrap()).collect();
        Window::new(&Settings::new(7, 1, questions, desks).unwrap().in_chain(), slot)
    }

    fn next(window: &Window) -> Option<(u64, bool)> {
        let decision = window.next(Some(Instant::now() + Duration::from_millis(20)));
        decision.map(|decision| (decision.question, decision.bit))
    }

    fn bit(slot: u64) -> bool {
        slot % 3 == 0
    }

    #[test]
    fn each_decision_once_more_than_t_tell_it() {
        let window = window(4096, 0);
        window.take(3, 5, true);
        window.take(3, 5, false);
        window.take(0, 9, false);
        assert_eq!(next(&window), None);
        window.take(0, 5, false);
        window.take(1, 9, false);
        window.take(1, 5, false);
        (2..4).for_each(|member| window.take(member, 9, false));
        window.take(2, 5, false);
        assert_eq!([0; 3].map(|_| next(&window)), [Some((9, false)), Some((5, false)), None]);
    }

    #[test]
    fn an_epoch_that_is_complete_is_dropped_and_not_told_again() {
        let window = window(1, 7);
        window.take(0, 6, true);
        window.take(1, 6, true);
        for member in 0..4 {
            (7..100).for_each(|slot| window.take(member, slot, bit(slot)));
        }
        assert!((7..100).all(|slot| next(&window) == Some((slot, bit(slot)))));
        assert_eq!(next(&window), None);
        let state = window.state.lock();
        assert_eq!((state.first, state.epochs.len()), (100, 0));
    }

    #[test]
    fn a_liar_holds_nobody_up_and_fills_nothing() {
        let (window, slots) = (window(64, 0), 100_000);
        thread::scope(|scope| {
            scope.spawn(|| (0..u64::MAX).step_by(64).all(|slot| tell(&window, 3, slot + 1)));
            for member in 0..3 {
                let window = &window;
                scope.spawn(move || (0..slots).all(|slot| tell(window, member, slot)));
            }
            let mut told: Vec<u64> =
                (0..slots).map(|_| window.next(None).unwrap().question).collect();
            told.sort_unstable();
            assert!(told.into_iter().eq(0..slots));
            assert!(window.state.lock().epochs.len() <= 128);
            window.end();
        });
    }

    /// Tells a slot, and returns `true` until the end.
    fn tell(window: &Window, member: usize, slot: u64) -> bool {
        window.take(member, slot, bit(slot) != (member == 3));
        !window.state.lock().has_ended
    }

    #[test]
    fn one_that_is_ahead_waits_for_the_others() {
        let window = window(64, 0);
        thread::scope(|scope| {
            scope.spawn(|| (0..50_000).all(|slot| tell(&window, 0, slot)));
            scope.spawn(|| window.take(3, u64::MAX, true));
            for _ in 0..2 {
                while window.state.lock().reached[0] < SLOTS / 64 {
                    thread::sleep(Duration::from_millis(1));
                }
                assert_eq!(window.state.lock().reached[0], SLOTS / 64);
                thread::sleep(Duration::from_millis(50)); // in which it could go on
            }
            let slow = scope.spawn(|| (0..50_000).all(|slot| tell(&window, 1, slot)));
            assert!((0..50_000).all(|slot| window.next(None).map(|it| it.question) == Some(slot)));
            assert!(slow.join().unwrap());
            window.end();
        });
    }

    #[test]
    fn a_slot_that_stays_open_is_passed() {
        let window = window(4096, 0);
        thread::scope(|scope| {
            for member in 0..3 {
                let window = &window;
                scope.spawn(move || (1..50_000).all(|slot| tell(window, member, slot)));
            }
            let mut told: Vec<u64> =
                (1..50_000).map(|_| window.next(None).unwrap().question).collect();
            told.sort_unstable();
            assert!(told.into_iter().eq(1..50_000));
            assert!(window.state.lock().epochs.len() <= 4);
        });
    }

    #[test]
    fn who_takes_nothing_is_told_no_more() {
        let window = window(16, 0);
        thread::scope(|scope| {
            for member in 0..2 {
                let window = &window;
                scope.spawn(move || (0..20_000).all(|slot| tell(window, member, slot)));
            }
            thread::sleep(Duration::from_millis(200));
            assert!((window.state.lock().decisions.len() as u64) <= SLOTS + 1);
            assert!((0..20_000).all(|slot| window.next(None).map(|it| it.question) == Some(slot)));
        });
    }
}
