use crate::Settings;

/// The most epochs of which a course knows the slots that were told.
const KEPT: usize = 32;

/// An epoch of which one member told decisions. A cluster that is no chain has one.
struct Epoch {
    first: u64,
    /// The number of its next decision.
    next: u64,
    /// A bit for each slot that was told.
    told: Vec<u64>,
}

impl Epoch {
    /// Marks a slot as told. Returns `false` if it was told before.
    fn tell(&mut self, slot: u64) -> bool {
        let (place, bit) = ((slot - self.first) as usize / 64, 1 << ((slot - self.first) % 64));
        let is_new = self.told[place] & bit == 0;
        self.told[place] |= bit;
        is_new
    }
}

/// The place of one member's decisions: the number of the next one, and which questions were told.
///
/// A member of a chain tells its slots epoch by epoch. It passes an epoch in which slots stay open,
/// and may tell decisions of it later, on the same connection. Epochs are remembered until 32 others
/// were begun: so the size is bounded, whatever a member tells.
pub(crate) struct Course {
    settings: Settings,
    number: u64,
    /// The first slot of the epoch in which the connection begins: none before it is told.
    lowest: u64,
    epochs: Vec<Epoch>,
}

impl Course {
    /// Creates the course whose next decision has this number.
    pub(crate) fn new(settings: &Settings, number: u64) -> Course {
        let mut course =
            Course { settings: settings.clone(), number, lowest: 0, epochs: Vec::new() };
        course.open(settings.first_of(number), number);
        course
    }

    /// Returns the number from which on another connection asks for decisions, and begins it.
    pub(crate) fn begin(&mut self) -> u64 {
        self.lowest = self.settings.first_of(self.number);
        self.number
    }

    /// Takes a question that the member tells, and returns the number of its decision. A correct
    /// member doesn't tell one that there is not, nor again, nor of an epoch before those that it
    /// was asked for: then it is `None`.
    pub(crate) fn take(&mut self, question: u64) -> Option<u64> {
        if question < self.lowest || !self.settings.has(question) {
            return None;
        }
        let first = self.settings.first_of(question);
        let place = self.epochs.iter().position(|epoch| epoch.first == first);
        let place = place.unwrap_or_else(|| self.open(first, first));
        let epoch = &mut self.epochs[place];
        if !epoch.tell(question) {
            return None;
        }
        let number = epoch.next;
        epoch.next = number.saturating_add(1);
        // A late decision of an epoch that was passed leaves the next number as it is.
        if first >= self.settings.first_of(self.number) {
            self.number = epoch.next;
        }
        Some(number)
    }

    /// Adds an epoch, and returns its place. It takes that of another if there are too many: of one
    /// that was told to its end, or else of the oldest.
    fn open(&mut self, first: u64, next: u64) -> usize {
        let questions = u64::from(self.settings.questions());
        if self.epochs.len() == KEPT {
            let ended = self.epochs.iter().position(|epoch| epoch.next - epoch.first >= questions);
            self.epochs.remove(ended.unwrap_or(0));
        }
        let told = vec![0; questions.div_ceil(64) as usize];
        self.epochs.push(Epoch { first, next, told });
        self.epochs.len() - 1
    }
}

#[cfg(test)]
mod tests {
    use super::{Course, KEPT};
    use crate::Settings;

    fn settings(questions: u16) -> Settings {
        Settings::new(7, 0, questions, vec!["127.0.0.1:1".parse().unwrap()]).unwrap()
    }

    fn chain(number: u64) -> Course {
        let mut course = Course::new(&settings(16).in_chain(), number);
        course.begin();
        course
    }

    #[test]
    fn without_a_chain_each_question_is_told_once() {
        let mut course = Course::new(&settings(70), 5);
        assert_eq!(course.begin(), 5);
        let told = [69, 0, 69, 70, 1].map(|question| course.take(question));
        assert_eq!(told, [Some(5), Some(6), None, None, Some(7)]);
        assert_eq!(course.begin(), 8);
        assert_eq!([0, 2].map(|question| course.take(question)), [None, Some(8)]);
    }

    #[test]
    fn a_number_is_of_its_epoch() {
        let mut course = chain(0);
        assert_eq!([3, 2, 3].map(|slot| course.take(slot)), [Some(0), Some(1), None]);
        // Epoch 0 is passed with open slots, and epoch 2 wholly; a decision of each comes late.
        assert_eq!([17, 48, 4, 40].map(|slot| course.take(slot)), [16, 48, 2, 32].map(Some));
        assert_eq!(course.begin(), 49);
        assert_eq!([47, 48, 50].map(|slot| course.take(slot)), [None, None, Some(49)]);
    }

    #[test]
    fn an_epoch_that_is_complete_leads_to_the_next() {
        let mut course = chain(0);
        assert!((0..16).all(|slot| course.take(15 - slot) == Some(slot)));
        assert_eq!(course.begin(), 16);
        assert_eq!(course.take(3), None);
        assert_eq!(course.take(20), Some(16));
    }

    #[test]
    fn slots_have_no_end() {
        let mut course = chain(u64::MAX - 15);
        assert!((0..16).all(|slot| course.take(u64::MAX - slot) == Some(u64::MAX - 15 + slot)));
        assert_eq!(course.take(u64::MAX), None);
        assert_eq!(course.take(0), None);
    }

    #[test]
    fn memory_is_bounded() {
        let mut course = chain(0);
        assert_eq!(course.take(5), Some(0));
        for slot in 16..100_000 {
            assert_eq!(course.take(slot), Some(slot));
            assert!(course.epochs.len() <= KEPT);
        }
        // Those with open slots are kept, rather than those that were told to their end.
        assert_eq!([5, 6].map(|slot| course.take(slot)), [None, Some(1)]);
    }
}
