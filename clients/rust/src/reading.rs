/// The words of members on one question, and the first bit that more than t of them told.
///
/// Only a member's first word counts: a correct member never tells another. The crate `client` of
/// the repository proves this rule, and that what a reading believes is the decision of every
/// correct member, if at most t of the n members are faulty.
#[derive(Debug, Clone, PartialEq, Eq)]
pub struct Reading {
    t: usize,
    words: Vec<Option<bool>>,
    decision: Option<bool>,
}

impl Reading {
    /// Creates a reading of a cluster of n members, of whom at most t are faulty.
    pub fn new(n: usize, t: usize) -> Reading {
        Reading { t, words: vec![None; n], decision: None }
    }

    /// Takes a member's word that the question is decided as `bit`. Returns `false`, and takes
    /// nothing, if there is no such member.
    pub fn take(&mut self, member: usize, bit: bool) -> bool {
        let Some(word) = self.words.get_mut(member) else { return false };
        if word.is_some() {
            return true;
        }
        *word = Some(bit);
        let count = self.words.iter().filter(|word| **word == Some(bit)).count();
        if self.decision.is_none() && count > self.t {
            self.decision = Some(bit);
        }
        true
    }

    /// Returns the bit that may be believed, or `None` if no bit was told by more than t members.
    pub fn decision(&self) -> Option<bool> {
        self.decision
    }

    /// Returns each member's first word, by number.
    pub fn words(&self) -> Vec<(usize, bool)> {
        let told = self.words.iter().enumerate();
        told.filter_map(|(member, word)| word.map(|bit| (member, bit))).collect()
    }
}

#[cfg(test)]
mod tests {
    use super::Reading;

    #[test]
    fn the_first_bit_that_more_than_t_told() {
        let mut reading = Reading::new(7, 2);
        let words = [(0, true), (0, true), (1, true), (2, false), (1, false), (3, false)];
        for (member, bit) in words {
            assert!(reading.take(member, bit));
            assert_eq!(reading.decision(), None);
        }
        assert!(!reading.take(7, false));
        assert_eq!(reading.decision(), None);
        for (member, bit) in [(4, false), (5, true), (6, true)] {
            assert!(reading.take(member, bit));
            assert_eq!(reading.decision(), Some(false));
        }
        assert_eq!(reading.words().len(), 7);
    }
}
