//! Statements and records, as their seven bytes.

use core::fmt;

/// The bytes of a record, and of a statement.
pub const RECORD: usize = 7;

/// The first byte of a record that is a decision.
const DECIDED: u8 = 4;

/// The size of a cluster. [`Core::open`](crate::Core::open) checks it.
#[derive(Clone, Copy, Debug, PartialEq, Eq, Hash)]
pub struct Size {
    /// The number of members, 1 to 64.
    pub n: u8,
    /// The number of members that may be faulty, less than a third of n.
    pub t: u8,
    /// The number of questions, 1 to 4,096.
    pub questions: u16,
}

/// A member: which cluster it belongs to, and its number.
#[derive(Clone, Copy, Debug, PartialEq, Eq, Hash)]
pub struct Member {
    /// The number of the cluster, any.
    pub cluster: u64,
    /// The size of the cluster.
    pub size: Size,
    /// The number of the member, below n.
    pub me: u8,
}

/// An Initial, Echo or Ready, in seven bytes: kind, question (two bytes), origin, round, step,
/// value.
///
/// These bytes are not checked here: [`Core::hear`](crate::Core::hear) does it, and a
/// [`Feeder`](crate::Feeder) gives only statements of its cluster.
#[derive(Clone, Copy, PartialEq, Eq, Hash, PartialOrd, Ord)]
pub struct Statement(pub [u8; RECORD]);

impl Statement {
    /// Returns the question.
    pub fn question(&self) -> u16 {
        u16::from_be_bytes([self.0[1], self.0[2]])
    }

    /// Returns the member whose value this statement is about.
    pub fn origin(&self) -> u8 {
        self.0[3]
    }

    /// Returns the round, 1 to 32.
    pub fn round(&self) -> u8 {
        self.0[4]
    }

    /// Returns the step, 1 to 3.
    pub fn step(&self) -> u8 {
        self.0[5]
    }
}

impl fmt::Debug for Statement {
    fn fmt(&self, f: &mut fmt::Formatter<'_>) -> fmt::Result {
        let kind = match self.0[0] {
            1 => "Initial",
            2 => "Echo",
            3 => "Ready",
            _ => "Unknown",
        };
        let value = match self.0[6] {
            0 => "Zero",
            1 => "One",
            2 => "SureZero",
            3 => "SureOne",
            4 => "Unsure",
            _ => "Unknown",
        };
        write!(
            f,
            "{kind} {value} (question {}, origin {}, round {}, step {})",
            self.question(),
            self.origin(),
            self.round(),
            self.step()
        )
    }
}

/// The answer to a question.
#[derive(Clone, Copy, Debug, PartialEq, Eq, Hash)]
pub struct Decision {
    /// The round in which the member decided, 1 to 32.
    pub round: u8,
    /// The bit.
    pub bit: bool,
}

/// The statements among some records, in order: an iterator.
#[derive(Clone, Debug)]
pub struct Statements<'a> {
    left: &'a [u8],
}

impl<'a> Statements<'a> {
    /// Returns the statements among the bytes of records: what a member said, and sends to a peer
    /// that has nothing.
    ///
    /// ```
    /// let saved = [1, 0, 0, 0, 1, 1, 1, /* a decision: */ 4, 0, 0, 0, 1, 0, 1];
    /// assert_eq!(bracha::Statements::of(&saved).count(), 1);
    /// ```
    pub fn of(records: &'a [u8]) -> Statements<'a> {
        Statements { left: records }
    }
}

impl Iterator for Statements<'_> {
    type Item = Statement;

    fn next(&mut self) -> Option<Statement> {
        while let Some((first, left)) = self.left.split_first_chunk::<RECORD>() {
            self.left = left;
            if first[0] != DECIDED {
                return Some(Statement(*first));
            }
        }
        None
    }

    fn size_hint(&self) -> (usize, Option<usize>) {
        (0, Some(self.left.len() / RECORD))
    }
}

/// Returns the decisions among the bytes of records, each with its question.
///
/// ```
/// let records = [1, 0, 0, 0, 1, 1, 1, 4, 0, 0, 0, 1, 0, 1];
/// let (question, decision) = bracha::decisions(&records).next().unwrap();
/// assert_eq!((question, decision.round, decision.bit), (0, 1, true));
/// ```
pub fn decisions(records: &[u8]) -> impl Iterator<Item = (u16, Decision)> {
    records.as_chunks::<RECORD>().0.iter().filter(|record| record[0] == DECIDED).map(|record| {
        let question = u16::from_be_bytes([record[1], record[2]]);
        (question, Decision { round: record[4], bit: record[6] == 1 })
    })
}
