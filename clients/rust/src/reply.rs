/// A decision.
#[derive(Debug, Clone, Copy, PartialEq, Eq, Hash)]
pub struct Decision {
    /// The question, from 0; in a chain, the slot.
    pub question: u64,
    /// The bit that it is decided as.
    pub bit: bool,
    /// Its number among one member's decisions, if that member alone is trusted: its place in the
    /// member's journal, from 0. In a chain, place p of epoch e has the number e Q + p, with Q
    /// questions an epoch.
    pub number: Option<u64>,
}

/// The cause for which a member of a chain refuses a line on a slot.
#[derive(Debug, Clone, Copy, PartialEq, Eq, Hash)]
pub enum Refusal {
    /// The journal of the slot's epoch was put away (`ERR 5 gone`): the member knows nothing of it.
    Gone,
    /// The member takes no proposal for the slot yet, because its epoch is too far ahead of the
    /// newest one (`ERR 2 question`).
    TooFar,
}

/// One member's answer to a proposal.
#[derive(Debug, Clone, Copy, PartialEq, Eq, Hash)]
pub struct Answer {
    /// The member.
    pub member: usize,
    /// The bit that it has as its proposal, or `None` if it didn't answer, refuses the slot, or is
    /// stopped.
    pub stands: Option<bool>,
    /// The cause for which it refuses the slot, if it does. Only chains have these.
    pub refusal: Option<Refusal>,
}

/// How far a member is on a question.
#[derive(Debug, Clone, Copy, PartialEq, Eq, Hash)]
pub enum Stage {
    /// Nothing was proposed to it.
    Unproposed,
    /// It is in this round and step.
    Open {
        /// The round, 1 to 32.
        round: u8,
        /// The step, 1 to 3.
        step: u8,
    },
    /// It is undecided after its last round, and says no more of its own.
    Spent,
    /// It decided the question as this bit.
    Decided(bool),
    /// It doesn't know: the journal of the slot's epoch was put away. Only chains have it.
    Gone,
}

/// How far one member is on a question, by its own word.
#[derive(Debug, Clone, Copy, PartialEq, Eq, Hash)]
pub struct State {
    /// The member.
    pub member: usize,
    /// How far it is, or `None` if it didn't answer or is stopped.
    pub stage: Option<Stage>,
}

/// One member, by its own word.
#[derive(Debug, Clone, Copy, PartialEq, Eq, Hash)]
pub struct Status {
    /// The member.
    pub member: usize,
    /// Whether it is up.
    pub up: bool,
    /// The number of its statements.
    pub statements: u64,
    /// The number of questions that it decided.
    pub decided: u64,
}

/// Returns the bit of a reply `DECIDED b`, or `None` for any other.
pub(crate) fn decision_in(reply: &[u8]) -> Option<bool> {
    match reply {
        b"DECIDED 0" => Some(false),
        b"DECIDED 1" => Some(true),
        _ => None,
    }
}

/// Returns the proposal of the member that gave this reply to a proposal of `bit`.
pub(crate) fn stands_in(reply: &[u8], bit: bool) -> Option<bool> {
    match reply {
        b"OK" => Some(bit),
        b"HAVE 0" => Some(false),
        b"HAVE 1" => Some(true),
        _ => None,
    }
}

/// A member's reply to `ASK q`.
#[derive(Debug, Clone, Copy, PartialEq, Eq)]
pub(crate) enum Word {
    Decided(bool),
    Undecided,
    Gone,
}

/// Returns the word in a reply to `ASK q`, or `None` for any other reply.
pub(crate) fn word_in(reply: &[u8]) -> Option<Word> {
    match reply {
        b"UNDECIDED" => Some(Word::Undecided),
        b"ERR 5 gone" => Some(Word::Gone),
        other => decision_in(other).map(Word::Decided),
    }
}

/// Returns the cause for which the member that gave this reply to a proposal refuses the slot.
pub(crate) fn refusal_in(reply: &[u8]) -> Option<Refusal> {
    match reply {
        b"ERR 5 gone" => Some(Refusal::Gone),
        b"ERR 2 question" => Some(Refusal::TooFar),
        _ => None,
    }
}

/// Returns the number in a word of decimal digits, without zeros before it.
fn number_in(word: &str) -> Option<u64> {
    let digits = word.bytes().all(|byte| byte.is_ascii_digit());
    let plain = word == "0" || !word.starts_with('0');
    if digits && plain { word.parse().ok() } else { None }
}

/// Returns the question and the bit of a follower's line `DECIDED q b`, or `None` for any other.
pub(crate) fn told_in(line: &[u8]) -> Option<(u64, bool)> {
    let rest = std::str::from_utf8(line).ok()?.strip_prefix("DECIDED ")?;
    let (question, bit) = rest.split_once(' ')?;
    let bit = match bit {
        "0" => false,
        "1" => true,
        _ => return None,
    };
    Some((number_in(question)?, bit))
}

/// Returns how far the member is that gave this reply to `STATE q`, or `None` for any other reply.
pub(crate) fn stage_in(reply: &[u8]) -> Option<Stage> {
    if let Some(bit) = decision_in(reply) {
        return Some(Stage::Decided(bit));
    }
    match reply {
        b"UNPROPOSED" => return Some(Stage::Unproposed),
        b"SPENT" => return Some(Stage::Spent),
        b"ERR 5 gone" => return Some(Stage::Gone),
        _ => {}
    }
    let rest = std::str::from_utf8(reply).ok()?.strip_prefix("OPEN ")?;
    let (round, step) = rest.split_once(' ')?;
    let (round, step) = (number_in(round)?, number_in(step)?);
    if !(1..=32).contains(&round) || !(1..=3).contains(&step) {
        return None;
    }
    Some(Stage::Open { round: round as u8, step: step as u8 })
}

/// Returns the status in a reply `UP m d`. Any other reply is from a member that isn't up.
pub(crate) fn status_in(member: usize, reply: &[u8]) -> Status {
    let counts = || {
        let rest = std::str::from_utf8(reply).ok()?.strip_prefix("UP ")?;
        let (statements, decided) = rest.split_once(' ')?;
        Some((number_in(statements)?, number_in(decided)?))
    };
    match counts() {
        Some((statements, decided)) => Status { member, up: true, statements, decided },
        None => Status { member, up: false, statements: 0, decided: 0 },
    }
}

#[cfg(test)]
mod tests {
    use super::{Refusal, Stage, Word, refusal_in, stage_in, status_in, told_in, word_in};

    #[test]
    fn lines_of_followers() {
        assert_eq!(told_in(b"DECIDED 12 1"), Some((12, true)));
        for wrong in ["DECIDED 1", "DECIDED  1 1", "DECIDED 1 2", "DECIDED +1 1", "DECIDED 01 1"] {
            assert_eq!(told_in(wrong.as_bytes()), None, "{wrong}");
        }
        assert_eq!(told_in(b"DECIDED 65536 0"), Some((65536, false)));
        assert_eq!(told_in(b"DECIDED 18446744073709551615 1"), Some((u64::MAX, true)));
        assert_eq!(told_in(b"DECIDED 18446744073709551616 1"), None);
        assert_eq!(told_in(b"DECIDED \xff 1"), None);
    }

    #[test]
    fn stages() {
        assert_eq!(stage_in(b"OPEN 32 2"), Some(Stage::Open { round: 32, step: 2 }));
        assert_eq!(stage_in(b"OPEN 1 3"), Some(Stage::Open { round: 1, step: 3 }));
        assert_eq!(stage_in(b"SPENT"), Some(Stage::Spent));
        assert_eq!(stage_in(b"UNPROPOSED"), Some(Stage::Unproposed));
        assert_eq!(stage_in(b"DECIDED 0"), Some(Stage::Decided(false)));
        assert_eq!(stage_in(b"ERR 5 gone"), Some(Stage::Gone));
        for wrong in
            ["", "OPEN", "OPEN 1", "OPEN 0 1", "OPEN 33 1", "OPEN 1 4", "OPEN 01 1", "UNDECIDED"]
        {
            assert_eq!(stage_in(wrong.as_bytes()), None, "{wrong}");
        }
    }

    #[test]
    fn words_and_refusals() {
        assert_eq!(word_in(b"DECIDED 1"), Some(Word::Decided(true)));
        assert_eq!(word_in(b"UNDECIDED"), Some(Word::Undecided));
        assert_eq!(word_in(b"ERR 5 gone"), Some(Word::Gone));
        assert_eq!(refusal_in(b"ERR 5 gone"), Some(Refusal::Gone));
        assert_eq!(refusal_in(b"ERR 2 question"), Some(Refusal::TooFar));
        for wrong in ["", "ERR 5", "ERR 5 gone ", "err 5 gone", "ERR 2 questions", "ERR 1 line"] {
            assert_eq!(word_in(wrong.as_bytes()), None, "{wrong}");
            assert_eq!(refusal_in(wrong.as_bytes()), None, "{wrong}");
        }
    }

    #[test]
    fn statuses() {
        let status = status_in(2, b"UP 18 1");
        assert_eq!((status.up, status.statements, status.decided), (true, 18, 1));
        for wrong in ["", "UP", "UP 1", "UP 1 2 3", "UP x 1", "STOPPED"] {
            assert!(!status_in(2, wrong.as_bytes()).up, "{wrong}");
        }
    }
}
