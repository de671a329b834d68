use std::fmt;

/// The cause for which a call failed.
#[derive(Debug, Clone, PartialEq, Eq)]
#[non_exhaustive]
pub enum Error {
    /// The settings aren't those of a client, as `bracha new-cluster` writes them; what is wrong.
    BadSettings(String),
    /// The question isn't below the cluster's number of questions. Nothing was sent. In a chain
    /// every slot exists.
    NoSuchQuestion(u64),
    /// The member that was to be trusted isn't below n. Nothing was sent.
    NoSuchMember(usize),
    /// The time is over, and no bit was told by more than t members. It may still come. The words
    /// that were told, each with its member.
    Undecided(Vec<(usize, bool)>),
    /// More than t members have put the journal of the slot's epoch away, and no bit was told by more
    /// than t; those that say so. The slot may be decided, but it can't be learned from these. Only
    /// chains have it.
    Gone(Vec<usize>),
    /// More than t members take no proposal for the slot, because its epoch is too far ahead of their
    /// newest one; those that say so. Try again once slots before it are decided. Only chains have
    /// it.
    TooFar(Vec<usize>),
    /// Too few members answered to believe anything; those that gave no reply of the protocol.
    Unreachable(Vec<usize>),
    /// The system refused a thread.
    Thread(String),
}

impl fmt::Display for Error {
    fn fmt(&self, out: &mut fmt::Formatter<'_>) -> fmt::Result {
        match self {
            Error::BadSettings(why) => write!(out, "bad settings: {why}"),
            Error::NoSuchQuestion(question) => write!(out, "there is no question {question}"),
            Error::NoSuchMember(member) => write!(out, "there is no member {member}"),
            Error::Undecided(words) => write!(out, "undecided; told by members: {words:?}"),
            Error::Gone(members) => write!(out, "put away by members {members:?}"),
            Error::TooFar(members) => write!(out, "too far ahead for members {members:?}"),
            Error::Unreachable(silent) => write!(out, "no answer from members {silent:?}"),
            Error::Thread(why) => write!(out, "the system refused a thread: {why}"),
        }
    }
}

impl std::error::Error for Error {}
