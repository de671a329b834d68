//! The errors of this crate.

use crate::sys;
use core::fmt;

/// The number of the interface that this crate was written for.
pub const ABI: u32 = 1;

/// An error of the library.
///
/// After all of them the value that was called is as before, with two exceptions: a
/// [`Core`](crate::Core) that answered [`Fault::Memory`] to an event answers [`Fault::Failed`] from
/// then on, and a [`Feeder`](crate::Feeder) that answered [`Fault::Broken`] answers that from then
/// on.
#[derive(Clone, Copy, Debug, PartialEq, Eq, Hash)]
#[non_exhaustive]
pub enum Fault {
    /// The question, or a record's, isn't below the number of questions.
    NoSuchQuestion,
    /// A member, a sender, or the origin of a statement or record, isn't below n.
    NoSuchMember,
    /// An allocation failed.
    Memory,
    /// An earlier event met [`Fault::Memory`]. A core that is opened with the saved records goes
    /// on.
    Failed,
    /// The bytes are no statement.
    BadStatement,
    /// The bytes are no whole records.
    BadRecords,
    /// No frame begins like the bytes of this stream. The connection is to be closed.
    Broken,
    /// n is 0.
    NoMembers,
    /// n is above 64.
    TooManyMembers,
    /// n isn't above 3t.
    TooManyLiars,
    /// There are no questions.
    NoQuestions,
    /// There are more than 4,096 questions.
    TooManyQuestions,
    /// There is no such version of the wire.
    BadVersion,
    /// A file doesn't begin as a journal.
    BadHeader,
    /// A file is the journal of another cluster, size or member.
    OtherHeader,
    /// A record of a journal's file is none.
    BadRecord,
    /// A journal's file ends before its last gate byte.
    CutShort,
    /// A journal's file is of version 1: `bracha migrate` converts it.
    OldVersion,
    /// The library that was linked or loaded has another interface: this number, and not [`ABI`].
    OtherAbi(u32),
    /// A status that this crate doesn't know.
    Unknown(i32),
}

impl Fault {
    /// Returns the error of a status below 0.
    pub(crate) fn of(status: i32) -> Fault {
        match status {
            -1 => Fault::NoSuchQuestion,
            -2 => Fault::NoSuchMember,
            -3 => Fault::Memory,
            -4 => Fault::Failed,
            -5 => Fault::BadStatement,
            -6 => Fault::BadRecords,
            -7 => Fault::Broken,
            -10 => Fault::NoMembers,
            -11 => Fault::TooManyMembers,
            -12 => Fault::TooManyLiars,
            -13 => Fault::NoQuestions,
            -14 => Fault::TooManyQuestions,
            -15 => Fault::BadVersion,
            -20 => Fault::BadHeader,
            -21 => Fault::OtherHeader,
            -22 => Fault::BadRecord,
            -23 => Fault::CutShort,
            -24 => Fault::OldVersion,
            other => Fault::Unknown(other),
        }
    }
}

impl fmt::Display for Fault {
    fn fmt(&self, f: &mut fmt::Formatter<'_>) -> fmt::Result {
        let text = match self {
            Fault::NoSuchQuestion => "there is no such question",
            Fault::NoSuchMember => "there is no such member",
            Fault::Memory => "an allocation failed",
            Fault::Failed => {
                "an earlier allocation failed: open the core again from its saved records"
            }
            Fault::BadStatement => "these bytes are no statement",
            Fault::BadRecords => "these bytes are no records",
            Fault::Broken => "no frame begins like these bytes",
            Fault::NoMembers => "a cluster has at least one member",
            Fault::TooManyMembers => "a cluster has at most 64 members",
            Fault::TooManyLiars => "n isn't above 3t",
            Fault::NoQuestions => "a cluster has at least one question",
            Fault::TooManyQuestions => "a cluster has at most 4096 questions",
            Fault::BadVersion => "there is no such version of the wire",
            Fault::BadHeader => "the file is no journal",
            Fault::OtherHeader => "it is the journal of another cluster, size or member",
            Fault::BadRecord => "the journal has a record that is none",
            Fault::CutShort => "the journal is cut short",
            Fault::OldVersion => "the journal is of version 1: bracha migrate converts it",
            Fault::OtherAbi(found) => {
                return write!(f, "the library has interface {found}, and this crate wants {ABI}");
            }
            Fault::Unknown(status) => {
                return write!(f, "status {status} of the library is unknown");
            }
        };
        f.write_str(text)
    }
}

impl core::error::Error for Fault {}

/// Checks that the library has the interface of this crate. Each value checks that before its first
/// other call.
pub(crate) fn check_abi() -> Result<(), Fault> {
    // SAFETY: this call has had the same form in every version of the library.
    match unsafe { sys::bracha_abi() } {
        ABI => Ok(()),
        found => Err(Fault::OtherAbi(found)),
    }
}

/// Returns the version of the library, as `(0, 3, 0)`.
pub fn library_version() -> (u8, u8, u8) {
    // SAFETY: this call has had the same form in every version of the library.
    let [_, major, minor, patch] = unsafe { sys::bracha_version() }.to_be_bytes();
    (major, minor, patch)
}

/// Turns a status into what a call returns.
pub(crate) fn checked(status: i32) -> Result<(), Fault> {
    if status < 0 { Err(Fault::of(status)) } else { Ok(()) }
}
