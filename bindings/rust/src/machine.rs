//! A member's core.

use crate::fault::{Fault, check_abi, checked};
use crate::statement::{Decision, RECORD, Size, Statement, Statements};
use crate::sys;
use alloc::boxed::Box;

/// The room that an answer wants: 99 records.
pub(crate) const ROOM: usize = 99 * RECORD;

/// What an event came to.
#[derive(Clone, Copy, Debug, PartialEq, Eq, Hash)]
#[non_exhaustive]
pub enum Outcome {
    /// The event counts, and its records are to be saved.
    Taken,
    /// The sender said a statement of this kind and place before. Nothing changed.
    Repeat,
    /// An Initial that doesn't come from its origin: the sender lies. Nothing changed.
    Foreign,
    /// This bit was proposed before, perhaps before a restart. Nothing changed.
    Have(bool),
}

/// The answer to an event: what it came to, and the records that it brought.
///
/// [`save`](Answer::save) is the way to its statements, so that they can't be sent before they are
/// on the disk.
#[must_use = "the records of an answer are to be saved, and then its statements to be sent"]
#[derive(Debug, PartialEq, Eq)]
pub struct Answer<'a> {
    outcome: Outcome,
    records: &'a [u8],
}

impl<'a> Answer<'a> {
    /// Returns what the event came to.
    pub fn outcome(&self) -> Outcome {
        self.outcome
    }

    /// Returns the bytes of the records, seven each, at most 99. There are none unless the outcome
    /// is [`Outcome::Taken`].
    ///
    /// Take them to save several answers as one batch: nothing of any of them may be sent before
    /// that batch is on the disk.
    pub fn records(&self) -> &'a [u8] {
        self.records
    }

    /// Has the records saved by `save`, and returns the statements among them, which may then be
    /// sent to all members, this one included. Without records, `save` isn't called.
    ///
    /// # Errors
    ///
    /// That of `save`. Nothing may be sent; stop the member, and open it again from what the
    /// journal has.
    pub fn save<E>(self, save: impl FnOnce(&[u8]) -> Result<(), E>) -> Result<Statements<'a>, E> {
        if !self.records.is_empty() {
            save(self.records)?;
        }
        Ok(Statements::of(self.records))
    }
}

/// The core of one member: told of events, it answers with records.
///
/// It is plain data with one owner: it moves between threads (`Send`), and is shared behind a lock.
///
/// ```
/// use bracha::{Core, Outcome, Size, Statement};
///
/// // Member 1 of four hears member 0's Initial One on question 0.
/// let mut core = Core::open(Size { n: 4, t: 1, questions: 1 }, 1, &[])?;
/// let mut journal = Vec::new();
/// let answer = core.hear(0, &Statement([1, 0, 0, 0, 1, 1, 1]), 0)?;
/// assert_eq!(answer.outcome(), Outcome::Taken);
/// let to_send: Vec<Statement> = answer
///     .save(|records| {
///         journal.extend_from_slice(records); // a real member writes to its disk and syncs
///         Ok::<(), bracha::Fault>(())
///     })?
///     .collect();
/// assert_eq!(to_send, [Statement([2, 0, 0, 0, 1, 1, 1])]); // its Echo
///
/// // After a restart it has its records, and says no second Echo.
/// let mut core = Core::open(Size { n: 4, t: 1, questions: 1 }, 1, &journal)?;
/// assert!(core.hear(0, &Statement([1, 0, 0, 0, 1, 1, 1]), 0)?.records().is_empty());
/// # Ok::<(), bracha::Fault>(())
/// ```
pub struct Core {
    handle: sys::Handle,
    room: Box<[u8; ROOM]>,
}

// SAFETY: plain data behind one owner, with no state of a thread and no lock (bracha.h, THREADS).
unsafe impl Send for Core {}

impl Core {
    /// Opens the core of member `me`, with the bytes of all records that this member ever saved,
    /// oldest first: none for a new one.
    ///
    /// # Errors
    ///
    /// [`Fault::OtherAbi`]; an error of the size; [`Fault::BadRecords`], [`Fault::NoSuchMember`] or
    /// [`Fault::NoSuchQuestion`] of `me` or a record; [`Fault::Memory`].
    pub fn open(size: Size, me: u8, records: &[u8]) -> Result<Core, Fault> {
        check_abi()?;
        let mut handle = sys::NO_HANDLE;
        let Size { n, t, questions } = size;
        // SAFETY: pointer and length are one slice's, and `handle` is written only with status 0.
        checked(unsafe {
            sys::bracha_core_open(&mut handle, n, t, questions, me, records.as_ptr(), records.len())
        })?;
        Ok(Core { handle, room: Box::new([0; ROOM]) })
    }

    /// Hears a statement from member `from`, which the link has authenticated. `toss` is 64 random
    /// bits that nobody else can guess, fresh for each call: [`Toss::draw`](crate::Toss::draw).
    ///
    /// # Errors
    ///
    /// - [`Fault::BadStatement`], [`Fault::NoSuchQuestion`], [`Fault::NoSuchMember`]: the core is
    ///   as before;
    /// - [`Fault::Memory`], [`Fault::Failed`]: nothing of this event was recorded. Open a core from
    ///   the saved records.
    pub fn hear(
        &mut self,
        from: u8,
        statement: &Statement,
        toss: u64,
    ) -> Result<Answer<'_>, Fault> {
        let mut count = 0;
        // SAFETY: the handle is open; the room is the core's own, and overlaps nothing.
        let status = unsafe {
            sys::bracha_core_hear(
                &mut self.handle,
                from,
                statement.0.as_ptr(),
                toss,
                self.room.as_mut_ptr(),
                &mut count,
            )
        };
        self.answer(status, count)
    }

    /// Proposes a bit for a question at this member, with a toss as in [`hear`](Core::hear).
    ///
    /// # Errors
    ///
    /// - [`Fault::NoSuchQuestion`]: the core is as before;
    /// - [`Fault::Memory`], [`Fault::Failed`]: as in [`hear`](Core::hear).
    pub fn propose(&mut self, question: u16, bit: bool, toss: u64) -> Result<Answer<'_>, Fault> {
        let mut count = 0;
        // SAFETY: as in `hear`.
        let status = unsafe {
            sys::bracha_core_propose(
                &mut self.handle,
                question,
                bit,
                toss,
                self.room.as_mut_ptr(),
                &mut count,
            )
        };
        self.answer(status, count)
    }

    #[inline]
    fn answer(&self, status: i32, count: usize) -> Result<Answer<'_>, Fault> {
        let outcome = match status {
            0 => Outcome::Taken,
            1 => Outcome::Repeat,
            2 => Outcome::Foreign,
            3 => Outcome::Have(false),
            4 => Outcome::Have(true),
            fault => return Err(Fault::of(fault)),
        };
        Ok(Answer { outcome, records: &self.room[..RECORD * count] })
    }

    /// Returns the decision of a question, if there is one. Act on it only after its record was
    /// saved. A core that has failed ([`Fault::Failed`]) knows of none. It wants the core for itself
    /// (`&mut`), as every call of the library does.
    pub fn verdict(&mut self, question: u16) -> Option<Decision> {
        let mut decision = sys::RawDecision::default();
        // SAFETY: as in `hear`.
        let decided =
            unsafe { sys::bracha_core_verdict(&mut self.handle, question, &mut decision) };
        decided.then_some(Decision { round: decision.round, bit: decision.bit == 1 })
    }
}

impl core::fmt::Debug for Core {
    fn fmt(&self, f: &mut core::fmt::Formatter<'_>) -> core::fmt::Result {
        f.write_str("Core")
    }
}

impl Drop for Core {
    fn drop(&mut self) {
        // SAFETY: the handle was opened, and is closed once.
        unsafe { sys::bracha_core_close(self.handle) }
    }
}

/// Checks whether pairs of eight bytes, a sender and a statement that it sent, are by themselves
/// proof that the question has this answer. It proves only what was really sent; it is no proof if
/// a sender, an origin or the question doesn't exist.
///
/// ```
/// # use bracha::{Size, audit};
/// assert!(!audit(Size { n: 4, t: 1, questions: 1 }, 0, true, &[])?); // nothing proves nothing
/// # Ok::<(), bracha::Fault>(())
/// ```
///
/// # Errors
///
/// [`Fault::OtherAbi`], an error of the size, [`Fault::BadStatement`], [`Fault::Memory`].
pub fn audit(size: Size, question: u16, bit: bool, pairs: &[[u8; 8]]) -> Result<bool, Fault> {
    check_abi()?;
    let Size { n, t, questions } = size;
    let bytes = pairs.as_flattened();
    // SAFETY: pointer and length are one slice's.
    match unsafe { sys::bracha_audit(n, t, questions, question, bit, bytes.as_ptr(), bytes.len()) }
    {
        0 => Ok(false),
        1 => Ok(true),
        fault => Err(Fault::of(fault)),
    }
}
