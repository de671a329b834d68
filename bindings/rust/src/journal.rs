//! The journal: a member's records on a disk.

use crate::fault::{Fault, check_abi, checked};
use crate::statement::{Member, RECORD, Size};
use crate::sys;
use alloc::vec::Vec;
use core::fmt;

/// The bytes with which a new journal begins; the first batch is written over the last of them.
const HEAD: usize = 25;

/// The first byte after which no gate byte may stand, as in `bracha run`.
const LAST_GATE: u64 = 1 << 31;

/// A disk, or a file, that belongs to one journal alone.
///
/// A sync that succeeds promises that all earlier writes survive a loss of power. [`Journal`] calls
/// nothing more after an error.
pub trait Disk {
    /// The error of a call that failed.
    type Error;

    /// Writes all bytes at this position, perhaps past the end.
    ///
    /// # Errors
    ///
    /// The write failed, in part or as a whole.
    fn write_at(&mut self, at: u64, bytes: &[u8]) -> Result<(), Self::Error>;

    /// Makes all that was written durable.
    ///
    /// # Errors
    ///
    /// The sync failed: nobody knows what of the writes since the last good sync a loss of power
    /// would leave.
    fn sync(&mut self) -> Result<(), Self::Error>;
}

/// An error of a journal.
#[derive(Debug)]
#[non_exhaustive]
pub enum JournalFault<E> {
    /// The disk failed. The journal is stopped: send nothing of this batch, and open the member
    /// again from the disk; after a failed sync only once the machine was restarted, because the
    /// system may show bytes that never reached the disk.
    Disk(E),
    /// The library refused. [`Fault::BadHeader`] to [`Fault::OldVersion`]: the file is no journal
    /// of this member; never start a new one in its place.
    Library(Fault),
    /// The journal met an error of the disk before.
    Stopped,
    /// The batch doesn't fit: a journal has at most 2 GiB.
    Full,
}

impl<E> From<Fault> for JournalFault<E> {
    fn from(fault: Fault) -> JournalFault<E> {
        JournalFault::Library(fault)
    }
}

impl<E: fmt::Display> fmt::Display for JournalFault<E> {
    fn fmt(&self, f: &mut fmt::Formatter<'_>) -> fmt::Result {
        match self {
            JournalFault::Disk(error) => {
                write!(f, "the journal can't be opened or written: {error}")
            }
            JournalFault::Library(fault) => write!(f, "journal: {fault}"),
            JournalFault::Stopped => f.write_str("the journal's disk failed before"),
            JournalFault::Full => f.write_str("the journal is full"),
        }
    }
}

impl<E: fmt::Debug + fmt::Display> core::error::Error for JournalFault<E> {}

/// A journal, and the bytes of the records that it had when it was opened, seven each.
pub type Opened<D> = (Journal<D>, Vec<u8>);

/// The journal of one member, in the format of `bracha run`: [`append`](Journal::append) saves
/// records as one batch, of which a crash leaves all or nothing.
///
/// ```
/// use bracha::{Disk, Journal, Member, Size};
///
/// /// A disk in memory.
/// #[derive(Default)]
/// struct Bytes(Vec<u8>);
///
/// impl Disk for Bytes {
///     type Error = std::convert::Infallible;
///     fn write_at(&mut self, at: u64, bytes: &[u8]) -> Result<(), Self::Error> {
///         let end = at as usize + bytes.len();
///         self.0.resize(self.0.len().max(end), 0);
///         self.0[at as usize..end].copy_from_slice(bytes);
///         Ok(())
///     }
///     fn sync(&mut self) -> Result<(), Self::Error> {
///         Ok(())
///     }
/// }
///
/// let member = Member { cluster: 7, size: Size { n: 4, t: 1, questions: 1 }, me: 1 };
/// let mut journal = Journal::create(Bytes::default(), &member)?;
/// journal.append(&[2, 0, 0, 0, 1, 1, 1])?; // an Echo
/// let file = journal.into_disk().0;
/// assert_eq!(file.len(), 34); // the example of docs/FORMATS.md
/// let (_, records) = Journal::open(Bytes(file.clone()), &member, &file)?;
/// assert_eq!(records, [2, 0, 0, 0, 1, 1, 1]);
/// # Ok::<(), bracha::JournalFault<std::convert::Infallible>>(())
/// ```
#[derive(Debug)]
pub struct Journal<D> {
    disk: D,
    end: u64,
    stopped: bool,
    batch: Vec<u8>,
}

impl<D: Disk> Journal<D> {
    /// Creates the journal of a new member on an empty disk, and syncs it. Only ever create it
    /// once: a member whose journal is lost must not run again.
    ///
    /// # Errors
    ///
    /// [`JournalFault::Library`] of the member's size or number; [`JournalFault::Disk`].
    pub fn create(mut disk: D, member: &Member) -> Result<Journal<D>, JournalFault<D::Error>> {
        let head = head_of(member)?;
        disk.write_at(0, &head).map_err(JournalFault::Disk)?;
        disk.sync().map_err(JournalFault::Disk)?;
        Ok(Journal { disk, end: HEAD as u64 - 1, stopped: false, batch: Vec::new() })
    }

    /// Opens a journal whose bytes on the disk are `file`, and returns its records with it. It syncs
    /// the disk first: a member that was killed may have left a batch that no sync had reached.
    ///
    /// # Errors
    ///
    /// [`JournalFault::Disk`] if the sync failed.
    /// [`JournalFault::Library`]: [`Fault::BadHeader`], [`Fault::OtherHeader`],
    /// [`Fault::BadRecord`], [`Fault::CutShort`] or [`Fault::OldVersion`] if the file is no journal
    /// of this member; [`Fault::Memory`]; an error of the size or number.
    pub fn open(
        mut disk: D,
        member: &Member,
        file: &[u8],
    ) -> Result<Opened<D>, JournalFault<D::Error>> {
        disk.sync().map_err(JournalFault::Disk)?;
        let (records, end) = records_of(member, file)?;
        Ok((Journal { disk, end: end as u64, stopped: false, batch: Vec::new() }, records))
    }

    /// Saves records, seven bytes each, as one batch: writes it behind a closed gate byte, syncs,
    /// opens the gate, syncs. Once it returns `Ok`, the statements among them may be sent. Without
    /// records it does nothing.
    ///
    /// # Errors
    ///
    /// - [`JournalFault::Disk`]: the batch is there or not; send nothing of it. The journal is
    ///   stopped.
    /// - [`JournalFault::Stopped`]: it was stopped before.
    /// - [`JournalFault::Library`]: [`Fault::BadRecords`] for bytes that are no records, or for
    ///   more than 65,535, or [`Fault::Memory`]; and [`JournalFault::Full`]. Nothing was written.
    pub fn append(&mut self, records: &[u8]) -> Result<(), JournalFault<D::Error>> {
        if self.stopped {
            return Err(JournalFault::Stopped);
        }
        if records.is_empty() {
            return Ok(());
        }
        encode(records, &mut self.batch)?;
        let end = self.end + self.batch.len() as u64 - 1;
        if end > LAST_GATE {
            return Err(JournalFault::Full);
        }
        self.stopped = true;
        self.disk.write_at(self.end, &self.batch).map_err(JournalFault::Disk)?;
        self.disk.sync().map_err(JournalFault::Disk)?;
        self.disk.write_at(self.end, &[1]).map_err(JournalFault::Disk)?;
        self.disk.sync().map_err(JournalFault::Disk)?;
        self.stopped = false;
        self.end = end;
        Ok(())
    }

    /// Returns `true` if the disk failed. Every later append is refused.
    pub fn is_stopped(&self) -> bool {
        self.stopped
    }

    /// Gives the disk back.
    pub fn into_disk(self) -> D {
        self.disk
    }
}

/// Returns what a new journal begins with.
fn head_of(member: &Member) -> Result<[u8; HEAD], Fault> {
    check_abi()?;
    let mut head = [0; HEAD];
    let Member { cluster, size: Size { n, t, questions }, me } = *member;
    // SAFETY: the head has its 25 bytes.
    checked(unsafe { sys::bracha_batch_head(cluster, n, t, questions, me, head.as_mut_ptr()) })?;
    Ok(head)
}

/// Puts the bytes of a batch in the place of those that `batch` has.
fn encode(records: &[u8], batch: &mut Vec<u8>) -> Result<(), Fault> {
    check_abi()?;
    let room = 4 + 6 * (records.len() / RECORD);
    batch.clear();
    batch.try_reserve(room).map_err(|_| Fault::Memory)?;
    batch.resize(room, 0);
    let mut written = 0;
    // SAFETY: pointers and lengths are two slices'.
    checked(unsafe {
        sys::bracha_batch_encode(
            records.as_ptr(),
            records.len(),
            batch.as_mut_ptr(),
            room,
            &mut written,
        )
    })?;
    batch.truncate(written);
    Ok(())
}

/// Returns the records of a journal's bytes, and where the next batch is written.
fn records_of(member: &Member, file: &[u8]) -> Result<(Vec<u8>, usize), Fault> {
    check_abi()?;
    let Member { cluster, size: Size { n, t, questions }, me } = *member;
    let room = file.len() / 6 * RECORD;
    let mut records = Vec::new();
    records.try_reserve_exact(room).map_err(|_| Fault::Memory)?;
    records.resize(room, 0);
    let (mut written, mut end) = (0, 0);
    // SAFETY: pointers and lengths are two slices'.
    checked(unsafe {
        sys::bracha_batch_read(
            cluster,
            n,
            t,
            questions,
            me,
            file.as_ptr(),
            file.len(),
            records.as_mut_ptr(),
            room,
            &mut written,
            &mut end,
        )
    })?;
    records.truncate(written);
    Ok((records, end))
}
