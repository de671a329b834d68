//! Journals in files.

use crate::journal::{Disk, Journal, JournalFault, Opened};
use crate::statement::Member;
use std::fs::{File, OpenOptions, TryLockError};
use std::io;
use std::os::unix::fs::FileExt;
use std::path::Path;
use std::vec::Vec;

impl Disk for File {
    type Error = io::Error;

    fn write_at(&mut self, at: u64, bytes: &[u8]) -> io::Result<()> {
        self.write_all_at(bytes, at)
    }

    fn sync(&mut self) -> io::Result<()> {
        self.sync_all()
    }
}

/// Locks a file as `bracha run` does, so that one process at a time has the journal.
fn lock(file: &File) -> io::Result<()> {
    file.try_lock().map_err(|fault| match fault {
        TryLockError::WouldBlock => io::Error::other("the journal is open in another process"),
        TryLockError::Error(error) => error,
    })
}

impl Journal<File> {
    /// Creates the journal of a new member in a file that isn't there yet, as `bracha init` does,
    /// and syncs the file and its folder. Only ever create it once: a member whose journal is lost
    /// must not run again.
    ///
    /// # Errors
    ///
    /// [`JournalFault::Disk`] if there is a file already, or a call of the system failed;
    /// [`JournalFault::Library`].
    pub fn create_file(
        path: &Path,
        member: &Member,
    ) -> Result<Journal<File>, JournalFault<io::Error>> {
        let open = || {
            let file = OpenOptions::new().read(true).write(true).create_new(true).open(path)?;
            lock(&file)?;
            Ok(file)
        };
        let journal = Journal::create(open().map_err(JournalFault::Disk)?, member)?;
        let folder = match path.parent() {
            Some(folder) if !folder.as_os_str().is_empty() => folder,
            _ => Path::new("."),
        };
        File::open(folder).and_then(|folder| folder.sync_all()).map_err(JournalFault::Disk)?;
        Ok(journal)
    }

    /// Opens the journal of a member that ran before, and returns its records with it. It also
    /// opens one that `bracha init` or `bracha run` left.
    ///
    /// # Errors
    ///
    /// [`JournalFault::Disk`] if there is no file, another process has it, or a call of the system
    /// failed; [`JournalFault::Library`], as in [`open`](Journal::open).
    pub fn open_file(
        path: &Path,
        member: &Member,
    ) -> Result<Opened<File>, JournalFault<io::Error>> {
        let read = || {
            let file = OpenOptions::new().read(true).write(true).open(path)?;
            lock(&file)?;
            let mut bytes = Vec::new();
            io::Read::read_to_end(&mut &file, &mut bytes)?;
            Ok((file, bytes))
        };
        let (file, bytes) = read().map_err(JournalFault::Disk)?;
        Journal::open(file, member, &bytes)
    }
}
