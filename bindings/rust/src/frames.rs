//! Frames, as `bracha run` speaks them over TCP, and the feeder that reads them.

use crate::fault::{Fault, check_abi, checked};
use crate::machine::ROOM;
use crate::statement::{RECORD, Size, Statement, Statements};
use crate::sys;
use alloc::boxed::Box;

/// The longest frame: 99 statements.
pub const FRAME_ROOM: usize = 697;

/// The frame of an Idle: a sign of life, once a second if a link has nothing to send.
pub const IDLE: [u8; 3] = [0, 1, 0];

/// The greeting with which member `from` begins a session of its link to member `to`.
#[derive(Clone, Copy, Debug, PartialEq, Eq, Hash)]
pub struct Hello {
    /// The version of the wire, 1 or 2.
    pub version: u8,
    /// The number of the cluster.
    pub cluster: u64,
    /// The size of the cluster.
    pub size: Size,
    /// The member whose statements the link carries.
    pub from: u8,
    /// The member that hears them.
    pub to: u8,
}

impl Hello {
    /// Returns the frame.
    ///
    /// # Errors
    ///
    /// [`Fault::OtherAbi`], an error of the size, [`Fault::BadVersion`], [`Fault::NoSuchMember`].
    pub fn frame(&self) -> Result<[u8; 18], Fault> {
        check_abi()?;
        let mut frame = [0; 18];
        let Size { n, t, questions } = self.size;
        // SAFETY: the frame has its 18 bytes.
        checked(unsafe {
            sys::bracha_encode_hello(
                self.version,
                self.cluster,
                n,
                t,
                questions,
                self.from,
                self.to,
                frame.as_mut_ptr(),
            )
        })?;
        Ok(frame)
    }

    /// Returns the Hello of its 15 bytes, which a feeder has read.
    fn of(body: &[u8; ROOM]) -> Hello {
        let [version, c0, c1, c2, c3, c4, c5, c6, c7, n, t, q0, q1, from, to, ..] = *body;
        Hello {
            version,
            cluster: u64::from_be_bytes([c0, c1, c2, c3, c4, c5, c6, c7]),
            size: Size { n, t, questions: u16::from_be_bytes([q0, q1]) },
            from,
            to,
        }
    }
}

/// Returns the frame of an Idle as the library writes it: always [`IDLE`].
///
/// # Errors
///
/// [`Fault::OtherAbi`].
pub fn idle_frame() -> Result<[u8; 3], Fault> {
    check_abi()?;
    let mut frame = [0; 3];
    // SAFETY: the frame has its 3 bytes.
    unsafe { sys::bracha_encode_idle(frame.as_mut_ptr()) }
    Ok(frame)
}

/// Returns the frame of a Welcome, the reply to a Hello: how many statements of that link this
/// member has heard since it was opened.
///
/// # Errors
///
/// [`Fault::OtherAbi`].
pub fn welcome_frame(next: u64) -> Result<[u8; 11], Fault> {
    check_abi()?;
    let mut frame = [0; 11];
    // SAFETY: the frame has its 11 bytes.
    unsafe { sys::bracha_encode_welcome(next, frame.as_mut_ptr()) }
    Ok(frame)
}

/// Returns the frame of one statement, in both versions of the wire.
///
/// ```
/// # use bracha::{Statement, statement_frame};
/// assert_eq!(statement_frame(&Statement([1, 0, 0, 0, 1, 1, 1]))?, [0, 8, 3, 1, 0, 0, 0, 1, 1, 1]);
/// # Ok::<(), bracha::Fault>(())
/// ```
///
/// # Errors
///
/// [`Fault::OtherAbi`], [`Fault::BadStatement`].
pub fn statement_frame(statement: &Statement) -> Result<[u8; 10], Fault> {
    check_abi()?;
    let mut frame = [0; 10];
    // SAFETY: seven bytes are read, and ten are written.
    checked(unsafe { sys::bracha_encode_statement(statement.0.as_ptr(), frame.as_mut_ptr()) })?;
    Ok(frame)
}

/// Writes one frame of 1 to 99 statements, for sessions of version 2, to the front of `frame`, and
/// returns its length.
///
/// # Errors
///
/// [`Fault::OtherAbi`], [`Fault::BadStatement`] (also for none, or more than 99), [`Fault::Memory`].
pub fn statements_frame(
    statements: &[Statement],
    frame: &mut [u8; FRAME_ROOM],
) -> Result<usize, Fault> {
    check_abi()?;
    let mut bytes = [0; ROOM];
    if statements.len() > ROOM / RECORD {
        return Err(Fault::BadStatement);
    }
    for (place, statement) in bytes.chunks_exact_mut(RECORD).zip(statements) {
        place.copy_from_slice(&statement.0);
    }
    let mut written = 0;
    // SAFETY: as many bytes are read as the array has at least, and the frame has its 697.
    checked(unsafe {
        sys::bracha_encode_statements(
            bytes.as_ptr(),
            RECORD * statements.len(),
            frame.as_mut_ptr(),
            &mut written,
        )
    })?;
    Ok(written)
}

/// A message of a link, read by a [`Feeder`].
#[derive(Debug)]
pub enum Message<'a> {
    /// A sign of life.
    Idle,
    /// The first message of a session.
    Hello(Hello),
    /// The reply to it: how many statements were heard.
    Welcome(u64),
    /// The statements of one frame: one, or in version 2 up to 99.
    Statements(Statements<'a>),
}

/// Reads the messages of one connection, whose bytes may be cut anywhere.
///
/// ```
/// use bracha::{Feeder, Message, Size};
///
/// let mut feeder = Feeder::open(Size { n: 4, t: 1, questions: 1 })?;
/// feeder.feed(&[0, 1, 0, 0, 8, 3, 1])?; // an Idle, and the beginning of an Initial
/// assert!(matches!(feeder.next_message(), Some(Message::Idle)));
/// assert!(feeder.next_message().is_none());
/// feeder.feed(&[0, 0, 0, 1, 1, 1])?;
/// let Some(Message::Statements(mut said)) = feeder.next_message() else { panic!() };
/// assert_eq!(said.next(), Some(bracha::Statement([1, 0, 0, 0, 1, 1, 1])));
/// assert_eq!(feeder.feed(&[3]), Err(bracha::Fault::Broken)); // no frame begins so
/// # Ok::<(), bracha::Fault>(())
/// ```
pub struct Feeder {
    handle: sys::Handle,
    body: Box<[u8; ROOM]>,
}

// SAFETY: plain data behind one owner (bracha.h, THREADS).
unsafe impl Send for Feeder {}

impl Feeder {
    /// Opens a feeder for one connection of a cluster of this size.
    ///
    /// # Errors
    ///
    /// [`Fault::OtherAbi`], an error of the size, [`Fault::Memory`].
    pub fn open(size: Size) -> Result<Feeder, Fault> {
        check_abi()?;
        let mut handle = sys::NO_HANDLE;
        let Size { n, t, questions } = size;
        // SAFETY: `handle` is written only with status 0.
        checked(unsafe { sys::bracha_feeder_open(&mut handle, n, t, questions) })?;
        Ok(Feeder { handle, body: Box::new([0; ROOM]) })
    }

    /// Feeds the next bytes of the connection.
    ///
    /// # Errors
    ///
    /// - [`Fault::Broken`]: messages before the wrong byte are still given by
    ///   [`next_message`](Feeder::next_message). Then close the connection; each later call answers
    ///   the same.
    /// - [`Fault::Memory`]: nothing was read. Feed the same bytes again, or close the connection.
    pub fn feed(&mut self, bytes: &[u8]) -> Result<(), Fault> {
        // SAFETY: the handle is open; pointer and length are one slice's.
        checked(unsafe { sys::bracha_feeder_feed(&mut self.handle, bytes.as_ptr(), bytes.len()) })
    }

    /// Takes the next message out, or returns `None` if more bytes are needed. The message fits the
    /// cluster's size; who sent it, and whether it comes in its turn, is for the caller to check.
    pub fn next_message(&mut self) -> Option<Message<'_>> {
        let mut count = 0;
        // SAFETY: the handle is open; the body is the feeder's own 693 bytes.
        let kind = unsafe {
            sys::bracha_feeder_next(&mut self.handle, self.body.as_mut_ptr(), &mut count)
        };
        match kind {
            0 => Some(Message::Idle),
            1 => Some(Message::Hello(Hello::of(&self.body))),
            2 => {
                let [n0, n1, n2, n3, n4, n5, n6, n7, ..] = *self.body;
                Some(Message::Welcome(u64::from_be_bytes([n0, n1, n2, n3, n4, n5, n6, n7])))
            }
            3 => Some(Message::Statements(Statements::of(&self.body[..RECORD * count]))),
            _ => None,
        }
    }
}

impl core::fmt::Debug for Feeder {
    fn fmt(&self, f: &mut core::fmt::Formatter<'_>) -> core::fmt::Result {
        f.write_str("Feeder")
    }
}

impl Drop for Feeder {
    fn drop(&mut self) {
        // SAFETY: the handle was opened, and is closed once.
        unsafe { sys::bracha_feeder_close(self.handle) }
    }
}
