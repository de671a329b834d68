use std::io::{self, ErrorKind, Read, Write};
use std::net::{SocketAddrV4, TcpStream};
use std::time::{Duration, Instant};

/// The longest time for a connection. A cluster that is dropped waits for it.
const CONNECT: Duration = Duration::from_secs(1);

/// The most bytes of a line.
const LONGEST: usize = 4096;

/// A connection to a desk, read by lines. Each call has a deadline of its own.
pub(crate) struct Wire {
    stream: TcpStream,
    read: Vec<u8>,
}

/// Returns the time until the deadline.
fn left(deadline: Instant) -> io::Result<Duration> {
    let left = deadline.saturating_duration_since(Instant::now());
    if left.is_zero() { Err(ErrorKind::TimedOut.into()) } else { Ok(left) }
}

impl Wire {
    /// Connects to a desk.
    pub(crate) fn connect(desk: SocketAddrV4, deadline: Instant) -> io::Result<Wire> {
        let stream = TcpStream::connect_timeout(&desk.into(), left(deadline)?.min(CONNECT))?;
        stream.set_nodelay(true)?;
        Ok(Wire { stream, read: Vec::new() })
    }

    /// Returns the stream.
    pub(crate) fn stream(&self) -> &TcpStream {
        &self.stream
    }

    /// Returns `true` if bytes were read that no call has returned.
    pub(crate) fn has_more(&self) -> bool {
        !self.read.is_empty()
    }

    /// Writes all of the bytes.
    pub(crate) fn write(&mut self, mut bytes: &[u8], deadline: Instant) -> io::Result<()> {
        while !bytes.is_empty() {
            self.stream.set_write_timeout(Some(left(deadline)?))?;
            match self.stream.write(bytes) {
                Ok(0) => return Err(ErrorKind::WriteZero.into()),
                Ok(count) => bytes = &bytes[count..],
                Err(error) if error.kind() == ErrorKind::Interrupted => {}
                Err(error) => return Err(error),
            }
        }
        Ok(())
    }

    /// Returns the next line without its end.
    ///
    /// # Errors
    ///
    /// - [`ErrorKind::TimedOut`] or [`ErrorKind::WouldBlock`] if it doesn't come in time;
    /// - [`ErrorKind::InvalidData`] if it is longer than 4,096 bytes;
    /// - any other of the stream, [`ErrorKind::UnexpectedEof`] at its end.
    pub(crate) fn line(&mut self, deadline: Instant) -> io::Result<Vec<u8>> {
        let mut searched = 0;
        loop {
            if let Some(end) = self.read[searched..].iter().position(|byte| *byte == b'\n') {
                let rest = self.read.split_off(searched + end + 1);
                let mut line = std::mem::replace(&mut self.read, rest);
                line.pop();
                return Ok(line);
            }
            searched = self.read.len();
            if searched > LONGEST {
                return Err(ErrorKind::InvalidData.into());
            }
            self.fill(deadline)?;
        }
    }

    /// Reads what has come, at least a byte.
    fn fill(&mut self, deadline: Instant) -> io::Result<()> {
        let mut chunk = [0; LONGEST];
        loop {
            self.stream.set_read_timeout(Some(left(deadline)?))?;
            match self.stream.read(&mut chunk) {
                Ok(0) => return Err(ErrorKind::UnexpectedEof.into()),
                Ok(count) => {
                    self.read.extend_from_slice(&chunk[..count]);
                    return Ok(());
                }
                Err(error) if error.kind() == ErrorKind::Interrupted => {}
                Err(error) => return Err(error),
            }
        }
    }
}
