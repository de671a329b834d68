use crate::cluster::PATIENCE;
use crate::halt::Halt;
use crate::wire::Wire;
use std::collections::VecDeque;
use std::io::ErrorKind;
use std::net::SocketAddrV4;
use std::sync::mpsc::Receiver;
use std::time::{Duration, Instant};

/// The most lines that are under way on one connection.
const UNDER_WAY: usize = 256;

/// The longest time before lines that came meanwhile are sent, and jobs whose deadline has passed
/// are answered.
const TURN: Duration = Duration::from_millis(100);

/// A member's reply to a line, or `None` if it gave none in time.
pub(crate) type Reply = Option<Vec<u8>>;

/// A line to a member's desk, and what its reply is given to.
pub(crate) struct Job {
    line: String,
    deadline: Instant,
    /// `None` once it was called.
    reply: Option<Box<dyn FnOnce(Reply) + Send>>,
    /// The time at which the line was sent on the connection that there is.
    sent: Option<Instant>,
}

impl Job {
    /// Creates the job of a line, without its end, whose reply is waited for until the deadline.
    /// `reply` is called once by the member's thread, or dropped if the cluster is.
    pub(crate) fn new(
        line: &str,
        deadline: Instant,
        reply: impl FnOnce(Reply) + Send + 'static,
    ) -> Job {
        Job { line: line.to_string(), deadline, reply: Some(Box::new(reply)), sent: None }
    }

    /// Gives its reply, unless it has had one.
    fn answer(&mut self, reply: Reply) {
        if let Some(give) = self.reply.take() {
            give(reply);
        }
    }

    /// Returns `true` if the line was sent too long ago for a reply.
    fn is_stuck(&self) -> bool {
        self.sent.is_some_and(|sent| sent.elapsed() >= PATIENCE)
    }
}

/// One member's desk, over a connection that is kept, and made anew if it ended.
pub(crate) struct Line<'a> {
    desk: SocketAddrV4,
    halt: &'a Halt,
    wire: Option<Wire>,
    /// Jobs in the order of their lines, of which the first `sent` are under way. One of these whose
    /// deadline has passed was answered: its reply is still read, and dropped.
    jobs: VecDeque<Job>,
    sent: usize,
    /// The time of the last reply, or at which the first line under way was sent if that was later.
    heard: Instant,
    /// Whether the connection has given a reply.
    has_replied: bool,
}

impl<'a> Line<'a> {
    /// Creates a member's desk. Nothing is sent.
    pub(crate) fn new(desk: SocketAddrV4, halt: &'a Halt) -> Line<'a> {
        let (jobs, heard) = (VecDeque::new(), Instant::now());
        Line { desk, halt, wire: None, jobs, sent: 0, heard, has_replied: false }
    }

    /// Does all jobs that come, until nobody can hand in more.
    pub(crate) fn serve(&mut self, jobs: &Receiver<Job>) {
        while let Ok(job) = jobs.recv() {
            self.jobs.push_back(job);
            while !self.jobs.is_empty() && !self.halt.is_halted() {
                self.jobs.extend(jobs.try_iter());
                self.turn();
            }
            self.jobs.clear();
        }
    }

    /// Sends what isn't sent, and takes one reply if it comes soon. A kept connection may have ended
    /// unnoticed: then the lines are sent once more on a new one, which does no harm.
    fn turn(&mut self) {
        self.expire();
        if self.jobs.is_empty() {
            return;
        }
        if self.connect().is_err() {
            // All that wait share the try. Those that come from now on have another.
            self.jobs.drain(..).for_each(|mut job| job.answer(None));
            return;
        }
        match self.exchange() {
            Ok(reply) => {
                self.has_replied = true;
                self.answer(Some(reply));
            }
            Err(error) => {
                let late = matches!(error.kind(), ErrorKind::TimedOut | ErrorKind::WouldBlock);
                if late && self.heard.elapsed() < PATIENCE {
                    return; // the reply may still come
                }
                let kept = self.has_replied;
                self.disconnect();
                if !late && !kept {
                    self.answer(None);
                }
            }
        }
    }

    /// Answers the jobs whose deadline has passed. Those that aren't under way are removed.
    fn expire(&mut self) {
        let (now, under_way) = (Instant::now(), self.sent);
        let mut place = 0;
        self.jobs.retain_mut(|job| {
            place += 1;
            if job.deadline <= now {
                job.answer(None);
            }
            job.reply.is_some() || place <= under_way
        });
    }

    fn connect(&mut self) -> std::io::Result<()> {
        // A member that wrote more than replies breaks the protocol.
        if self.sent == 0 && self.wire.as_ref().is_some_and(Wire::has_more) {
            self.disconnect();
        }
        if self.wire.is_none() {
            let wire = Wire::connect(self.desk, Instant::now() + PATIENCE)?;
            self.halt.hold(wire.stream())?;
            self.wire = Some(wire);
        }
        Ok(())
    }

    /// Ends the connection. Jobs that are stuck have no reply, and the others are to be sent again.
    fn disconnect(&mut self) {
        self.wire = None;
        self.sent = 0;
        self.has_replied = false;
        self.halt.release();
        self.jobs.retain_mut(|job| {
            if job.is_stuck() {
                job.answer(None);
            }
            job.sent = None;
            job.reply.is_some()
        });
    }

    /// Sends what isn't sent, and returns the next reply.
    ///
    /// # Errors
    ///
    /// - [`ErrorKind::TimedOut`] or [`ErrorKind::WouldBlock`] if it doesn't come within this turn;
    /// - any other if the connection can't be used any more.
    fn exchange(&mut self) -> std::io::Result<Vec<u8>> {
        let Some(wire) = &mut self.wire else { return Err(ErrorKind::NotConnected.into()) };
        let now = Instant::now();
        if self.sent == 0 {
            self.heard = now;
        }
        let end = self.heard + PATIENCE;
        let count = self.jobs.len().min(UNDER_WAY);
        if self.sent < count {
            let mut text = String::new();
            for job in self.jobs.range_mut(self.sent..count) {
                text += &job.line;
                text.push('\n');
                job.sent = Some(now);
            }
            // Nothing can follow a line that was sent in part.
            wire.write(text.as_bytes(), end).map_err(|_| ErrorKind::BrokenPipe)?;
            self.sent = count;
        }
        wire.line(end.min(now + TURN))
    }

    /// Gives the first job its reply.
    fn answer(&mut self, reply: Reply) {
        self.heard = Instant::now();
        self.sent = self.sent.saturating_sub(1);
        if let Some(mut job) = self.jobs.pop_front() {
            job.answer(reply);
        }
    }
}
