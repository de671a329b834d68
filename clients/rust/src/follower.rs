use crate::Settings;
use crate::course::Course;
use crate::halt::Halt;
use crate::reply::told_in;
use crate::wire::Wire;
use std::io::{self, ErrorKind};
use std::net::SocketAddrV4;
use std::sync::Arc;
use std::sync::atomic::{AtomicU64, Ordering};
use std::time::{Duration, Instant};

/// The time for a connection and its first line.
const BEGIN: Duration = Duration::from_secs(3);

/// The longest time without a line. A member writes one every five seconds.
const SILENCE: Duration = Duration::from_secs(12);

/// The time before another connection to a member that wasn't there.
const REST: Duration = Duration::from_millis(250);

/// The time before another connection to a member that broke the protocol.
const DISTRUST: Duration = Duration::from_secs(5);

/// A connection of a follower, when it began, and how many empty lines came.
struct Link {
    wire: Wire,
    begun: Instant,
    empty: u64,
}

/// The number from which on a follower asks for decisions. It may be lowered until the member has
/// told one.
#[derive(Debug, Clone)]
pub(crate) struct Begin(Arc<AtomicU64>);

impl Begin {
    /// Creates the beginning at this number.
    pub(crate) fn new(number: u64) -> Begin {
        Begin(Arc::new(AtomicU64::new(number)))
    }

    /// Lowers the number, if it is higher. Returns `true` if it was.
    pub(crate) fn lower(&self, number: u64) -> bool {
        number < self.0.fetch_min(number, Ordering::SeqCst)
    }

    fn number(&self) -> u64 {
        self.0.load(Ordering::SeqCst)
    }

    /// Lets nobody lower it any more.
    fn fix(&self) {
        self.0.store(0, Ordering::SeqCst);
    }
}

/// A decision that a member told, with its number.
pub(crate) struct Told {
    pub(crate) number: u64,
    pub(crate) question: u64,
    pub(crate) bit: bool,
}

/// One member's decisions from a number on, over any number of connections.
pub(crate) struct Follower {
    desk: SocketAddrV4,
    settings: Settings,
    begin: Begin,
    course: Course,
    has_told: bool,
    link: Option<Link>,
}

impl Follower {
    /// Creates a follower of this member. Nothing is sent.
    pub(crate) fn new(settings: &Settings, member: usize, begin: Begin) -> Follower {
        let (desk, settings) = (settings.desks()[member], settings.clone());
        let course = Course::new(&settings, begin.number());
        Follower { desk, settings, begin, course, has_told: false, link: None }
    }

    /// Returns the next decision, or `None` once the thread has to end. A member that breaks the
    /// protocol is left alone for a while.
    pub(crate) fn next(&mut self, halt: &Halt) -> Option<Told> {
        while !halt.is_halted() {
            match self.told(halt) {
                Ok(told) => return Some(told),
                Err(error) => {
                    self.link = None;
                    halt.release();
                    let lies = error.kind() == ErrorKind::InvalidData;
                    halt.rest(if lies { DISTRUST } else { REST });
                }
            }
        }
        None
    }

    /// Returns what the next line tells that isn't empty. [`ErrorKind::InvalidData`]: it isn't of
    /// the protocol, tells what a correct member doesn't, or empty lines come too often.
    fn told(&mut self, halt: &Halt) -> io::Result<Told> {
        if self.link.is_none() {
            self.link = Some(self.connect(halt)?);
        }
        let Some(link) = &mut self.link else { return Err(ErrorKind::NotConnected.into()) };
        let (question, bit) = link.told()?;
        let number = self.course.take(question).ok_or(ErrorKind::InvalidData)?;
        if !self.has_told {
            self.has_told = true;
            self.begin.fix();
        }
        Ok(Told { number, question, bit })
    }

    fn connect(&mut self, halt: &Halt) -> io::Result<Link> {
        let deadline = Instant::now() + BEGIN;
        let mut wire = Wire::connect(self.desk, deadline)?;
        // Who lowers the beginning after this cuts the stream.
        halt.hold(wire.stream())?;
        if !self.has_told {
            self.course = Course::new(&self.settings, self.begin.number());
        }
        let line = format!("FOLLOW {}\n", self.course.begin());
        wire.write(line.as_bytes(), deadline)?;
        Ok(Link { wire, begun: Instant::now(), empty: 0 })
    }
}

impl Link {
    /// Returns the question and the bit of the next line that isn't empty.
    fn told(&mut self) -> io::Result<(u64, bool)> {
        loop {
            let line = self.wire.line(Instant::now() + SILENCE)?;
            if !line.is_empty() {
                return told_in(&line).ok_or_else(|| ErrorKind::InvalidData.into());
            }
            self.empty += 1;
            if self.empty > 3 + self.begun.elapsed().as_secs() / 4 {
                return Err(ErrorKind::InvalidData.into());
            }
        }
    }
}
