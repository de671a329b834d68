//! member [--create] [--wire 1] SETTINGS: one member of a cluster, built from the library alone. It
//! decides together with processes of `bracha run`, over TCP, with its own journal and the settings
//! that `bracha new-cluster` wrote:
//!
//!     bracha new-cluster --n 4 --t 1 --questions 64 --cluster 7 mine && cd mine
//!     for m in 0 1 2; do bracha init member-$m.toml; bracha run --stay member-$m.toml & done
//!     cargo run --example member -- --create member-3.toml
//!     0 1                       # proposes 1 for question 0; the others: bracha propose ADDRESS 0 1
//!
//! `--create` makes a new journal first; without it the member goes on with the one that is there,
//! also with one of `bracha run`. `--wire 1` speaks version 1 of the wire alone. Once standard
//! input has ended, the member ends as soon as each question that was proposed to it is decided,
//! with status 0; or after 60 seconds, with status 1.
//!
//! The order, for each event: hear, save and sync (`Member::settle`), then send (writers see only
//! what `settle` has put into the outbox). docs/FORMATS.md has the sessions of links. Three things
//! that `bracha run` does are left out here: it listens before it speaks, it paces members that run
//! ahead, and it answers clients.

use bracha::{
    Core, Decision, FRAME_ROOM, Fault, Feeder, Hello, IDLE, Journal, Message, Outcome, Size,
    Statement, Statements, Toss, decisions, statement_frame, statements_frame, welcome_frame,
};
use std::error::Error;
use std::fs::File;
use std::io::{self, Read, Write};
use std::net::{SocketAddr, TcpListener, TcpStream};
use std::path::Path;
use std::sync::{Condvar, Mutex, MutexGuard};
use std::thread;
use std::time::{Duration, Instant};

type Failed = Box<dyn Error + Send + Sync>;

/// What is in a member's settings, but for the desk.
struct Settings {
    member: bracha::Member,
    journal: String,
    peers: Vec<SocketAddr>,
    seed: [u8; 32],
    /// The greatest version of the wire that this member speaks.
    wire: u8,
}

/// Returns the value of a key: what stands behind `KEY = ` on its line.
fn value<'a>(text: &'a str, key: &str) -> Result<&'a str, Failed> {
    let line = text.lines().find_map(|line| line.strip_prefix(key)?.trim_start().strip_prefix('='));
    Ok(line.ok_or_else(|| format!("the settings have no {key}"))?.trim())
}

/// Returns the 32 bytes of 64 hexadecimal digits in quotes.
fn seed(text: &str) -> Result<[u8; 32], Failed> {
    let digits = text.trim_matches('"');
    let mut seed = [0; 32];
    for (at, byte) in seed.iter_mut().enumerate() {
        *byte = u8::from_str_radix(digits.get(2 * at..2 * at + 2).ok_or("the seed is short")?, 16)?;
    }
    Ok(seed)
}

/// Reads settings as `bracha new-cluster` writes them. (A real program has a reader of TOML.)
fn settings(text: &str, wire: u8) -> Result<Settings, Failed> {
    let size = Size {
        n: value(text, "n")?.parse()?,
        t: value(text, "t")?.parse()?,
        questions: value(text, "questions")?.parse()?,
    };
    let member = bracha::Member {
        cluster: value(text, "cluster")?.parse()?,
        size,
        me: value(text, "me")?.parse()?,
    };
    let list = text.split_once("peers = [").and_then(|(_, rest)| rest.split_once(']'));
    let (list, _) = list.ok_or("the settings have no peers")?;
    let peers = list
        .split('"')
        .skip(1)
        .step_by(2)
        .map(|peer| peer.replace("localhost", "127.0.0.1").parse());
    let peers: Vec<SocketAddr> = peers.collect::<Result<_, _>>()?;
    if peers.len() != usize::from(size.n) || member.me >= size.n {
        return Err("the settings name other than n peers, or me isn't below n".into());
    }
    let journal = value(text, "journal")?.trim_matches('"').to_owned();
    Ok(Settings { member, journal, peers, seed: seed(value(text, "seed")?)?, wire })
}

/// What the threads share, behind one lock.
struct State {
    core: Core,
    journal: Journal<File>,
    /// The statements of all saved records, by number: only they are sent.
    outbox: Vec<Statement>,
    /// How many statements of each member were heard since this start: the number of a Welcome.
    heard: Vec<u64>,
    /// Which peers have heard more of this member than its journal holds.
    ahead: Vec<bool>,
}

struct Member {
    settings: Settings,
    state: Mutex<State>,
    /// Rings when the outbox has grown.
    bell: Condvar,
    /// The tosses of each link; who has the lock has the link's session.
    links: Vec<Mutex<Toss>>,
}

impl Member {
    fn open(settings: Settings, create: bool) -> Result<Member, Failed> {
        let path = Path::new(&settings.journal);
        if create {
            let created = Journal::create_file(path, &settings.member);
            created.map_err(|fault| format!("{}: {fault}", path.display()))?;
        }
        let opened = Journal::open_file(path, &settings.member);
        let (journal, records) = opened.map_err(|fault| format!("{}: {fault}", path.display()))?;
        let size = settings.member.size;
        let core = Core::open(size, settings.member.me, &records)?;
        for (question, decision) in decisions(&records) {
            println!("{}, before this start", told(question, decision));
        }
        let outbox = Statements::of(&records).collect();
        let members = usize::from(size.n);
        // Each life and each link has a stream of its own.
        let life = 256 * (records.len() as u64 / 7);
        let links = (0..u64::from(size.n))
            .map(|peer| Toss::open(&settings.seed, life + peer).map(Mutex::new));
        let links = links.collect::<Result<Vec<_>, _>>()?;
        let (heard, ahead) = (vec![0; members], vec![false; members]);
        let state = Mutex::new(State { core, journal, outbox, heard, ahead });
        Ok(Member { settings, state, bell: Condvar::new(), links })
    }

    fn state(&self) -> MutexGuard<'_, State> {
        self.state.lock().expect("no thread panics")
    }

    fn me(&self) -> u8 {
        self.settings.member.me
    }

    /// Saves the records and only then puts their statements into the outbox; hears them itself,
    /// which may bring more records, until none are due.
    fn settle(
        &self,
        state: &mut State,
        mut records: Vec<u8>,
        toss: &mut Toss,
    ) -> Result<(), Failed> {
        while !records.is_empty() {
            state.journal.append(&records)?; // two writes, each synced
            let said: Vec<Statement> = Statements::of(&records).collect();
            state.outbox.extend_from_slice(&said);
            for (question, decision) in decisions(&records) {
                println!("{}", told(question, decision));
            }
            records.clear();
            for own in &said {
                records.extend_from_slice(state.core.hear(self.me(), own, toss.draw())?.records());
            }
        }
        self.bell.notify_all();
        Ok(())
    }

    /// Hears again what this member said in earlier lives.
    fn recall(&self) -> Result<(), Failed> {
        let mut toss = self.links[usize::from(self.me())].lock().expect("no thread panics");
        let mut state = self.state();
        let mut records = Vec::new();
        for own in state.outbox.clone() {
            records.extend_from_slice(state.core.hear(self.me(), &own, toss.draw())?.records());
        }
        self.settle(&mut state, records, &mut toss)
    }

    /// Hears statements of a link, and saves all that they bring as one batch.
    fn hear(&self, from: u8, said: &[Statement], toss: &mut Toss) -> Result<(), Failed> {
        let mut state = self.state();
        let mut records = Vec::new();
        for statement in said {
            records.extend_from_slice(state.core.hear(from, statement, toss.draw())?.records());
        }
        self.settle(&mut state, records, toss)?;
        state.heard[usize::from(from)] += said.len() as u64;
        Ok(())
    }

    fn propose(&self, question: u16, bit: bool) -> Result<Outcome, Failed> {
        let mut toss = self.links[usize::from(self.me())].lock().expect("no thread panics");
        let mut state = self.state();
        let answer = state.core.propose(question, bit, toss.draw())?;
        let (outcome, records) = (answer.outcome(), answer.records().to_vec());
        self.settle(&mut state, records, &mut toss)?;
        Ok(outcome)
    }
}

fn told(question: u16, decision: Decision) -> String {
    let Decision { round, bit } = decision;
    format!("question {question}: decided {} in round {round}", u8::from(bit))
}

/// Ends the process if the member can't go on: its journal failed, memory ran out, it has forgotten
/// what it said, or it never could start.
fn need<T>(done: Result<T, Failed>) -> T {
    done.unwrap_or_else(|fault| {
        eprintln!("member: {fault}");
        std::process::exit(1)
    })
}

fn broken(why: &str) -> io::Error {
    io::Error::other(why.to_owned())
}

/// Reads until the first message is whole, at most as many bytes as it has.
fn first_message<T>(
    stream: &mut TcpStream,
    feeder: &mut Feeder,
    length: usize,
    take: impl Fn(Message<'_>) -> Option<T>,
) -> io::Result<T> {
    let mut bytes = [0; 18];
    let mut left = length;
    loop {
        let read = stream.read(&mut bytes[..left])?;
        if read == 0 {
            return Err(io::ErrorKind::UnexpectedEof.into());
        }
        left -= read;
        feeder.feed(&bytes[..read]).map_err(io::Error::other)?;
        if let Some(message) = feeder.next_message() {
            return take(message).ok_or_else(|| broken("out of order"));
        }
        if left == 0 {
            return Err(broken("out of order"));
        }
    }
}

/// Reads a peer's Hello, and checks that it is meant for this member and comes from its host.
fn greet(member: &Member, stream: &mut TcpStream, feeder: &mut Feeder) -> io::Result<Hello> {
    stream.set_read_timeout(Some(Duration::from_secs(10)))?;
    let hello = first_message(stream, feeder, 18, |message| match message {
        Message::Hello(hello) => Some(hello),
        _ => None,
    })?;
    let own = &member.settings.member;
    let host = stream.peer_addr()?.ip();
    if hello.cluster != own.cluster
        || hello.to != own.me
        || hello.from == own.me
        || hello.version > member.settings.wire
        || host != member.settings.peers[usize::from(hello.from)].ip()
    {
        return Err(broken("a stranger"));
    }
    Ok(hello)
}

/// Waits at most half a second until no other session of the peer is read.
fn seat(member: &Member, peer: u8) -> io::Result<MutexGuard<'_, Toss>> {
    for _ in 0..50 {
        if let Ok(toss) = member.links[usize::from(peer)].try_lock() {
            return Ok(toss);
        }
        thread::sleep(Duration::from_millis(10));
    }
    Err(broken("busy"))
}

/// Serves a session of a link from a peer: Hello, Welcome, statements.
fn read_link(member: &Member, mut stream: TcpStream) -> io::Result<()> {
    let mut feeder = Feeder::open(member.settings.member.size).map_err(io::Error::other)?;
    let hello = greet(member, &mut stream, &mut feeder)?;
    let mut toss = seat(member, hello.from)?;
    let next = member.state().heard[usize::from(hello.from)];
    stream.write_all(&welcome_frame(next).map_err(io::Error::other)?)?;
    stream.set_read_timeout(Some(Duration::from_millis(2500)))?;
    let mut bytes = [0; 4096];
    loop {
        let read = stream.read(&mut bytes)?;
        if read == 0 {
            return Ok(());
        }
        let fed = feeder.feed(&bytes[..read]);
        let said = statements(&mut feeder, hello.version)?;
        need(member.hear(hello.from, &said, &mut toss));
        fed.map_err(io::Error::other)?;
    }
}

/// Takes the statements out of a feeder. Anything else but an Idle is out of order.
fn statements(feeder: &mut Feeder, version: u8) -> io::Result<Vec<Statement>> {
    let mut all = Vec::new();
    while let Some(message) = feeder.next_message() {
        match message {
            Message::Idle => {}
            Message::Statements(said) => {
                let before = all.len();
                all.extend(said);
                if version == 1 && all.len() > before + 1 {
                    return Err(broken("out of order"));
                }
            }
            _ => return Err(broken("out of order")),
        }
    }
    Ok(all)
}

/// What a session to a peer came to before it ended.
enum Ended {
    /// The peer closed it before its Welcome.
    Refused,
    /// Nobody listens, or nothing came.
    Lost,
    Welcomed,
}

/// Dials a peer, says Hello, and sends the statements from the Welcome's number on.
fn write_link(member: &Member, peer: u8, version: u8) -> Ended {
    let address = member.settings.peers[usize::from(peer)];
    let Ok(mut stream) = TcpStream::connect_timeout(&address, Duration::from_secs(1)) else {
        return Ended::Lost;
    };
    match open_session(member, &mut stream, peer, version) {
        Ok(next) => {
            note_ahead(member, peer, next);
            let _ended = write_statements(member, &mut stream, next, version);
            Ended::Welcomed
        }
        Err(fault) if fault.kind() == io::ErrorKind::UnexpectedEof => Ended::Refused,
        Err(fault) if fault.kind() == io::ErrorKind::ConnectionReset => Ended::Refused,
        Err(_) => Ended::Lost,
    }
}

/// Says Hello, and returns the number of the Welcome.
fn open_session(member: &Member, stream: &mut TcpStream, peer: u8, version: u8) -> io::Result<u64> {
    stream.set_nodelay(true)?;
    stream.set_write_timeout(Some(Duration::from_secs(10)))?;
    stream.set_read_timeout(Some(Duration::from_secs(4)))?;
    let bracha::Member { cluster, size, me } = member.settings.member;
    let hello = Hello { version, cluster, size, from: me, to: peer };
    stream.write_all(&hello.frame().map_err(io::Error::other)?)?;
    let mut feeder = Feeder::open(size).map_err(io::Error::other)?;
    first_message(stream, &mut feeder, 11, |message| match message {
        Message::Welcome(next) => Some(next),
        _ => None,
    })
}

/// Stops a member of which more than t peers have heard more than its journal holds: it has
/// forgotten what it said.
fn note_ahead(member: &Member, peer: u8, next: u64) {
    let mut state = member.state();
    let is_ahead = next > state.outbox.len() as u64;
    state.ahead[usize::from(peer)] = is_ahead;
    let many = state.ahead.iter().filter(|ahead| **ahead).count();
    if many > usize::from(member.settings.member.size.t) {
        need(Err::<(), Failed>(
            "peers have heard more than the journal holds: never run it again".into(),
        ));
    }
}

/// Sends what the outbox has from a number on, and what it gets; an Idle after a second without
/// anything.
fn write_statements(
    member: &Member,
    stream: &mut TcpStream,
    next: u64,
    version: u8,
) -> io::Result<()> {
    let mut at = usize::try_from(next).map_err(io::Error::other)?;
    loop {
        let due = wait_for(member, at, if version == 1 { 1 } else { 99 });
        if due.is_empty() {
            stream.write_all(&IDLE)?;
        } else {
            stream.write_all(&frame_of(&due).map_err(io::Error::other)?)?;
        }
        at += due.len();
    }
}

/// Returns the statements from a number on, at most so many, or none if there are none after a
/// second.
fn wait_for(member: &Member, at: usize, most: usize) -> Vec<Statement> {
    let state = member.state();
    let (state, _) = member
        .bell
        .wait_timeout_while(state, Duration::from_secs(1), |state| state.outbox.len() <= at)
        .expect("no thread panics");
    state.outbox.iter().skip(at).take(most).copied().collect()
}

/// Returns the frame of one statement, or of several.
fn frame_of(due: &[Statement]) -> Result<Vec<u8>, Fault> {
    if let [one] = due {
        return Ok(statement_frame(one)?.to_vec());
    }
    let mut frame = [0; FRAME_ROOM];
    let length = statements_frame(due, &mut frame)?;
    Ok(frame[..length].to_vec())
}

/// Keeps a link to a peer: redials at most once a second. A peer that closes before its Welcome may
/// not know the version.
fn keep_link(member: &Member, peer: u8) {
    let mut version = member.settings.wire;
    loop {
        let began = Instant::now();
        if let Ended::Refused = write_link(member, peer, version)
            && member.settings.wire == 2
        {
            version = 3 - version;
        }
        thread::sleep(Duration::from_secs(1).saturating_sub(began.elapsed()));
    }
}

/// Takes proposals, `QUESTION BIT` a line, until standard input ends. Returns their questions.
fn take_proposals(member: &Member) -> Vec<u16> {
    let mut asked = Vec::new();
    for line in io::stdin().lines().map_while(Result::ok) {
        let words: Vec<u16> = line.split_whitespace().map_while(|word| word.parse().ok()).collect();
        let [question, bit @ 0..=1] = words[..] else {
            eprintln!("member: say QUESTION BIT, as in 0 1, and not {line}");
            continue;
        };
        if question >= member.settings.member.size.questions {
            eprintln!("member: there is no question {question}");
            continue;
        }
        match need(member.propose(question, bit == 1)) {
            Outcome::Have(before) => {
                println!("question {question}: {} was proposed before", u8::from(before))
            }
            _ => println!("question {question}: proposed {bit}"),
        }
        asked.push(question);
    }
    asked
}

/// Waits at most a minute until all these questions are decided, and then a second, so that the
/// peers hear of it.
fn await_decisions(member: &Member, asked: &[u16]) -> Result<(), Failed> {
    let until = Instant::now() + Duration::from_secs(60);
    while !asked.iter().all(|question| member.state().core.verdict(*question).is_some()) {
        if Instant::now() > until {
            return Err("a question is still undecided after a minute".into());
        }
        thread::sleep(Duration::from_millis(50));
    }
    thread::sleep(Duration::from_secs(1));
    Ok(())
}

fn start() -> Result<&'static Member, Failed> {
    let (mut create, mut wire, mut path) = (false, 2, None);
    let mut words = std::env::args().skip(1);
    while let Some(word) = words.next() {
        match word.as_str() {
            "--create" => create = true,
            "--wire" => {
                wire = words.next().and_then(|word| word.parse().ok()).unwrap_or(2).clamp(1, 2)
            }
            _ => path = Some(word),
        }
    }
    let path = path.ok_or("usage: member [--create] [--wire 1] SETTINGS")?;
    let text = std::fs::read_to_string(&path).map_err(|fault| format!("{path}: {fault}"))?;
    let member = Member::open(settings(&text, wire)?, create)?;
    member.recall()?;
    Ok(Box::leak(Box::new(member))) // it lives as long as the process
}

/// Takes the other members' links, each on a thread of its own.
fn accept(member: &'static Member, listener: &TcpListener) {
    for stream in listener.incoming() {
        match stream {
            Ok(stream) => drop(thread::spawn(move || read_link(member, stream))),
            Err(_) => thread::sleep(Duration::from_millis(100)), // too many files are open, say
        }
    }
}

fn run() -> Result<(), Failed> {
    let member = start()?;
    let own = usize::from(member.me());
    let address = member.settings.peers[own];
    let listener = TcpListener::bind(address).map_err(|fault| format!("{address}: {fault}"))?;
    thread::spawn(move || accept(member, &listener));
    for peer in (0..member.settings.member.size.n).filter(|peer| *peer != member.me()) {
        thread::spawn(move || keep_link(member, peer));
    }
    println!("member {own} ready");
    let asked = take_proposals(member);
    await_decisions(member, &asked)
}

fn main() {
    need(run());
}
