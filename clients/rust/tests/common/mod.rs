//! Desks of faulty members, and a cluster that runs.

#![allow(dead_code)] // each test uses a part

use std::io::{BufRead, BufReader, Write};
use std::net::{Ipv4Addr, Shutdown, SocketAddrV4, TcpListener, TcpStream};
use std::path::{Path, PathBuf};
use std::process::{Child, Command, Stdio};
use std::sync::atomic::{AtomicBool, AtomicUsize, Ordering};
use std::sync::{Arc, Mutex};
use std::thread;
use std::time::Duration;

/// A client's connection at a desk.
pub struct Link(TcpStream);

impl Link {
    pub fn say(&mut self, text: &str) -> bool {
        self.bytes(text.as_bytes())
    }

    pub fn bytes(&mut self, bytes: &[u8]) -> bool {
        self.0.write_all(bytes).is_ok()
    }

    pub fn rest(&mut self, seconds: f64) -> bool {
        thread::sleep(Duration::from_secs_f64(seconds));
        true
    }
}

#[derive(Default)]
struct Seen {
    lines: Mutex<Vec<String>>,
    links: Mutex<Vec<TcpStream>>,
    ended: AtomicBool,
}

/// A desk that does with each line what a function does, until it returns `false`.
pub struct Desk {
    pub address: SocketAddrV4,
    seen: Arc<Seen>,
}

impl Desk {
    pub fn new(answer: impl Fn(&str, &mut Link) -> bool + Send + Sync + 'static) -> Desk {
        let listener = TcpListener::bind((Ipv4Addr::LOCALHOST, 0)).unwrap();
        let port = listener.local_addr().unwrap().port();
        let (seen, answer) = (Arc::new(Seen::default()), Arc::new(answer));
        let own = seen.clone();
        thread::spawn(move || {
            for stream in listener.incoming().map_while(Result::ok) {
                if own.ended.load(Ordering::SeqCst) {
                    return;
                }
                own.links.lock().unwrap().push(stream.try_clone().unwrap());
                let (seen, answer) = (own.clone(), answer.clone());
                thread::spawn(move || {
                    let mut link = Link(stream.try_clone().unwrap());
                    for line in BufReader::new(&stream).lines().map_while(Result::ok) {
                        seen.lines.lock().unwrap().push(line.clone());
                        if !answer(&line, &mut link) {
                            break;
                        }
                    }
                    let _ = stream.shutdown(Shutdown::Both);
                });
            }
        });
        Desk { address: SocketAddrV4::new(Ipv4Addr::LOCALHOST, port), seen }
    }

    pub fn lines(&self) -> Vec<String> {
        self.seen.lines.lock().unwrap().clone()
    }

    pub fn connections(&self) -> usize {
        self.seen.links.lock().unwrap().len()
    }
}

impl Drop for Desk {
    fn drop(&mut self) {
        self.seen.ended.store(true, Ordering::SeqCst);
        let _ = TcpStream::connect(self.address);
        for link in self.seen.links.lock().unwrap().iter() {
            let _ = link.shutdown(Shutdown::Both);
        }
    }
}

/// Waits until this holds, for ten seconds at most, and returns whether it does.
pub fn comes(holds: impl Fn() -> bool) -> bool {
    (0..200).any(|_| {
        let held = holds();
        if !held {
            thread::sleep(Duration::from_millis(50));
        }
        held
    })
}

/// Returns a desk at which nobody listens.
pub fn closed_port() -> SocketAddrV4 {
    let listener = TcpListener::bind((Ipv4Addr::LOCALHOST, 0)).unwrap();
    SocketAddrV4::new(Ipv4Addr::LOCALHOST, listener.local_addr().unwrap().port())
}

/// Returns how many connections to these desks are open on the client's side, in any process.
pub fn links_to(desks: &[SocketAddrV4]) -> usize {
    let table = std::fs::read_to_string("/proc/net/tcp").unwrap();
    let open = |line: &str| {
        let words: Vec<&str> = line.split_whitespace().collect();
        let to = |desk: &SocketAddrV4| words[2].ends_with(&format!(":{:04X}", desk.port()));
        words.len() > 3 && words[3] == "01" && desks.iter().any(to)
    };
    table.lines().skip(1).filter(|line| open(line)).count()
}

/// Four members of a program that run in a folder of their own.
pub struct Members {
    program: PathBuf,
    pub folder: PathBuf,
    running: Mutex<[Option<Child>; 4]>,
}

static CLUSTERS: AtomicUsize = AtomicUsize::new(0);

impl Members {
    /// Starts a cluster of the program that BRACHA names, or returns `None` if it names none.
    pub fn start(questions: u16) -> Option<Members> {
        Members::start_with(questions, &[])
    }

    /// Starts a chain of epochs of this many questions, or returns `None` if BRACHA names no program.
    pub fn start_chain(questions: u16) -> Option<Members> {
        Members::start_with(questions, &["--epochs"])
    }

    fn start_with(questions: u16, more: &[&str]) -> Option<Members> {
        let program = PathBuf::from(std::env::var_os("BRACHA").filter(|it| !it.is_empty())?);
        (0..20).find_map(|_| Members::try_start(&program, questions, more))
    }

    fn try_start(program: &Path, questions: u16, more: &[&str]) -> Option<Members> {
        let place = CLUSTERS.fetch_add(1, Ordering::SeqCst);
        let id = std::process::id() as usize;
        let folder = std::env::temp_dir().join(format!("bracha-client-{id}-{place}"));
        std::fs::create_dir(&folder).unwrap();
        let members = Members { program: program.into(), folder, running: Mutex::default() };
        let first = free_ports(id.wrapping_mul(31).wrapping_add(place * 97));
        let size = ["--n", "4", "--t", "1", "--cluster", "7", "--questions"];
        let rest = [&questions.to_string(), "--port", &first.to_string(), "."];
        assert!(members.call(&[&["new-cluster"], more, &size[..], &rest].concat()));
        for member in 0..4 {
            assert!(members.call(&["init", &format!("member-{member}.toml")]));
        }
        (0..4).all(|member| members.run(member)).then_some(members)
    }

    fn call(&self, words: &[&str]) -> bool {
        let mut command = Command::new(&self.program);
        let quiet = command.args(words).current_dir(&self.folder).stdout(Stdio::null());
        quiet.stderr(Stdio::null()).status().unwrap().success()
    }

    /// Starts a member. Returns `false` if it can't run.
    pub fn run(&self, member: usize) -> bool {
        let mut command = Command::new(&self.program);
        command.args(["run", "--stay", &format!("member-{member}.toml")]);
        command.current_dir(&self.folder).stdin(Stdio::null()).stderr(Stdio::null());
        let mut child = command.stdout(Stdio::piped()).spawn().unwrap();
        let mut line = String::new();
        BufReader::new(child.stdout.take().unwrap()).read_line(&mut line).unwrap();
        self.running.lock().unwrap()[member] = Some(child);
        line.contains("ready")
    }

    /// Kills a member of a chain, puts the journals of its first epochs away, and starts it again.
    pub fn put_away(&self, member: usize, epochs: u64) {
        self.kill(member);
        let journals = self.folder.join(format!("member-{member}.epochs"));
        for epoch in 0..epochs {
            std::fs::remove_file(journals.join(format!("{epoch}.journal"))).unwrap();
        }
        self.restart(member);
    }

    pub fn kill(&self, member: usize) {
        if let Some(mut child) = self.running.lock().unwrap()[member].take() {
            let _ = child.kill();
            let _ = child.wait();
        }
    }

    /// Kills a member and starts it again.
    pub fn restart(&self, member: usize) {
        self.kill(member);
        while !self.run(member) {
            self.kill(member); // another process had its port for a moment
            thread::sleep(Duration::from_millis(100));
        }
    }
}

impl Drop for Members {
    fn drop(&mut self) {
        (0..4).for_each(|member| self.kill(member));
        let _ = std::fs::remove_dir_all(&self.folder);
    }
}

/// Returns a port below 32768 that is free, as the next three are, and the four from ten above it.
fn free_ports(seed: usize) -> u16 {
    let free = |port: u16| TcpListener::bind((Ipv4Addr::LOCALHOST, port)).is_ok();
    let ports = (0..10_000).map(|step| 10_000 + ((seed + step * 7919) % 22_000) as u16);
    let mut fit = ports.filter(|first| (0..4).all(|it| free(first + it) && free(first + 10 + it)));
    fit.next().unwrap()
}
