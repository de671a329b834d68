//! The memory of a client next to a silent member. The test measures the process, so it has this file
//! to itself, and desks that keep no lines.

use bracha_client::{Cluster, Settings};
use std::io::{BufRead, BufReader, Write};
use std::net::{Ipv4Addr, SocketAddr, SocketAddrV4, TcpListener};
use std::thread;
use std::time::Duration;

const SLOTS: u64 = 9_000;

/// The time for a slot, at least: so at most 5,000 are asked for in the time that a reply is waited for.
const PAUSE: Duration = Duration::from_millis(1);

/// The most bytes by which the process grows. Each slot that is kept takes some 800.
const MOST: u64 = 5_500_000;

/// Returns how many bytes of memory this process has.
fn resident() -> u64 {
    let status = std::fs::read_to_string("/proc/self/status").unwrap();
    let line = status.lines().find(|line| line.starts_with("VmRSS:")).unwrap();
    line.split_whitespace().nth(1).unwrap().parse::<u64>().unwrap() * 1024
}

/// Returns a desk that gives this reply to each line.
fn desk(reply: &'static str) -> SocketAddrV4 {
    let listener = TcpListener::bind((Ipv4Addr::LOCALHOST, 0)).unwrap();
    let SocketAddr::V4(address) = listener.local_addr().unwrap() else { panic!("no IPv4") };
    thread::spawn(move || {
        for mut stream in listener.incoming().map_while(Result::ok) {
            thread::spawn(move || {
                let lines = BufReader::new(stream.try_clone().unwrap()).lines();
                lines.map_while(Result::ok).all(|_| stream.write_all(reply.as_bytes()).is_ok())
            });
        }
    });
    address
}

#[test]
fn a_silent_member_takes_bounded_memory() {
    let desks = ["DECIDED 1\n", "DECIDED 1\n", "DECIDED 1\n", ""].map(desk);
    let settings = Settings::new(7, 1, 64, desks.to_vec()).unwrap().in_chain();
    let cluster = Cluster::new(settings).unwrap();
    let hour = Duration::from_secs(3600);
    assert_eq!(cluster.decide(0, true, hour), Ok(true));
    let begun = resident();
    for slot in 1..SLOTS {
        assert_eq!(cluster.decide(slot, true, hour), Ok(true));
        thread::sleep(PAUSE);
    }
    let grown = resident().saturating_sub(begun);
    assert!(grown < MOST, "{grown} bytes");
}
