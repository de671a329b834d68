//! The memory of a client of a chain that goes on. The test measures the process, so it has this
//! file to itself.

mod common;

use bracha_client::{Cluster, Settings};
use common::Desk;
use std::time::Duration;

const SLOTS: u64 = 150_000;

/// The most bytes by which the process grows. Each slot would take some hundred if it were kept.
const MOST: u64 = 8_000_000;

/// Returns how many bytes of memory this process has.
fn resident() -> u64 {
    let status = std::fs::read_to_string("/proc/self/status").unwrap();
    let line = status.lines().find(|line| line.starts_with("VmRSS:")).unwrap();
    line.split_whitespace().nth(1).unwrap().parse::<u64>().unwrap() * 1024
}

/// A desk that tells all slots to who follows, and no decision to who asks.
fn desk() -> Desk {
    Desk::new(|line, link| match line.strip_prefix("FOLLOW ") {
        Some(number) => {
            let mut slots = number.parse().unwrap()..SLOTS;
            while !slots.is_empty() {
                let some = slots.by_ref().take(1000);
                let lines: String = some.map(|slot| format!("DECIDED {slot} 1\n")).collect();
                if !link.say(&lines) {
                    return false;
                }
            }
            link.rest(60.0)
        }
        None => link.say("UNDECIDED\n"),
    })
}

#[test]
fn slots_without_end_take_bounded_memory() {
    let desks = [0; 4].map(|_| desk());
    let addresses = desks.each_ref().map(|desk| desk.address).to_vec();
    let cluster = Cluster::new(Settings::new(7, 1, 64, addresses).unwrap().in_chain()).unwrap();
    let minute = Duration::from_secs(60);
    let begun = resident();
    assert_eq!(cluster.wait(0, minute), Ok(true)); // those that told it read on
    let mut followed = cluster.follow().unwrap();
    assert_eq!(followed.by_ref().take(SLOTS as usize).filter(|it| it.bit).count() as u64, SLOTS);
    let grown = resident().saturating_sub(begun);
    assert!(grown < MOST, "{grown} bytes");
    // Whoever takes no decisions holds no memory either.
    let idle = cluster.follow().unwrap();
    std::thread::sleep(Duration::from_millis(500));
    let grown = resident().saturating_sub(begun);
    assert!(grown < MOST, "{grown} bytes");
    drop((idle, followed));
}
