//! What a cluster leaves that is dropped. The test counts the process's threads, so it has this file
//! to itself.

mod common;

use bracha_client::{Cluster, Settings};
use common::{Desk, comes, links_to};
use std::net::SocketAddrV4;
use std::thread;
use std::time::{Duration, Instant};

const SECOND: Duration = Duration::from_secs(1);

/// Returns how many threads of clusters this process has.
fn own_threads() -> usize {
    let tasks = std::fs::read_dir("/proc/self/task").unwrap().map_while(Result::ok);
    let names = tasks.filter_map(|task| std::fs::read_to_string(task.path().join("comm")).ok());
    names.filter(|name| name.trim() == "bracha").count()
}

#[test]
fn a_cluster_that_is_dropped_leaves_nothing() {
    let desks = [0; 4].map(|_| Desk::new(|_, link| link.rest(60.0)));
    let addresses = desks.each_ref().map(|desk| desk.address);
    let settings = Settings::new(7, 1, 64, addresses.to_vec()).unwrap();
    one_that_is_no_chain(settings.clone(), &addresses);
    one_that_is_a_chain(settings.in_chain(), &addresses);
}

fn one_that_is_no_chain(settings: Settings, addresses: &[SocketAddrV4]) {
    let cluster = Cluster::new(settings).unwrap();
    assert!(cluster.ask(3, SECOND / 5).is_err());
    assert!(cluster.decide(3, true, SECOND / 5).is_err());
    // A follower keeps its connection to a silent member. That of a line ends after five seconds.
    assert!(comes(|| own_threads() == 8 && links_to(addresses) >= 4));
    let mut dropped = cluster.follow().unwrap();
    assert_eq!(dropped.next_within(SECOND / 10), None);
    thread::scope(|scope| {
        scope.spawn(|| cluster.wait(3, SECOND / 5).unwrap_err());
        cluster.propose(4, true, SECOND / 10).unwrap();
    });
    assert_eq!(own_threads(), 8);
    let begun = Instant::now();
    drop(cluster);
    assert!(begun.elapsed() < SECOND, "{:?}", begun.elapsed());
    // The system may list a thread for a moment that was waited for.
    assert!(comes(|| own_threads() == 0 && links_to(addresses) == 0));
}

fn one_that_is_a_chain(settings: Settings, addresses: &[SocketAddrV4]) {
    let cluster = Cluster::new(settings).unwrap();
    assert!(cluster.decide(3, true, SECOND / 5).is_err());
    assert!(comes(|| own_threads() == 8 && links_to(addresses) >= 4));
    // Each that follows a chain has threads and connections of its own.
    let mut followed = cluster.follow().unwrap();
    assert_eq!(followed.next_within(SECOND / 10), None);
    assert!(comes(|| own_threads() == 12 && links_to(addresses) >= 8));
    let begun = Instant::now();
    drop(followed);
    assert!(comes(|| own_threads() == 8));
    drop(cluster);
    assert!(begun.elapsed() < 2 * SECOND, "{:?}", begun.elapsed());
    assert!(comes(|| own_threads() == 0 && links_to(addresses) == 0));
}
