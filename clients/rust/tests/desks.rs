//! The client next to desks of faulty members.

mod common;

use bracha_client::{Cluster, Error, Settings};
use common::{Desk, closed_port, comes};
use std::net::SocketAddrV4;
use std::sync::Arc;
use std::sync::atomic::{AtomicUsize, Ordering};
use std::time::{Duration, Instant};

const SECOND: Duration = Duration::from_secs(1);

fn cluster(t: usize, desks: &[SocketAddrV4]) -> Cluster {
    Cluster::new(Settings::new(7, t, 64, desks.to_vec()).unwrap()).unwrap()
}

/// The desk of a correct member that decided 1 on question 3.
fn correct() -> Desk {
    Desk::new(|line, link| {
        if line.starts_with("FOLLOW") {
            link.say("DECIDED 3 1\n") && link.rest(60.0)
        } else {
            link.say("DECIDED 1\n")
        }
    })
}

fn says(text: &'static str) -> Desk {
    Desk::new(move |_, link| link.say(text))
}

fn faulty() -> Vec<(&'static str, Desk)> {
    let floods = |text: &'static str| {
        Desk::new(move |_, link| {
            let flood = text.repeat(65536 / text.len());
            while link.say(&flood) {}
            false
        })
    };
    let other =
        |line: &str| if line.starts_with("FOLLOW") { "DECIDED 3 0\n" } else { "DECIDED 0\n" };
    vec![
        ("another bit", Desk::new(move |line, link| link.say(other(line)) && link.rest(60.0))),
        ("no reply", says("WHAT\n")),
        ("a number that is none", says("DECIDED 3 +1\n")),
        ("a question past the end", says("DECIDED 64 0\n")),
        (
            "a long line",
            Desk::new(|_, link| link.say(&("DECIDED 3 1".to_string() + &" ".repeat(9000) + "\n"))),
        ),
        ("no text", Desk::new(|_, link| link.bytes(b"DECIDED \xff\n"))),
        ("silent", Desk::new(|_, link| link.rest(60.0))),
        ("closes", Desk::new(|_, _| false)),
        ("drips", Desk::new(|_, link| (0..60).all(|_| link.say("D") && link.rest(0.2)))),
        ("floods without a line", floods("x")),
        ("floods empty lines", floods("\n")),
        ("floods decisions", floods("DECIDED 3 0\n")),
        ("floods replies", floods("DECIDED 0\n")),
    ]
}

#[test]
fn one_fault_is_outvoted_at_each_place() {
    let right = [correct(), correct(), correct()];
    let mut desks: Vec<(&str, SocketAddrV4)> = vec![("down", closed_port())];
    let faulty = faulty();
    desks.extend(faulty.iter().map(|(name, desk)| (*name, desk.address)));
    for (name, desk) in desks {
        for place in 0..4 {
            let begun = Instant::now();
            let mut all: Vec<SocketAddrV4> = right.iter().map(|desk| desk.address).collect();
            all.insert(place, desk);
            let cluster = cluster(1, &all);
            assert_eq!(cluster.ask(3, 5 * SECOND), Ok(Some(true)), "{name} at {place}");
            assert_eq!(cluster.wait(3, 5 * SECOND), Ok(true), "{name} at {place}");
            let decision = cluster.follow().unwrap().next().unwrap();
            assert_eq!((decision.question, decision.bit), (3, true), "{name} at {place}");
            drop(cluster);
            assert!(begun.elapsed() < 4 * SECOND, "{name} at {place}: {:?}", begun.elapsed());
        }
    }
}

#[test]
fn nobody_holds_up_a_question_without_a_decision() {
    let open = [says("UNDECIDED\n"), says("UNDECIDED\n"), says("UNDECIDED\n")];
    for (name, desk) in faulty() {
        let all = [open[0].address, open[1].address, open[2].address, desk.address];
        let begun = Instant::now();
        assert_eq!(cluster(1, &all).ask(5, 5 * SECOND), Ok(None), "{name}");
        assert!(begun.elapsed() < 4 * SECOND, "{name}: {:?}", begun.elapsed());
    }
}

#[test]
fn one_alone_is_not_believed() {
    let desks = [says("DECIDED 0\n"), says("UNDECIDED\n"), says("UNDECIDED\n"), says("WHAT\n")];
    let cluster = cluster(1, &desks.each_ref().map(|desk| desk.address));
    assert_eq!(cluster.ask(5, SECOND), Ok(None));
    assert_eq!(cluster.wait(5, SECOND / 2), Err(Error::Undecided(vec![(0, false)])));
    assert_eq!(cluster.ask_member(0, 5, SECOND), Ok(Some(false)));
    assert_eq!(cluster.ask_member(1, 5, SECOND), Ok(None));
    assert_eq!(cluster.ask_member(3, 5, SECOND), Err(Error::Unreachable(vec![3])));
    assert_eq!(cluster.ask_member(4, 5, SECOND), Err(Error::NoSuchMember(4)));
}

#[test]
fn two_values_are_not_mixed() {
    let desks =
        [says("DECIDED 0\n"), says("DECIDED 1\n"), says("UNDECIDED\n"), says("UNDECIDED\n")];
    let cluster = cluster(1, &desks.each_ref().map(|desk| desk.address));
    assert_eq!(cluster.ask(5, SECOND), Ok(None));
}

#[test]
fn a_liar_that_decides_everything_is_not_followed() {
    let everything: String =
        (0..64).map(|q| format!("DECIDED {q} {}\n", u8::from(q == 2))).collect();
    let liar = Desk::new(move |_, link| link.say(&everything) && link.rest(30.0));
    let true_one = || {
        Desk::new(|_, link| {
            link.say("DECIDED 9 1\n")
                && link.rest(0.2)
                && link.say("DECIDED 2 0\n")
                && link.rest(30.0)
        })
    };
    let right = [true_one(), true_one(), true_one()];
    for place in 0..4 {
        let mut all: Vec<SocketAddrV4> = right.iter().map(|desk| desk.address).collect();
        all.insert(place, liar.address);
        let cluster = cluster(1, &all);
        let mut followed = cluster.follow().unwrap();
        let told: Vec<_> = followed.by_ref().take(2).map(|it| (it.question, it.bit)).collect();
        assert_eq!(told, [(9, true), (2, false)], "at {place}");
        assert_eq!(followed.next_within(SECOND / 5), None);
    }
}

#[test]
fn a_follower_goes_on_where_it_was() {
    let desk = Desk::new(|line, link| {
        let number: u16 = line.split(' ').next_back().unwrap().parse().unwrap();
        link.say(&format!("DECIDED {} {}\n\n", number + 10, number % 2));
        false
    });
    let cluster = cluster(0, &[desk.address]);
    let told: Vec<_> = cluster.follow_member(0, 2).unwrap().take(3).collect();
    let told: Vec<_> = told.iter().map(|it| (it.number, it.question, it.bit)).collect();
    assert_eq!(told, [(Some(2), 12, false), (Some(3), 13, true), (Some(4), 14, false)]);
    assert_eq!(desk.lines(), ["FOLLOW 2", "FOLLOW 3", "FOLLOW 4"]);
}

#[test]
fn proposals() {
    let desks =
        [says("OK\n"), says("HAVE 0\n"), says("STOPPED\n"), Desk::new(|_, link| link.rest(60.0))];
    let cluster = cluster(1, &desks.each_ref().map(|desk| desk.address));
    for _ in 0..2 {
        let answers = cluster.propose(63, true, SECOND).unwrap();
        let stand: Vec<_> = answers.iter().map(|answer| answer.stands).collect();
        assert_eq!(stand, [Some(true), Some(false), None, None]);
    }
    assert_eq!(desks[0].lines(), ["PROPOSE 63 1", "PROPOSE 63 1"]);
    let none = Error::NoSuchQuestion(64);
    assert_eq!(cluster.propose(64, true, SECOND), Err(none.clone()));
    assert_eq!(cluster.decide(64, true, SECOND), Err(none.clone()));
    assert_eq!(cluster.wait(64, SECOND), Err(none.clone()));
    assert_eq!(cluster.ask(64, SECOND), Err(none.clone()));
    assert_eq!(cluster.ask_member(0, 64, SECOND), Err(none));
}

#[test]
fn all_are_down() {
    let cluster = cluster(1, &[closed_port(), closed_port(), closed_port(), closed_port()]);
    assert_eq!(cluster.ask(0, SECOND), Err(Error::Unreachable(vec![0, 1, 2, 3])));
    assert_eq!(cluster.decide(0, true, SECOND / 2), Err(Error::Undecided(vec![])));
    assert!(cluster.status(SECOND).iter().all(|status| !status.up));
    assert_eq!(cluster.propose(0, true, Duration::MAX).unwrap()[3].stands, None);
}

#[test]
fn lines_of_many_threads_share_a_connection() {
    let desk = says("UP 18 1\n");
    let cluster = cluster(0, &[desk.address]);
    std::thread::scope(|scope| {
        for _ in 0..20 {
            scope.spawn(|| {
                for _ in 0..20 {
                    let status = cluster.status(5 * SECOND)[0];
                    assert_eq!((status.up, status.statements, status.decided), (true, 18, 1));
                }
            });
        }
    });
    assert_eq!(desk.connections(), 1);
}

#[test]
fn a_decision_costs_a_line() {
    let desks = [0; 4].map(|_| {
        Desk::new(|line, link| match line.starts_with("FOLLOW") {
            true => (0..64).all(|q| link.say(&format!("DECIDED {q} 1\n"))) && link.rest(60.0),
            false => link.say("OK\n"),
        })
    });
    let cluster = cluster(1, &desks.each_ref().map(|desk| desk.address));
    for question in 0..20 {
        assert_eq!(cluster.decide(question, true, 5 * SECOND), Ok(true));
    }
    assert_eq!(cluster.propose(63, true, 5 * SECOND).unwrap().len(), 4);
    for desk in &desks {
        assert!(comes(|| desk.lines().iter().any(|line| line == "FOLLOW 0")));
        let lines = desk.lines();
        let proposals = lines.iter().filter(|line| line.starts_with("PROPOSE ")).count();
        assert!(proposals <= 21 && lines.len() == proposals + 1, "{lines:?}");
    }
}

#[test]
fn a_member_that_breaks_the_protocol_is_cut_off() {
    for text in ["DECIDED 3 0\n", "\n", "x", "DECIDED 64 0\n"] {
        let ended = Arc::new(AtomicUsize::new(0));
        let own = ended.clone();
        let desk = Desk::new(move |_, link| {
            let flood = text.repeat(4096);
            while link.say(&flood) {}
            own.fetch_add(1, Ordering::SeqCst);
            false
        });
        let cluster = cluster(0, &[desk.address]);
        assert!(cluster.wait(5, SECOND).is_err());
        assert!(comes(|| ended.load(Ordering::SeqCst) > 0), "{text:?}");
    }
}

#[test]
fn a_connection_that_hangs_is_made_anew() {
    let lines = AtomicUsize::new(0);
    let desk = Desk::new(move |_, link| match lines.fetch_add(1, Ordering::SeqCst) {
        0 => link.rest(60.0),
        _ => link.say("DECIDED 1\n"),
    });
    let cluster = cluster(0, &[desk.address]);
    assert_eq!(cluster.ask_member(0, 5, SECOND), Err(Error::Unreachable(vec![0])));
    assert_eq!(cluster.ask_member(0, 5, 10 * SECOND), Ok(Some(true)));
    assert_eq!(desk.connections(), 2);
}

#[test]
fn a_member_that_hangs_is_not_waited_for_until_the_deadline() {
    let desk = Desk::new(|_, link| link.rest(60.0));
    let cluster = cluster(0, &[desk.address]);
    let begun = Instant::now();
    assert_eq!(cluster.propose(5, true, 3600 * SECOND).unwrap()[0].stands, None);
    assert!(begun.elapsed() < 9 * SECOND, "{:?}", begun.elapsed());
}

#[test]
fn a_call_whose_deadline_passes_ends_no_other() {
    // Four correct members that take a tenth of a second for a reply, as with a slow disk.
    let desks = [0; 4].map(|_| Desk::new(|_, link| link.rest(0.1) && link.say("UNDECIDED\n")));
    let cluster = cluster(1, &desks.each_ref().map(|desk| desk.address));
    std::thread::scope(|scope| {
        // The deadline of the second passes while the first, before it, is waited for.
        for timeout in [60, 30] {
            let cluster = &cluster;
            scope.spawn(move || cluster.status(Duration::from_millis(timeout)));
            std::thread::sleep(SECOND / 100);
        }
        assert_eq!(cluster.ask(5, 5 * SECOND), Ok(None));
    });
    assert!(desks.iter().all(|desk| desk.connections() == 1));
}

#[test]
fn a_late_reply_is_not_given_to_another_call() {
    let lines = AtomicUsize::new(0);
    let desk = Desk::new(move |_, link| match lines.fetch_add(1, Ordering::SeqCst) {
        0 => link.rest(0.5) && link.say("DECIDED 1\n"),
        _ => link.say("UNDECIDED\n"),
    });
    let cluster = cluster(0, &[desk.address]);
    assert_eq!(cluster.ask_member(0, 5, SECOND / 10), Err(Error::Unreachable(vec![0])));
    assert_eq!(cluster.ask_member(0, 6, 5 * SECOND), Ok(None));
    assert_eq!(desk.connections(), 1);
}

#[test]
fn a_connection_that_ended_is_made_anew() {
    let closing = Desk::new(|_, link| {
        link.say("DECIDED 1\n");
        false
    });
    let cluster = cluster(0, &[closing.address]);
    for _ in 0..5 {
        assert_eq!(cluster.ask_member(0, 5, 4 * SECOND), Ok(Some(true)));
    }
    assert_eq!(closing.connections(), 5);
}

#[test]
fn what_nobody_asked_for_is_no_reply() {
    let desk = says("UNDECIDED\nDECIDED 1\n");
    let cluster = cluster(0, &[desk.address]);
    for _ in 0..5 {
        assert_eq!(cluster.ask_member(0, 5, 4 * SECOND), Ok(None));
    }
    assert_eq!(desk.connections(), 5);
}
