//! The client of a chain of epochs next to desks that answer as members of one do.

mod common;

use bracha_client::{Cluster, Error, Refusal, Settings, Stage};
use common::{Desk, comes};
use std::sync::Arc;
use std::sync::atomic::{AtomicBool, AtomicUsize, Ordering};
use std::time::{Duration, Instant};

const SECOND: Duration = Duration::from_secs(1);

/// A chain of epochs of 64 slots.
fn chain(t: usize, desks: &[&Desk]) -> Cluster {
    let desks = desks.iter().map(|desk| desk.address).collect();
    Cluster::new(Settings::new(7, t, 64, desks).unwrap().in_chain()).unwrap()
}

fn all(desks: &[Desk; 4]) -> [&Desk; 4] {
    desks.each_ref()
}

/// A desk that says one text to `FOLLOW`, and another to any other line.
fn desk(told: &str, reply: &str) -> Desk {
    let (told, reply) = (told.to_string(), reply.to_string());
    Desk::new(move |line, link| match line.starts_with("FOLLOW") {
        true => link.say(&told) && link.rest(60.0),
        false => link.say(&reply),
    })
}

fn follows(desk: &Desk) -> Vec<String> {
    desk.lines().into_iter().filter(|line| line.starts_with("FOLLOW")).collect()
}

#[test]
fn slots_have_no_end() {
    let desks = [0; 4].map(|_| desk("DECIDED 18446744073709551615 1\n", "OK\n"));
    let cluster = chain(1, &all(&desks));
    assert_eq!(cluster.decide(u64::MAX, true, 5 * SECOND), Ok(true));
    assert_eq!(cluster.propose(65_536, false, SECOND).unwrap()[2].stands, Some(false));
    let followed = cluster.follow_from(u64::MAX).unwrap().next().unwrap();
    assert_eq!((followed.question, followed.bit), (u64::MAX, true));
    for line in ["PROPOSE 18446744073709551615 1", "PROPOSE 65536 0"] {
        assert!(desks[2].lines().iter().any(|said| said == line));
    }
    assert_eq!(follows(&desks[0])[0], "FOLLOW 18446744073709551552");
}

#[test]
fn one_fault_is_outvoted_in_a_chain() {
    let liar = Desk::new(|line, link| {
        if !line.starts_with("FOLLOW") {
            return link.say("DECIDED 0\n");
        }
        let mut slots = (0u64..).map(|slot| format!("DECIDED {slot} 0\n"));
        while link.say(&slots.by_ref().take(4096).collect::<String>()) {}
        false
    });
    let told: String = (0..1000).map(|slot| format!("DECIDED {slot} 1\n")).collect();
    let right = [0; 3].map(|_| desk(&told, "DECIDED 1\n"));
    for place in 0..4 {
        let mut desks: Vec<&Desk> = right.iter().collect();
        desks.insert(place, &liar);
        let cluster = chain(1, &desks);
        assert_eq!(cluster.ask(700, 5 * SECOND), Ok(Some(true)), "{place}");
        assert_eq!(cluster.wait(701, 5 * SECOND), Ok(true), "{place}");
        assert_eq!(cluster.decide(999, true, 5 * SECOND), Ok(true), "{place}");
        let mut followed = cluster.follow().unwrap();
        let mut told: Vec<_> = followed.by_ref().take(1000).map(|it| it.question).collect();
        told.sort_unstable();
        assert!(told.into_iter().eq(0..1000), "{place}");
        assert_eq!(followed.next_within(SECOND / 5), None, "{place}");
    }
}

#[test]
fn what_followers_are_not_told_is_asked_for() {
    let decided = Arc::new(AtomicBool::new(false));
    let desks = [0; 4].map(|_| {
        let decided = decided.clone();
        Desk::new(move |line, link| match (&line[..3], decided.load(Ordering::SeqCst)) {
            ("FOL", _) => link.rest(60.0),
            ("ASK", true) => link.say("DECIDED 1\n"),
            ("ASK", false) => link.say("UNDECIDED\n"),
            _ => link.say("OK\n"),
        })
    });
    let cluster = chain(1, &all(&desks));
    assert_eq!(cluster.wait(5, SECOND / 2), Err(Error::Undecided(vec![])));
    std::thread::scope(|scope| {
        let decides = scope.spawn(|| cluster.decide(5, true, 5 * SECOND));
        assert!(comes(|| desks[0].lines().iter().any(|line| line == "PROPOSE 5 1")));
        decided.store(true, Ordering::SeqCst);
        assert_eq!(decides.join().unwrap(), Ok(true));
    });
    let asked = desks[0].lines().iter().filter(|line| line.starts_with("ASK")).count();
    assert!(asked <= 5, "{asked}");
    let begun = Instant::now();
    assert_eq!(cluster.wait(6, 5 * SECOND), Ok(true)); // it was decided before
    assert_eq!(cluster.decide(7, true, 5 * SECOND), Ok(true));
    assert!(begun.elapsed() < SECOND / 2, "{:?}", begun.elapsed());
    assert!(
        desks.iter().all(|desk| !desk.lines().iter().any(|line| line.starts_with("PROPOSE 7")))
    );
}

#[test]
fn members_are_followed_from_the_epoch_of_a_slot() {
    let desks = [0; 4].map(|_| desk("", "UNDECIDED\n"));
    let cluster = chain(1, &all(&desks));
    let waits = |slot| assert!(cluster.wait(slot, SECOND / 10).is_err());
    // One that is far ahead is followed from there, but only until an earlier one is waited for.
    for (slot, line) in [(1 << 40, "FOLLOW 1099511627776"), (200, "FOLLOW 192")] {
        waits(slot);
        assert!(desks.iter().all(|desk| comes(|| follows(desk).iter().any(|said| said == line))));
    }
    waits(1 << 50);
    assert_eq!(follows(&desks[3]).len(), 2);
}

#[test]
fn a_member_that_told_a_decision_is_not_followed_from_before_it() {
    let desks = [0; 4].map(|_| desk("DECIDED 200 1\n", "UNDECIDED\n"));
    let cluster = chain(1, &all(&desks));
    assert_eq!(cluster.wait(200, 5 * SECOND), Ok(true));
    assert!(desks.iter().all(|desk| comes(|| follows(desk) == ["FOLLOW 192"])));
    std::thread::sleep(SECOND / 10);
    assert!(cluster.wait(5, SECOND).is_err());
    assert!(desks.iter().all(|desk| follows(desk) == ["FOLLOW 192"]));
    let mut followed = cluster.follow_from(200).unwrap();
    assert_eq!(followed.next().map(|it| it.question), Some(200));
    let mut followed = cluster.follow_from(201).unwrap();
    assert_eq!(followed.next_within(SECOND / 2), None);
}

#[test]
fn slots_that_are_gone() {
    let gone = [0; 3].map(|_| desk("", "ERR 5 gone\n"));
    let open = [0; 3].map(|_| desk("", "UNDECIDED\n"));
    let three = chain(1, &[&gone[0], &open[0], &gone[1], &gone[2]]);
    let error = Error::Gone(vec![0, 2, 3]);
    let begun = Instant::now();
    assert_eq!(three.ask(5, 5 * SECOND), Err(error.clone()));
    assert_eq!(three.wait(5, 5 * SECOND), Err(error.clone()));
    assert_eq!(three.decide(5, true, 5 * SECOND), Err(error));
    assert!(begun.elapsed() < 3 * SECOND, "{:?}", begun.elapsed());
    assert_eq!(three.ask_member(0, 5, SECOND), Err(Error::Gone(vec![0])));
    assert_eq!(three.ask_member(1, 5, SECOND), Ok(None));
    let refusals: Vec<_> = three.propose(5, true, SECOND).unwrap();
    assert_eq!((refusals[0].stands, refusals[0].refusal), (None, Some(Refusal::Gone)));
    assert_eq!(refusals[1].refusal, None);
    let stages = three.state(5, SECOND).unwrap();
    assert_eq!([stages[0].stage, stages[1].stage], [Some(Stage::Gone), None]);
    // One alone is not believed, and two leave enough others.
    let one = chain(1, &[&gone[0], &open[0], &open[1], &open[2]]);
    assert_eq!(one.ask(5, SECOND), Ok(None));
    assert_eq!(one.wait(5, SECOND / 2), Err(Error::Undecided(vec![])));
    let two = chain(1, &[&gone[0], &gone[1], &open[1], &open[2]]);
    assert_eq!(two.wait(5, SECOND / 2), Err(Error::Gone(vec![0, 1])));
    let decided = [0; 2].map(|_| desk("", "DECIDED 0\n"));
    let known = chain(1, &[&gone[0], &decided[0], &gone[1], &decided[1]]);
    assert_eq!(known.ask(5, 5 * SECOND), Ok(Some(false)));
    assert_eq!(known.wait(5, 5 * SECOND), Ok(false));
}

#[test]
fn slots_that_are_too_far_ahead() {
    let far = || {
        Desk::new(|line, link| match &line[..3] {
            "FOL" => link.rest(60.0),
            "ASK" => link.say("UNDECIDED\n"),
            "STA" => link.say("UNPROPOSED\n"),
            _ => link.say("ERR 2 question\n"),
        })
    };
    let (far, near) = ([0; 3].map(|_| far()), desk("", "OK\n"));
    let cluster = chain(1, &[&far[0], &far[1], &far[2], &near]);
    let begun = Instant::now();
    let error = Error::TooFar(vec![0, 1, 2]);
    assert_eq!(cluster.decide(1 << 40, true, 5 * SECOND), Err(error));
    assert!(begun.elapsed() < 2 * SECOND, "{:?}", begun.elapsed());
    let answers = cluster.propose(1 << 40, true, SECOND).unwrap();
    assert_eq!((answers[1].stands, answers[1].refusal), (None, Some(Refusal::TooFar)));
    assert_eq!((answers[3].stands, answers[3].refusal), (Some(true), None));
    assert_eq!(cluster.ask(1 << 40, SECOND), Ok(None));
    assert_eq!(cluster.state(1 << 40, SECOND).unwrap()[0].stage, Some(Stage::Unproposed));
    assert_eq!(cluster.wait(1 << 40, SECOND / 4), Err(Error::Undecided(vec![])));
}

#[test]
fn a_proposal_that_is_too_early_ends_no_call_that_proposes_nothing() {
    let decided = Arc::new(AtomicBool::new(false));
    let desks = [0; 4].map(|_| {
        let decided = decided.clone();
        Desk::new(move |line, link| match (&line[..3], decided.load(Ordering::SeqCst)) {
            ("FOL", _) => link.rest(60.0),
            ("PRO", _) => link.say("ERR 2 question\n"),
            (_, false) => link.say("UNDECIDED\n"),
            (_, true) => link.say("DECIDED 1\n"),
        })
    });
    let cluster = chain(1, &all(&desks));
    std::thread::scope(|scope| {
        let waits = scope.spawn(|| cluster.wait(7000, 20 * SECOND));
        assert!(comes(|| desks[0].lines().iter().any(|line| line == "ASK 7000")));
        assert!(matches!(cluster.decide(7000, true, 5 * SECOND), Err(Error::TooFar(_))));
        assert_eq!(cluster.ask(7000, SECOND), Ok(None));
        decided.store(true, Ordering::SeqCst);
        assert_eq!(waits.join().unwrap(), Ok(true));
    });
}

#[test]
fn one_member_is_followed_over_epochs() {
    let desk = Desk::new(|line, link| {
        match line {
            "FOLLOW 62" => link.say("DECIDED 3 1\nDECIDED 1 0\nDECIDED 70 1\n"),
            // It passed epoch 2, and tells a decision of it late.
            "FOLLOW 65" => link.say("DECIDED 200 1\n\nDECIDED 129 0\nDECIDED 201 0\n"),
            _ => link.say("DECIDED 202 1\n") && link.rest(60.0),
        };
        false
    });
    let cluster = chain(0, &[&desk]);
    let told: Vec<_> = cluster.follow_member(0, 62).unwrap().take(7).collect();
    let slots: Vec<_> = told.iter().map(|it| (it.number.unwrap(), it.question)).collect();
    let expected = [(62, 3), (63, 1), (64, 70), (192, 200), (128, 129), (193, 201), (194, 202)];
    assert_eq!(slots, expected);
    assert_eq!(desk.lines(), ["FOLLOW 62", "FOLLOW 65", "FOLLOW 194"]);
}

#[test]
fn a_member_of_a_chain_that_breaks_the_protocol_is_cut_off() {
    for text in ["DECIDED 200 0\n", "DECIDED 127 0\n", "DECIDED 18446744073709551616 0\n", "\n"] {
        let ended = Arc::new(AtomicUsize::new(0));
        let own = ended.clone();
        let desk = Desk::new(move |line, link| {
            if line.starts_with("ASK") {
                return link.say("UNDECIDED\n");
            }
            let flood = text.repeat(4096);
            while link.say(&flood) {}
            own.fetch_add(1, Ordering::SeqCst);
            false
        });
        let cluster = chain(0, &[&desk]);
        assert!(cluster.wait(130, SECOND).is_err());
        assert!(comes(|| ended.load(Ordering::SeqCst) > 0), "{text:?}");
        assert_eq!(follows(&desk)[0], "FOLLOW 128");
    }
}
