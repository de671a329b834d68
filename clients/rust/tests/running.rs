//! The client against a cluster that runs, with kills and a liar. BRACHA names the program; without
//! it these tests do nothing.

mod common;

use bracha_client::{Cluster, Error, PATIENCE, Refusal, Settings, Stage};
use common::{Desk, Members};
use std::io::{BufRead, BufReader, Write};
use std::net::TcpStream;
use std::sync::atomic::{AtomicBool, Ordering};
use std::thread;
use std::time::Duration;

const MINUTE: Duration = Duration::from_secs(60);

/// The desk of a liar that tells the other bit on every question.
fn liar(questions: u16) -> Desk {
    let bit_of = |word: &str| 1 - word.parse::<u16>().unwrap() % 2;
    Desk::new(move |line, link| {
        let words: Vec<&str> = line.split(' ').collect();
        match words[0] {
            "FOLLOW" => {
                let first: u16 = words[1].parse().unwrap();
                let lies = (first..questions).map(|q| format!("DECIDED {q} {}\n", 1 - q % 2));
                link.say(&lies.collect::<String>()) && link.rest(60.0)
            }
            "ASK" => link.say(&format!("DECIDED {}\n", bit_of(words[1]))),
            _ => link.say("OK\n"),
        }
    })
}

#[test]
fn a_liar_and_kills_at_each_place() {
    let Some(members) = Members::start(400) else { return };
    let all = Settings::read(members.folder.join("client.toml")).unwrap();
    let liar = liar(400);
    let expected = |question: u64| question % 2 == 1;
    for place in 0..4 {
        let mut desks = all.desks().to_vec();
        desks[place] = liar.address;
        let cluster = Cluster::new(Settings::new(7, 1, 400, desks).unwrap()).unwrap();
        // The member at the liar's place runs too, and is proposed to by another client: so the
        // others decide while one of them is down.
        let other = Cluster::new(all.clone()).unwrap();
        let ended = AtomicBool::new(false);
        let (cluster, other) = (&cluster, &other);
        thread::scope(|scope| {
            scope.spawn(|| {
                // A member that was started again has its links within a second or so: more kills
                // would leave no time for decisions.
                for turn in 0.. {
                    if turn % 15 == 1 {
                        members.restart((place + 1 + turn / 15 % 3) % 4);
                    }
                    if ended.load(Ordering::SeqCst) {
                        return;
                    }
                    thread::sleep(Duration::from_millis(100));
                }
            });
            let askers: Vec<_> = (0..20u64)
                .map(|part| {
                    scope.spawn(move || {
                        for question in (0..5).map(|it| 100 * place as u64 + 5 * part + it) {
                            let bit = expected(question);
                            other.propose(question, bit, PATIENCE).unwrap();
                            assert_eq!(cluster.decide(question, bit, MINUTE), Ok(bit));
                            assert_eq!(cluster.ask(question, PATIENCE), Ok(Some(bit)));
                        }
                    })
                })
                .collect();
            let right = askers.into_iter().all(|asker| asker.join().is_ok());
            ended.store(true, Ordering::SeqCst);
            assert!(right);
        });
        let told: Vec<_> = cluster.follow().unwrap().take(100 * (place + 1)).collect();
        assert!(told.iter().all(|decision| decision.bit == expected(decision.question)));
    }
}

#[test]
fn half_a_proposal_is_repaired() {
    let Some(members) = Members::start(64) else { return };
    let cluster = Cluster::open(members.folder.join("client.toml")).unwrap();
    let mut link = TcpStream::connect(cluster.settings().desks()[1]).unwrap();
    link.write_all(b"PROPOSE 9 1\n").unwrap();
    let mut reply = String::new();
    BufReader::new(&link).read_line(&mut reply).unwrap();
    assert_eq!(reply, "OK\n");
    thread::sleep(Duration::from_millis(300));
    assert_eq!(cluster.ask(9, PATIENCE), Ok(None));
    let bit = cluster.decide(9, false, MINUTE).unwrap();
    assert_eq!(cluster.wait(9, MINUTE), Ok(bit));
    assert_eq!(cluster.propose(9, true, PATIENCE).unwrap()[1].stands, Some(true));
    let stage = cluster.state(9, PATIENCE).unwrap()[1].stage;
    assert!(matches!(stage, Some(Stage::Decided(_) | Stage::Open { .. })), "{stage:?}");
    let stages = cluster.state(10, PATIENCE).unwrap();
    assert!(stages.iter().all(|state| state.stage == Some(Stage::Unproposed)));
    assert!(cluster.status(PATIENCE).iter().all(|status| status.up));
    let another = Cluster::open(members.folder.join("client.toml")).unwrap();
    assert_eq!(another.decide(9, !bit, MINUTE), Ok(bit));
}

#[test]
fn one_member_is_followed_over_its_restarts() {
    let Some(members) = Members::start(64) else { return };
    let cluster = Cluster::open(members.folder.join("client.toml")).unwrap();
    for question in 0..20 {
        assert_eq!(cluster.decide(question, true, MINUTE), Ok(true));
    }
    let told: Vec<_> = cluster.follow_member(2, 0).unwrap().take(20).collect();
    let numbers: Vec<_> = told.iter().map(|decision| decision.number.unwrap()).collect();
    assert_eq!(numbers, (0..20).collect::<Vec<_>>());
    let mut rest = cluster.follow_member(2, 15).unwrap();
    assert_eq!(rest.by_ref().take(5).collect::<Vec<_>>(), told[15..]);
    members.kill(2);
    for question in 20..30 {
        assert_eq!(cluster.decide(question, false, MINUTE), Ok(false));
    }
    members.restart(2);
    let told: Vec<_> = rest.take(10).map(|decision| (decision.number, decision.bit)).collect();
    assert_eq!(told, (20..30).map(|number| (Some(number), false)).collect::<Vec<_>>());
}

/// The bit of each slot of a chain.
fn bit_of(slot: u64) -> bool {
    slot % 3 == 1
}

/// Decides these slots of a chain by eight threads, each in the order of its slots.
fn decide_all(cluster: &Cluster, slots: std::ops::Range<u64>) {
    thread::scope(|scope| {
        for part in 0..8 {
            let own = slots.clone().skip(part).step_by(8);
            scope.spawn(|| {
                own.for_each(|slot| {
                    assert_eq!(cluster.decide(slot, bit_of(slot), MINUTE), Ok(bit_of(slot)))
                });
            });
        }
    });
}

#[test]
fn a_chain_goes_on_over_epochs_and_kills() {
    let Some(members) = Members::start_chain(16) else { return };
    let path = members.folder.join("client.toml");
    let cluster = Cluster::open(&path).unwrap();
    assert!(cluster.settings().is_chain());
    decide_all(&cluster, 0..40);
    members.kill(2);
    decide_all(&cluster, 40..80);
    members.restart(2);
    decide_all(&cluster, 80..96);
    assert!((0..96).all(|slot| cluster.ask(slot, PATIENCE) == Ok(Some(bit_of(slot)))));
    assert_eq!(cluster.wait(96, PATIENCE / 10), Err(Error::Undecided(vec![])));
    // Whoever comes later follows from the beginning or from any slot on.
    let another = Cluster::open(&path).unwrap();
    for (from, count) in [(0, 96), (37, 59), (80, 16)] {
        let mut followed = another.follow_from(from).unwrap();
        let mut told: Vec<_> = followed.by_ref().take(count).collect();
        told.sort_unstable_by_key(|decision| decision.question);
        assert!(told.iter().map(|decision| decision.question).eq(from..96), "{from}: {told:?}");
        assert!(told.iter().all(|decision| decision.bit == bit_of(decision.question)));
        assert_eq!(followed.next_within(PATIENCE / 20), None);
    }
    let told: Vec<_> = another.follow_member(0, 30).unwrap().take(66).collect();
    assert!(told.iter().map(|decision| decision.number.unwrap()).eq(30..96));
    assert!(told.iter().all(|decision| decision.bit == bit_of(decision.question)));
    assert_eq!(another.decide(3, !bit_of(3), MINUTE), Ok(bit_of(3)));
}

#[test]
fn slots_of_a_chain_that_are_far_or_gone() {
    let Some(members) = Members::start_chain(8) else { return };
    let cluster = Cluster::open(members.folder.join("client.toml")).unwrap();
    for far in [70_000, u64::MAX] {
        assert_eq!(cluster.ask(far, PATIENCE), Ok(None));
        let stages = cluster.state(far, PATIENCE).unwrap();
        assert!(stages.iter().all(|state| state.stage == Some(Stage::Unproposed)));
        assert!(matches!(cluster.decide(far, true, MINUTE), Err(Error::TooFar(_))));
        let answers = cluster.propose(far, true, PATIENCE).unwrap();
        assert!(answers.iter().all(|answer| answer.refusal == Some(Refusal::TooFar)));
    }
    decide_all(&cluster, 0..40);
    members.put_away(1, 2);
    assert_eq!(cluster.ask_member(1, 3, PATIENCE), Err(Error::Gone(vec![1])));
    assert_eq!(cluster.ask_member(1, 16, PATIENCE), Ok(Some(bit_of(16))));
    assert_eq!(cluster.state(15, PATIENCE).unwrap()[1].stage, Some(Stage::Gone));
    let answers = cluster.propose(3, true, PATIENCE).unwrap();
    assert_eq!((answers[1].stands, answers[1].refusal), (None, Some(Refusal::Gone)));
    assert_eq!(cluster.ask(3, PATIENCE), Ok(Some(bit_of(3))));
    assert_eq!(cluster.decide(3, !bit_of(3), MINUTE), Ok(bit_of(3)));
    members.put_away(2, 2);
    members.put_away(3, 2);
    let gone = Error::Gone(vec![1, 2, 3]);
    assert_eq!(cluster.ask(3, PATIENCE), Err(gone.clone()));
    assert_eq!(cluster.wait(3, MINUTE), Err(gone.clone()));
    assert_eq!(cluster.decide(3, true, MINUTE), Err(gone));
    decide_all(&cluster, 40..56);
    let mut told: Vec<_> = cluster.follow().unwrap().take(40).map(|it| it.question).collect();
    told.sort_unstable();
    assert!(told.into_iter().eq(16..56));
}

#[test]
fn a_slot_that_was_left_out_is_decided_late() {
    let Some(members) = Members::start_chain(8) else { return };
    let path = members.folder.join("client.toml");
    let cluster = Cluster::open(&path).unwrap();
    decide_all(&cluster, 0..5);
    decide_all(&cluster, 6..24); // followers are held back at slot 5
    assert_eq!(cluster.ask(5, PATIENCE), Ok(None));
    let another = Cluster::open(&path).unwrap();
    thread::scope(|scope| {
        let waits = scope.spawn(|| another.wait(5, MINUTE));
        assert_eq!(cluster.decide(5, true, MINUTE), Ok(true));
        assert_eq!(waits.join().unwrap(), Ok(true));
    });
    decide_all(&cluster, 24..32);
}

#[test]
fn a_liar_and_kills_in_a_chain() {
    let Some(members) = Members::start_chain(16) else { return };
    let all = Settings::read(members.folder.join("client.toml")).unwrap();
    let liar = Desk::new(|line, link| {
        let words: Vec<&str> = line.split(' ').collect();
        let lie = |slot: u64| u8::from(!bit_of(slot));
        match words[0] {
            "FOLLOW" => {
                let first: u64 = words[1].parse().unwrap();
                let mut lies = (first..).map(|slot| format!("DECIDED {slot} {}\n", lie(slot)));
                while link.say(&lies.by_ref().take(1000).collect::<String>()) {}
                false
            }
            "ASK" => link.say(&format!("DECIDED {}\n", lie(words[1].parse().unwrap()))),
            _ => link.say("OK\n"),
        }
    });
    let mut desks = all.desks().to_vec();
    desks[3] = liar.address;
    let cluster = Cluster::new(Settings::new(7, 1, 16, desks).unwrap().in_chain()).unwrap();
    // The member at the liar's place runs too, and is proposed to by another client.
    let other = Cluster::new(all).unwrap();
    thread::scope(|scope| {
        scope.spawn(|| decide_all(&other, 0..160));
        for member in 0..3 {
            decide_all(&cluster, 48 * member..48 * (member + 1));
            members.restart(member as usize);
        }
    });
    let mut told: Vec<_> = cluster.follow().unwrap().take(144).collect();
    told.sort_unstable_by_key(|decision| decision.question);
    assert!(told.iter().map(|decision| decision.question).eq(0..144));
    assert!(told.iter().all(|decision| decision.bit == bit_of(decision.question)));
}
