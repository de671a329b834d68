//! What the crate promises of the library, from outside: each error, the journal over a disk that
//! fails, and cuts of streams.

use bracha::{
    Core, Decision, Disk, FRAME_ROOM, Fault, Feeder, Hello, IDLE, Journal, JournalFault, Member,
    Message, Outcome, Size, Statement, Statements, Toss, audit, decisions, idle_frame,
    library_version, statement_frame, statements_frame, welcome_frame,
};

const FOUR: Size = Size { n: 4, t: 1, questions: 2 };
const ONE: Size = Size { n: 1, t: 0, questions: 1 };
const INITIAL: Statement = Statement([1, 0, 0, 0, 1, 1, 1]);

fn size(n: u8, t: u8, questions: u16) -> Size {
    Size { n, t, questions }
}

/// Has a member by itself decide 1 on question 0, and returns its records and what it heard.
fn alone() -> (Vec<u8>, Vec<[u8; 8]>) {
    let mut core = Core::open(ONE, 0, &[]).unwrap();
    let mut records = core.propose(0, true, 0).unwrap().records().to_vec();
    let (mut heard, mut at) = (Vec::new(), 0);
    while let Some(own) = Statements::of(&records).nth(at) {
        records.extend_from_slice(core.hear(0, &own, 0).unwrap().records());
        let [kind, high, low, origin, round, step, value] = own.0;
        heard.push([0, kind, high, low, origin, round, step, value]);
        at += 1;
    }
    assert_eq!(core.verdict(0), Some(Decision { round: 1, bit: true }));
    (records, heard)
}

#[test]
fn the_version_is_this_crates() {
    let (major, minor, patch) = library_version();
    assert_eq!(format!("{major}.{minor}.{patch}"), env!("CARGO_PKG_VERSION"));
}

#[test]
fn values_move_between_threads() {
    fn sends<T: Send>() {}
    sends::<Core>();
    sends::<Feeder>();
    sends::<Toss>();
    sends::<Journal<Bytes>>();
    let mut core = Core::open(FOUR, 1, &[]).unwrap();
    let moved = std::thread::spawn(move || core.propose(0, true, 0).unwrap().records().len());
    assert_eq!(moved.join().unwrap(), 7);
}

#[test]
fn sizes() {
    for (of, fault) in [
        (size(0, 0, 1), Fault::NoMembers),
        (size(65, 0, 1), Fault::TooManyMembers),
        (size(3, 1, 1), Fault::TooManyLiars),
        (size(4, 1, 0), Fault::NoQuestions),
        (size(4, 1, 4097), Fault::TooManyQuestions),
    ] {
        assert_eq!(Core::open(of, 0, &[]).err(), Some(fault));
        assert_eq!(Feeder::open(of).err(), Some(fault));
        assert_eq!(audit(of, 0, true, &[]).err(), Some(fault));
        let hello = Hello { version: 2, cluster: 7, size: of, from: 0, to: 0 };
        assert_eq!(hello.frame().err(), Some(fault));
        assert!(!format!("{fault}").is_empty());
    }
    assert_eq!(Core::open(FOUR, 4, &[]).err(), Some(Fault::NoSuchMember));
    assert!(Core::open(size(64, 21, 4096), 63, &[]).is_ok());
}

#[test]
fn records() {
    let of = |records: &[u8]| Core::open(FOUR, 0, records).err();
    assert_eq!(of(&[1, 0, 0, 0, 1, 1]), Some(Fault::BadRecords));
    assert_eq!(of(&[4, 0, 0, 0, 33, 0, 1]), Some(Fault::BadRecords));
    assert_eq!(of(&[4, 0, 2, 0, 1, 0, 1]), Some(Fault::NoSuchQuestion));
    assert_eq!(of(&[2, 0, 0, 4, 1, 1, 1]), Some(Fault::NoSuchMember));
    let mut core = Core::open(FOUR, 0, &[4, 0, 1, 0, 2, 0, 1]).unwrap();
    assert_eq!(core.verdict(1), Some(Decision { round: 2, bit: true }));
    assert_eq!((core.verdict(0), core.verdict(2)), (None, None));
}

#[test]
fn answers() {
    let mut core = Core::open(FOUR, 1, &[]).unwrap();
    let mut hear = |from, bytes| core.hear(from, &Statement(bytes), 0).map(|a| a.outcome());
    assert_eq!(hear(2, INITIAL.0), Ok(Outcome::Foreign));
    assert_eq!(hear(0, INITIAL.0), Ok(Outcome::Taken));
    assert_eq!(hear(0, [1, 0, 0, 0, 1, 1, 0]), Ok(Outcome::Repeat));
    assert_eq!(hear(4, INITIAL.0), Err(Fault::NoSuchMember));
    assert_eq!(hear(0, [2, 0, 0, 4, 1, 1, 1]), Err(Fault::NoSuchMember));
    assert_eq!(hear(0, [1, 0, 2, 0, 1, 1, 1]), Err(Fault::NoSuchQuestion));
    assert_eq!(hear(0, [4, 0, 0, 0, 1, 1, 1]), Err(Fault::BadStatement));
    let mut propose = |question, bit| core.propose(question, bit, 0).map(|a| a.outcome());
    assert_eq!(propose(0, false), Ok(Outcome::Taken));
    assert_eq!(propose(0, true), Ok(Outcome::Have(false)));
    assert_eq!(propose(1, true), Ok(Outcome::Taken));
    assert_eq!(propose(1, true), Ok(Outcome::Have(true)));
    assert_eq!(propose(2, true), Err(Fault::NoSuchQuestion));
}

#[test]
fn nothing_is_sent_if_it_was_not_saved() {
    let mut core = Core::open(FOUR, 1, &[]).unwrap();
    let answer = core.hear(0, &INITIAL, 0).unwrap();
    assert_eq!(answer.save(|_| Err("the disk is full")).err(), Some("the disk is full"));
    let answer = core.hear(0, &INITIAL, 0).unwrap();
    let said = answer.save(|_| -> Result<(), ()> { panic!("there is nothing to save") });
    assert_eq!(said.unwrap().count(), 0);
}

#[test]
fn what_was_heard_proves_the_decision() {
    let (records, heard) = alone();
    assert_eq!(decisions(&records).collect::<Vec<_>>(), [(0, Decision { round: 1, bit: true })]);
    assert_eq!(audit(ONE, 0, true, &heard), Ok(true));
    assert_eq!(audit(ONE, 0, false, &heard), Ok(false));
    assert_eq!(audit(ONE, 0, true, &heard[1..3]), Ok(false));
    assert_eq!(audit(ONE, 1, true, &heard), Ok(false)); // there is no such question
    let others: Vec<[u8; 8]> = heard
        .iter()
        .map(|pair| [1, pair[1], pair[2], pair[3], pair[4], pair[5], pair[6], pair[7]])
        .collect();
    assert_eq!(audit(ONE, 0, true, &others), Ok(false)); // there is no such member
    assert_eq!(audit(ONE, 0, true, &[[0, 9, 0, 0, 0, 1, 1, 1]]), Err(Fault::BadStatement));
    let mut again = Core::open(ONE, 0, &records).unwrap();
    assert_eq!(again.verdict(0), Some(Decision { round: 1, bit: true }));
}

#[test]
fn frames() {
    assert_eq!(idle_frame().unwrap(), IDLE);
    assert_eq!(welcome_frame(1).unwrap(), [0, 9, 2, 0, 0, 0, 0, 0, 0, 0, 1]);
    assert_eq!(statement_frame(&INITIAL).unwrap(), [0, 8, 3, 1, 0, 0, 0, 1, 1, 1]);
    assert_eq!(statement_frame(&Statement([1, 0, 0, 0, 1, 3, 1])), Err(Fault::BadStatement));
    let hello = |version, to| Hello { version, cluster: 7, size: FOUR, from: 0, to }.frame();
    assert_eq!(hello(2, 1).unwrap(), [0, 16, 1, 2, 0, 0, 0, 0, 0, 0, 0, 7, 4, 1, 0, 2, 0, 1]);
    assert_eq!(hello(1, 4), Err(Fault::NoSuchMember));
    assert_eq!(hello(3, 1), Err(Fault::BadVersion));
    let mut frame = [0; FRAME_ROOM];
    assert_eq!(statements_frame(&[], &mut frame), Err(Fault::BadStatement));
    assert_eq!(statements_frame(&[INITIAL; 100], &mut frame), Err(Fault::BadStatement));
    assert_eq!(statements_frame(&[INITIAL; 99], &mut frame), Ok(FRAME_ROOM));
    assert_eq!(statements_frame(&[INITIAL], &mut frame), Ok(10));
    assert_eq!(frame[..10], statement_frame(&INITIAL).unwrap());
}

/// The messages of a stream in words, fed in chunks of this length, and the first error.
fn read(stream: &[u8], chunk: usize) -> (Vec<String>, Result<(), Fault>) {
    let mut feeder = Feeder::open(FOUR).unwrap();
    let (mut told, mut end) = (Vec::new(), Ok(()));
    for bytes in stream.chunks(chunk) {
        end = end.and(feeder.feed(bytes));
        while let Some(message) = feeder.next_message() {
            told.push(match message {
                Message::Statements(said) => format!("{:?}", said.collect::<Vec<_>>()),
                other => format!("{other:?}"),
            });
        }
    }
    (told, end)
}

#[test]
fn a_stream_reads_the_same_however_it_is_cut() {
    let mut frame = [0; FRAME_ROOM];
    let echo = Statement([2, 0, 1, 3, 2, 3, 4]);
    let length = statements_frame(&[INITIAL, echo, INITIAL], &mut frame).unwrap();
    let hello = Hello { version: 1, cluster: u64::MAX, size: FOUR, from: 3, to: 0 };
    let mut stream = hello.frame().unwrap().to_vec();
    stream.extend(welcome_frame(1 << 40).unwrap());
    stream.extend(&frame[..length]);
    stream.extend(IDLE);
    stream.extend(statement_frame(&echo).unwrap());
    let (told, end) = read(&stream, stream.len());
    assert_eq!(end, Ok(()));
    assert_eq!(told.len(), 5);
    assert_eq!(told[0], format!("{:?}", Message::Hello(hello)));
    assert_eq!(told[1], format!("Welcome({})", 1u64 << 40));
    assert_eq!(told[4], "[Echo Unsure (question 1, origin 3, round 2, step 3)]");
    for chunk in 1..stream.len() {
        assert_eq!(read(&stream, chunk), (told.clone(), Ok(())));
    }
    stream.extend([0, 8, 3, 1, 0, 2]); // a question that there isn't
    for chunk in 1..stream.len() {
        assert_eq!(read(&stream, chunk), (told.clone(), Err(Fault::Broken)));
    }
}

#[test]
fn tosses_are_their_seeds_and_streams() {
    let draw = |seed: u8, stream| {
        let mut toss = Toss::open(&[seed; 32], stream).unwrap();
        [toss.draw(), toss.draw(), toss.draw()]
    };
    assert_eq!(draw(1, 5), draw(1, 5));
    assert_ne!(draw(1, 5), draw(1, 6));
    assert_ne!(draw(1, 5), draw(2, 5));
    assert_ne!(draw(1, 5)[0], draw(1, 5)[1]);
}

/// The first test vector of ChaCha20's block function for a key of zeros, nonce and counter 0 (RFC
/// 8439, A.1): its words in pairs, the low one first.
#[test]
fn tosses_are_of_chacha20() {
    let mut toss = Toss::open(&[0; 32], 0).unwrap();
    assert_eq!(toss.draw().to_le_bytes(), [0x76, 0xb8, 0xe0, 0xad, 0xa0, 0xf1, 0x3d, 0x90]);
    assert_eq!(toss.draw().to_le_bytes(), [0x40, 0x5d, 0x6a, 0xe5, 0x53, 0x86, 0xbd, 0x28]);
}

/// A disk in memory, of which each call fails once so many were made.
#[derive(Clone, Default)]
struct Bytes {
    /// What was written, and what was synced of it.
    seen: Vec<u8>,
    synced: Vec<u8>,
    calls: usize,
    fails_at: Option<usize>,
}

impl Bytes {
    fn call(&mut self) -> Result<(), &'static str> {
        self.calls += 1;
        if self.fails_at.is_some_and(|at| self.calls > at) {
            Err("the disk failed")
        } else {
            Ok(())
        }
    }
}

impl Disk for Bytes {
    type Error = &'static str;

    fn write_at(&mut self, at: u64, bytes: &[u8]) -> Result<(), Self::Error> {
        self.call()?;
        let (at, end) = (at as usize, at as usize + bytes.len());
        self.seen.resize(self.seen.len().max(end), 0);
        self.seen[at..end].copy_from_slice(bytes);
        Ok(())
    }

    fn sync(&mut self) -> Result<(), Self::Error> {
        self.call()?;
        self.synced.clone_from(&self.seen);
        Ok(())
    }
}

const MEMBER: Member = Member { cluster: 7, size: ONE, me: 0 };

/// Opens what is on a disk, and returns its records.
fn records_on(file: &[u8]) -> Vec<u8> {
    Journal::open(Bytes::default(), &MEMBER, file).unwrap().1
}

#[test]
fn an_opening_syncs_before_it_hands_records_out() {
    let head = Journal::create(Bytes::default(), &MEMBER).unwrap().into_disk().synced;
    let fails = Bytes { fails_at: Some(0), ..Bytes::default() };
    assert!(matches!(Journal::open(fails, &MEMBER, &head), Err(JournalFault::Disk(_))));
    let (journal, _) = Journal::open(Bytes::default(), &MEMBER, &head).unwrap();
    assert_eq!(journal.into_disk().calls, 1);
}

#[test]
fn a_journal_is_saved_batch_by_batch_wherever_it_fails() {
    let records = alone().0;
    let (first, second) = records.split_at(7 * 3);
    for fails_at in 0..=10 {
        let disk = Bytes { fails_at: Some(fails_at), ..Bytes::default() };
        let Ok(mut journal) = Journal::create(disk, &MEMBER) else {
            assert!(fails_at < 2); // the head: a write and a sync
            continue;
        };
        let saved = [first, second].map(|batch| journal.append(batch).is_ok());
        assert_eq!(saved, [fails_at >= 6, fails_at >= 10]); // two writes and two syncs each
        assert_eq!(journal.is_stopped(), fails_at < 10);
        if fails_at < 10 {
            assert!(matches!(journal.append(second), Err(JournalFault::Stopped)));
        }
        let disk = journal.into_disk();
        let kept = records_on(&disk.synced);
        assert_eq!(kept, &records[..kept.len()]);
        assert!(
            kept.len() >= [0, first.len(), records.len()][saved.iter().filter(|x| **x).count()]
        );
        assert!([0, first.len(), records.len()].contains(&records_on(&disk.seen).len()));
    }
}

#[test]
fn a_journal_goes_on_where_it_ended() {
    let records = alone().0;
    let mut journal = Journal::create(Bytes::default(), &MEMBER).unwrap();
    journal.append(&records[..7]).unwrap();
    journal.append(&[]).unwrap();
    let disk = journal.into_disk();
    let (mut journal, old) = Journal::open(disk.clone(), &MEMBER, &disk.synced).unwrap();
    assert_eq!(old, records[..7]);
    journal.append(&records[7..]).unwrap();
    assert_eq!(records_on(&journal.into_disk().synced), records);
}

#[test]
fn other_journals_are_refused() {
    let open = |member: &Member, file: &[u8]| match Journal::open(Bytes::default(), member, file) {
        Ok((_, records)) => Ok(records),
        Err(JournalFault::Library(fault)) => Err(fault),
        Err(other) => panic!("{other}"),
    };
    let mut journal = Journal::create(Bytes::default(), &MEMBER).unwrap();
    journal.append(&[1, 0, 0, 0, 1, 1, 1]).unwrap();
    let file = journal.into_disk().synced;
    assert_eq!(file.len(), 34);
    for other in [
        Member { cluster: 8, ..MEMBER },
        Member { me: 1, size: FOUR, ..MEMBER },
        Member { size: size(1, 0, 2), ..MEMBER },
    ] {
        assert_eq!(open(&other, &file), Err(Fault::OtherHeader));
    }
    assert_eq!(open(&Member { me: 1, ..MEMBER }, &file), Err(Fault::NoSuchMember));
    for length in 0..file.len() {
        let fault = if length < 24 { Fault::BadHeader } else { Fault::CutShort };
        assert_eq!(open(&MEMBER, &file[..length]), Err(fault), "cut at {length}");
    }
    let changed = |at: usize, byte| {
        let mut file = file.clone();
        file[at] = byte;
        open(&MEMBER, &file)
    };
    assert_eq!(changed(7, b'1'), Err(Fault::OldVersion));
    assert_eq!(changed(0, b'C'), Err(Fault::BadHeader));
    assert_eq!(changed(27, 9), Err(Fault::BadRecord));
    assert_eq!(open(&MEMBER, &file), Ok(vec![1, 0, 0, 0, 1, 1, 1]));
}

#[test]
fn records_that_are_none_are_not_saved() {
    let mut journal = Journal::create(Bytes::default(), &MEMBER).unwrap();
    for bad in [&[1, 0, 0, 0, 1, 1][..], &[9, 0, 0, 0, 1, 1, 1], &[4, 0, 0, 0, 1, 0, 2]] {
        let said = journal.append(bad);
        assert!(matches!(said, Err(JournalFault::Library(Fault::BadRecords))), "{said:?}");
    }
    let many = [1, 0, 0, 0, 1, 1, 1].repeat(65536);
    assert!(matches!(journal.append(&many), Err(JournalFault::Library(Fault::BadRecords))));
    journal.append(&many[7..]).unwrap();
    assert_eq!(records_on(&journal.into_disk().synced).len(), 7 * 65535);
}

#[cfg(feature = "std")]
#[test]
fn a_file_is_one_journal_at_a_time() {
    let folder = std::env::temp_dir().join(format!("bracha-{}", std::process::id()));
    std::fs::create_dir_all(&folder).unwrap();
    let path = folder.join("member-0.journal");
    assert!(Journal::open_file(&path, &MEMBER).is_err());
    let mut journal = Journal::create_file(&path, &MEMBER).unwrap();
    assert!(Journal::create_file(&path, &MEMBER).is_err());
    assert!(Journal::open_file(&path, &MEMBER).is_err()); // it is locked
    journal.append(&[1, 0, 0, 0, 1, 1, 1]).unwrap();
    drop(journal);
    let (journal, records) = Journal::open_file(&path, &MEMBER).unwrap();
    assert_eq!(records, [1, 0, 0, 0, 1, 1, 1]);
    drop(journal);
    std::fs::remove_dir_all(&folder).unwrap();
}
