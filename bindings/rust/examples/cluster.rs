//! cluster [SEED [QUESTIONS]]: four members in one process. Every statement is delivered in a
//! random order, member 3 lies to each other member in another way, and member 1 is closed in
//! mid-run and opened again from its saved records.
//!
//!     BRACHA_LIBRARY_DIR=FOLDER cargo run --release --example cluster 1 16
//!
//! It ends with status 0 if the three correct members decided every question alike.

use bracha::{Answer, Core, Decision, Fault, Size, Statement, Statements, Toss, audit};

const LIAR: u8 = 3;
/// After so many deliveries a question, member 1 is opened again.
const RESTART: usize = 150;

/// A statement on its way.
struct Letter {
    from: u8,
    to: u8,
    statement: Statement,
}

/// A correct member, with its journal in memory.
struct Member {
    me: u8,
    core: Core,
    toss: Toss,
    journal: Vec<u8>,
    /// What it heard since it was opened, with the senders: the proof of its decisions.
    heard: Vec<[u8; 8]>,
}

impl Member {
    fn open(size: Size, me: u8, seed: u64, journal: Vec<u8>) -> Result<Member, Fault> {
        let core = Core::open(size, me, &journal)?;
        let mut secret = [me; 32]; // a real seed is drawn from the system, and nobody else knows it
        secret[..8].copy_from_slice(&seed.to_be_bytes());
        let toss = Toss::open(&secret, journal.len() as u64 / 7)?; // another stream in each life
        Ok(Member { me, core, toss, journal, heard: Vec::new() })
    }

    fn propose(&mut self, question: u16, bit: bool) -> Result<Vec<Statement>, Fault> {
        let answer = self.core.propose(question, bit, self.toss.draw())?;
        save(answer, &mut self.journal)
    }

    fn hear(&mut self, from: u8, statement: &Statement) -> Result<Vec<Statement>, Fault> {
        let [kind, high, low, origin, round, step, value] = statement.0;
        self.heard.push([from, kind, high, low, origin, round, step, value]);
        let answer = self.core.hear(from, statement, self.toss.draw())?;
        save(answer, &mut self.journal)
    }
}

/// Saves the records of an answer, and returns the statements that may now be sent.
fn save(answer: Answer<'_>, journal: &mut Vec<u8>) -> Result<Vec<Statement>, Fault> {
    let due = answer.save(|records| {
        journal.extend_from_slice(records); // a real member writes and syncs here
        Ok::<(), Fault>(())
    })?;
    Ok(due.collect())
}

/// Random numbers of the network. (Splitmix64: it decides nothing but the order.)
struct Draw(u64);

impl Draw {
    fn below(&mut self, most: usize) -> usize {
        self.0 = self.0.wrapping_add(0x9e37_79b9_7f4a_7c15);
        let mut z = self.0;
        z = (z ^ (z >> 30)).wrapping_mul(0xbf58_476d_1ce4_e5b9);
        z = (z ^ (z >> 27)).wrapping_mul(0x94d0_49bb_1331_11eb);
        ((z ^ (z >> 31)) % most as u64) as usize
    }
}

/// Sends each statement to the three correct members, the sender included.
fn send(post: &mut Vec<Letter>, from: u8, said: Vec<Statement>) {
    for statement in said {
        post.extend((0..LIAR).map(|to| Letter { from, to, statement }));
    }
}

/// All lies of member 3 on a question: in four rounds its Initials, and Echos and Readys of all
/// places, with a value of its own for each receiver.
fn lie(post: &mut Vec<Letter>, draw: &mut Draw, question: u16) {
    let [high, low] = question.to_be_bytes();
    for (to, round, step) in
        (0..LIAR).flat_map(|to| (1..=12).map(move |at| (to, 1 + (at - 1) / 3, 1 + (at - 1) % 3)))
    {
        for (kind, origin) in (1..=3).flat_map(|kind| (0..4).map(move |origin| (kind, origin))) {
            let value = if step == 3 { 2 + draw.below(3) } else { draw.below(2) } as u8;
            if kind > 1 || origin == LIAR {
                let statement = Statement([kind, high, low, origin, round, step, value]);
                post.push(Letter { from: LIAR, to, statement });
            }
        }
    }
}

/// Opens member 1 again. What was on its way to it is lost, and it has heard nothing: each member
/// says all to it once more.
fn restart(
    members: &mut [Member],
    post: &mut Vec<Letter>,
    size: Size,
    seed: u64,
) -> Result<(), Fault> {
    let journal = core::mem::take(&mut members[1].journal);
    println!("member 1 is closed, and opened again from its {} saved records", journal.len() / 7);
    members[1] = Member::open(size, 1, seed, journal)?;
    post.retain(|letter| letter.to != 1);
    for member in members.iter() {
        let said = Statements::of(&member.journal);
        post.extend(said.map(|statement| Letter { from: member.me, to: 1, statement }));
    }
    Ok(())
}

/// Delivers all letters, and those that they bring, in a random order. Returns their number.
fn deliver(
    members: &mut [Member],
    mut post: Vec<Letter>,
    draw: &mut Draw,
    size: Size,
    seed: u64,
) -> Result<usize, Fault> {
    let mut heard = 0;
    while !post.is_empty() {
        let at = draw.below(post.len());
        let letter = post.swap_remove(at);
        let said = members[letter.to as usize].hear(letter.from, &letter.statement)?;
        send(&mut post, letter.to, said);
        heard += 1;
        if heard == RESTART * usize::from(size.questions) {
            restart(members, &mut post, size, seed)?;
        }
    }
    Ok(heard)
}

/// Prints what was decided on a question. Returns the round of the last of the three, if they
/// decided alike.
fn show(members: &mut [Member], question: u16) -> Option<u8> {
    let decisions: Vec<Option<Decision>> =
        members.iter_mut().map(|member| member.core.verdict(question)).collect();
    let all: Option<Vec<Decision>> = decisions.into_iter().collect();
    let Some(all) = all else {
        println!("question {question}: undecided");
        return None;
    };
    let rounds: Vec<u8> = all.iter().map(|decision| decision.round).collect();
    println!("question {question}: bit {}, decided in rounds {rounds:?}", u8::from(all[0].bit));
    let alike = all.iter().all(|decision| decision.bit == all[0].bit);
    alike.then(|| rounds.into_iter().max().unwrap_or(0))
}

fn main() -> Result<(), Box<dyn std::error::Error>> {
    let words: Vec<u64> =
        std::env::args().skip(1).map(|word| word.parse()).collect::<Result<_, _>>()?;
    let seed = words.first().copied().unwrap_or(1);
    let questions = u16::try_from(words.get(1).copied().unwrap_or(16))?;
    let size = Size { n: 4, t: 1, questions };
    let mut draw = Draw(seed);
    let mut post = Vec::new();
    let mut members = (0..LIAR)
        .map(|me| Member::open(size, me, seed, Vec::new()))
        .collect::<Result<Vec<_>, _>>()?;
    for question in 0..questions {
        for member in &mut members {
            let said = member.propose(question, (u16::from(member.me) + question) % 2 == 1)?;
            send(&mut post, member.me, said);
        }
        lie(&mut post, &mut draw, question);
    }
    let heard = deliver(&mut members, post, &mut draw, size, seed)?;
    let rounds: Vec<Option<u8>> = (0..questions).map(|at| show(&mut members, at)).collect();
    let Some(rounds) = rounds.into_iter().collect::<Option<Vec<u8>>>() else {
        return Err("a question is undecided, or was decided differently".into());
    };
    for question in 0..questions {
        let bit = members[0].core.verdict(question).is_some_and(|decision| decision.bit);
        let proof = &members[0].heard;
        if !audit(size, question, bit, proof)? || audit(size, question, !bit, proof)? {
            return Err("what member 0 heard proves something else".into());
        }
    }
    let last = rounds.into_iter().max().unwrap_or(0);
    println!(
        "heard {heard} statements; {questions} questions decided alike, the last in round {last}"
    );
    println!("what member 0 heard proves each decision to somebody who took no part");
    Ok(())
}
