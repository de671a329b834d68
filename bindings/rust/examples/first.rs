//! first: what member 1 of four answers to one statement, and why it is saved before it is sent.
//!
//!     BRACHA_LIBRARY_DIR=FOLDER cargo run --example first

use bracha::{Core, Fault, Size, Statement, statement_frame};

fn main() -> Result<(), Fault> {
    let size = Size { n: 4, t: 1, questions: 1 };
    let mut core = Core::open(size, 1, &[])?;
    let initial = Statement([1, 0, 0, 0, 1, 1, 1]);

    println!("member 0 says to member 1: {initial:?}");
    let answer = core.hear(0, &initial, 0)?;
    println!("  {:?}, {} record to be saved", answer.outcome(), answer.records().len() / 7);
    let mut journal = Vec::new();
    let save = |records: &[u8]| {
        journal.extend_from_slice(records); // a real member writes to its disk here, and syncs
        Ok::<(), Fault>(())
    };
    for due in answer.save(save)? {
        let frame: String = statement_frame(&due)?.iter().map(|b| format!("{b:02x}")).collect();
        println!("  it is saved, so send to all: {due:?}, as the frame {frame}");
    }

    println!("member 0 says the same again: {:?}", core.hear(0, &initial, 0)?.outcome());
    println!("member 2 sends member 0's Initial: {:?}", core.hear(2, &initial, 0)?.outcome());

    let mut again = Core::open(size, 1, &journal)?;
    let answer = again.hear(0, &initial, 0)?;
    println!(
        "after a restart from the journal, once more: {:?}, {} records, for the Echo was said",
        answer.outcome(),
        answer.records().len() / 7
    );
    Ok(())
}
