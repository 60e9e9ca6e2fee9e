//! A footnote inside an unfinished segment: words with their lengths, and a note in which words are counted.
use segment::{Refusal, Table};

const WORD: u8 = 0;
const OPEN: u8 = 1;
const CLOSE: u8 = 2;

fn main() -> Result<(), Refusal> {
    let lengths = Table::new(*include_bytes!("../../../grammars/lengths.table"))?;
    let words = Table::new(*include_bytes!("../../../grammars/words.table"))?;
    let mut run = lengths.run();
    run.feed_values(&[WORD, WORD, OPEN], &[3, 6, 0])?;
    println!("`the seller (`: {run:?}");

    let mut note = run.open_inner(&words)?;
    note.feed(&[WORD, WORD])?;
    println!("two words of a note: {note:?}");
    println!("the text goes on too early: {}", run.feed_values(&[WORD], &[2]).unwrap_err());
    let mut note = run.inner().expect("the run waits for it");
    println!("the note has {} words", note.finish()?);

    let mut note = run.open_inner(&words)?;
    println!("another note: {}", note.feed(&[WORD, CLOSE]).unwrap_err());
    let mut note = run.open_inner(&words)?;
    note.feed(&[WORD])?;
    println!("and one that is given up after {} moves", note.give_up()?);

    run.feed_values(&[WORD, WORD, CLOSE], &[2, 3, 0])?;
    println!("the text has {} letters, {} moves", run.finish()?, run.moves());
    println!("without notes: {} letters, {} moves", run.evaluate_values(&[0, 0, 1, 0, 0, 2], &[3, 6, 0, 2, 3, 0])?, run.moves());
    Ok(())
}
