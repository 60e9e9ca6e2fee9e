//! Tokens that carry a value: a word comes with its length, 1 to 40, and the value is the length of all words together.
use segment::{Refusal, Table};

const WORD: u8 = 0;
const OPEN: u8 = 1;
const CLOSE: u8 = 2;

/// The tokens of a text: words with their lengths, and brackets.
fn tokens(text: &str) -> (Vec<u8>, Vec<i32>) {
    let token = |word: &str| match word {
        "(" => (OPEN, 0),
        ")" => (CLOSE, 0),
        _ => (WORD, word.chars().count() as i32),
    };
    text.split_whitespace().map(token).unzip()
}

fn main() -> Result<(), Refusal> {
    let table = Table::new(*include_bytes!("../../../grammars/lengths.table"))?;
    let mut run = table.run();
    for text in ["the seller ( if any ) warrants", "( )", &"x".repeat(41)] {
        let (kinds, values) = tokens(text);
        match run.evaluate_values(&kinds, &values) {
            Ok(value) => println!("{text}: {value} letters, {} moves", run.moves()),
            Err(refusal) => println!("{text}: {refusal}"),
        }
    }
    let (kinds, values) = tokens("the seller ( if");
    run.restart()?;
    run.feed_values(&kinds, &values)?;
    println!("stopped behind `if`, registers from the top: {:?}", run.registers().rev().collect::<Vec<_>>());
    println!("{}", run.feed_values(&[WORD, WORD], &[4]).unwrap_err());
    Ok(())
}
