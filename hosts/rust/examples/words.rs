//! A first run of the grammar of words and tags: the value is the number of words.
use segment::{Kind, Refusal, Run, Table};

const WORD: u8 = 0;
const OPEN: u8 = 1;
const CLOSE: u8 = 2;

fn main() -> Result<(), Refusal> {
    let bytes = include_bytes!("../../../grammars/words.table");
    let table = Table::new(*bytes)?;
    println!("{table:?}");
    println!("production 2: {} bytes of {}", table.stretch(2)?.len(), table.bytes().len());

    let mut run = table.run();
    println!("word open: {} moves", run.feed(&[WORD, OPEN])?);
    println!("registers from the top: {:?}", run.registers().rev().collect::<Vec<_>>());
    println!("places from the bottom: {:?}", run.places());
    println!("word close: {} moves", run.feed(&[WORD, CLOSE])?);
    println!("value {} after {} tokens and {} moves", run.finish()?, run.tokens(), run.moves());
    println!("word word word: value {}", run.evaluate(&[WORD; 3])?);

    for tokens in [&[WORD, CLOSE][..], &[OPEN], &[OPEN; 4]] {
        match run.evaluate(tokens) {
            Ok(value) => println!("value {value}"),
            Err(refusal) if refusal.kind() == Kind::ConditionFalse => println!("nested too deep: {refusal}"),
            Err(refusal) => println!("{refusal}"),
        }
    }
    let mut short = Run::with_room(&table, 64, 16)?.with_budget(20);
    println!("word word word with 20 moves: {}", short.evaluate(&[WORD; 3]).unwrap_err());
    println!("half a table: {}", Table::new(&bytes[..100]).unwrap_err());
    Ok(())
}
