//! Suggestions for a segment, ranked: words with their lengths, the longest text first.
use segment::{Refusal, Table};

const WORD: u8 = 0;
const OPEN: u8 = 1;
const CLOSE: u8 = 2;

fn main() -> Result<(), Refusal> {
    let lengths = Table::new(*include_bytes!("../../../grammars/lengths.table"))?;
    let suggestions: [(&str, &[(u8, i32)]); 5] = [
        ("the seller", &[(WORD, 3), (WORD, 6)]),
        ("the seller (or his agent)", &[(WORD, 3), (WORD, 6), (OPEN, 0), (WORD, 2), (WORD, 3), (WORD, 5), (CLOSE, 0)]),
        ("the vendor", &[(WORD, 3), (WORD, 6)]),
        ("the seller (or", &[(WORD, 3), (WORD, 6), (OPEN, 0), (WORD, 2)]),
        ("", &[]),
    ];
    let ranking = lengths.rank_values(&suggestions.map(|(_, tokens)| tokens))?;
    for entry in ranking.entries() {
        let (text, _) = suggestions[entry.number];
        match entry.outcome {
            Ok(letters) => println!("{letters:3} `{text}`"),
            Err(kind) => println!("  - `{text}`: refused {}, {}", kind.number(), kind.reason()),
        }
    }
    println!("{} of {}, {} letters together", ranking.valued(), suggestions.len(), ranking.total());
    Ok(())
}
