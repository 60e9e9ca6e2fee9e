//! The five slips of docs/CLASSROOM.md as pages.
use crate::slips::Slip;

/// A lesson: the slip, its grammar and segment, the registers and places lent, and what it is about.
pub struct Lesson {
    pub number: usize,
    pub title: &'static str,
    pub words: &'static str,
    pub grammar: &'static str,
    pub tokens: &'static [&'static str],
    pub room: (usize, usize),
    pub slip: Slip,
}

const WORDS: &str = include_str!("../../../../grammars/words.grammar");
const PRICE: &str = include_str!("../../../../grammars/price.grammar");

pub const LESSONS: &[Lesson] = &[
    Lesson {
        number: 1,
        title: "Slip 1: registers are counted from the bottom",
        words: "\u{201c}Register 1 is the first one that was added.\u{201d} Look at moves 3 and 7: which register is written, and which is read?",
        grammar: WORDS,
        tokens: &["word"],
        room: (4096, 1024),
        slip: Slip::BottomFirst,
    },
    Lesson {
        number: 2,
        title: "Slip 2: after a false condition another alternative is tried",
        words: "\u{201c}If it doesn't work out like this, the machine goes back and takes the other production.\u{201d} The price list: at most 6.",
        grammar: PRICE,
        tokens: &["word", "word", "word", "word"],
        room: (4096, 1024),
        slip: Slip::TriesAnother,
    },
    Lesson {
        number: 3,
        title: "Slip 3: what may follow an empty part matters only at the end",
        words: "\u{201c}L may be nothing, so when the segment is over, the last L is nothing.\u{201d} Look at what is predicted when `close` comes.",
        grammar: WORDS,
        tokens: &["open", "close"],
        room: (4096, 1024),
        slip: Slip::FollowAtEnd,
    },
    Lesson {
        number: 4,
        title: "Slip 4: a long clause is only slower",
        words: "\u{201c}It's a stream; a longer segment just takes more time.\u{201d} Here 5 places are lent; three words need six.",
        grammar: WORDS,
        tokens: &["word", "word", "word"],
        room: (4096, 5),
        slip: Slip::NoLimits,
    },
    Lesson {
        number: 5,
        title: "Slip 5: a value is written before the height is tested",
        words: "\u{201c}Write it, then look whether it was too much; the run is refused anyway.\u{201d} Here 4 registers are lent.",
        grammar: WORDS,
        tokens: &["word"],
        room: (4, 4),
        slip: Slip::WritesFirst,
    },
];

/// The lesson with this number.
pub fn lesson(number: usize) -> Option<&'static Lesson> {
    LESSONS.iter().find(|l| l.number == number)
}
