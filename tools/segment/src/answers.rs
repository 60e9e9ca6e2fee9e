//! What answers look like: the calls' answers, records and stacks.
use engine::lent::{Record, CLOSED, INNER, MARK, WAITING};
use engine::Refusal;
use std::fmt::{self, Display, Formatter};

/// What a call answers.
pub enum Answer {
    Opened,
    More(u64),
    Value(i64, u64),
    Refused(Refusal),
}

impl Answer {
    pub fn of_open(answered: Result<u64, Refusal>) -> Answer {
        answered.map_or_else(Answer::Refused, |_| Answer::Opened)
    }

    pub fn of_feed(answered: Result<u64, Refusal>) -> Answer {
        answered.map_or_else(Answer::Refused, Answer::More)
    }

    pub fn of_finish(answered: Result<(i64, u64), Refusal>) -> Answer {
        answered.map_or_else(Answer::Refused, |(value, moves)| Answer::Value(value, moves))
    }
}

impl Display for Answer {
    fn fmt(&self, f: &mut Formatter) -> fmt::Result {
        match self {
            Answer::Opened => write!(f, "opened"),
            Answer::More(moves) => write!(f, "more {moves}"),
            Answer::Value(value, moves) => write!(f, "value {value} {moves}"),
            Answer::Refused(refusal) => write!(f, "refused {} {}", refusal.number(), refusal.count()),
        }
    }
}

/// A record: `open`, `waiting` or `closed`, tokens, moves and both heights; of an inner run also where it begins.
pub struct Recorded<'a>(pub &'a Record);

impl Display for Recorded<'_> {
    fn fmt(&self, f: &mut Formatter) -> fmt::Result {
        let Record { status, tokens, moves, registers, places, kind, register_base, place_base } = self.0;
        let state = match *status {
            CLOSED => "closed",
            WAITING => "waiting",
            _ => "open",
        };
        write!(f, "{state} {tokens} {moves} {registers} {places}")?;
        if *kind == INNER {
            write!(f, " inner {register_base} {place_base}")?;
        }
        Ok(())
    }
}

/// Cells from the bottom, separated by commas; `-` where there are none, `m` for the mark.
pub struct Cells<'a, T>(pub &'a [T]);

impl<T: Copy + Into<i64>> Display for Cells<'_, T> {
    fn fmt(&self, f: &mut Formatter) -> fmt::Result {
        if self.0.is_empty() {
            return write!(f, "-");
        }
        for (i, &cell) in self.0.iter().enumerate() {
            let comma = if i == 0 { "" } else { "," };
            match cell.into() {
                MARK => write!(f, "{comma}m")?,
                value => write!(f, "{comma}{value}")?,
            }
        }
        Ok(())
    }
}

/// Bytes in hex; `-` where there are none.
pub struct Bytes<'a>(pub &'a [u8]);

impl Display for Bytes<'_> {
    fn fmt(&self, f: &mut Formatter) -> fmt::Result {
        if self.0.is_empty() {
            return write!(f, "-");
        }
        self.0.iter().try_for_each(|byte| write!(f, "{byte:02x}"))
    }
}
