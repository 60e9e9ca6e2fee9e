//! The words of a line, separated by single spaces, and what they spell: bytes, numbers and lists.
use engine::lent::MARK;
use std::{fmt, io};

/// A number of this size or more is refused.
const NUMBERS: u64 = 10_000_000_000_000_000_000;

/// How many cells of each stack can be lent.
pub const CELLS: usize = 8192;

/// How many words of a program area, and how many bytes to write a table into, can be lent.
pub const AREA: usize = 65536;

/// A line that is no command: its answer, and the word that is wrong.
#[derive(Debug, PartialEq, Eq)]
pub struct Bad {
    pub answer: &'static str,
    /// The number of the word in its line, counted from 1, and the word.
    pub word: Option<(usize, String)>,
    /// Why, where the word itself does not show it.
    pub reason: Option<String>,
}

/// Why a line has no other answer.
#[derive(Debug)]
pub enum Fault {
    Bad(Bad),
    Io(io::Error),
}

impl From<Bad> for Fault {
    fn from(bad: Bad) -> Fault {
        Fault::Bad(bad)
    }
}

impl From<io::Error> for Fault {
    fn from(error: io::Error) -> Fault {
        Fault::Io(error)
    }
}

impl fmt::Display for Bad {
    fn fmt(&self, f: &mut fmt::Formatter) -> fmt::Result {
        write!(f, "{}", self.answer)?;
        match &self.word {
            None => {}
            Some((number, word)) if word.is_empty() => write!(f, ": word {number} is missing")?,
            Some((number, word)) => write!(f, ": word {number}, `{word}`")?,
        }
        self.reason.iter().try_for_each(|reason| write!(f, ": {reason}"))
    }
}

/// The words of a line; word 0 is the command.
#[derive(Clone, Copy)]
pub struct Words<'a>(pub &'a [u8]);

impl<'a> Words<'a> {
    /// What stands after the first `k` words.
    pub fn after(self, k: usize) -> &'a [u8] {
        let mut rest = self.0;
        for _ in 0..k {
            let end = rest.iter().position(|&byte| byte == b' ');
            rest = end.map_or(&[], |end| &rest[end + 1..]);
        }
        rest
    }

    /// Word `k`, or no bytes where there is none.
    pub fn at(self, k: usize) -> &'a [u8] {
        let rest = self.after(k);
        let end = rest.iter().position(|&byte| byte == b' ');
        &rest[..end.unwrap_or(rest.len())]
    }

    /// Word `k` as text that a message can hold.
    fn shown(self, k: usize) -> String {
        let word = self.at(k);
        let text = String::from_utf8_lossy(&word[..word.len().min(40)]).escape_debug().to_string();
        if word.len() > 40 {
            return text + "..";
        }
        text
    }

    /// Word `k` is wrong.
    pub fn bad(self, k: usize, answer: &'static str) -> Bad {
        Bad { answer, word: Some((k + 1, self.shown(k))), reason: None }
    }

    /// The command takes no word after its first `k`.
    pub fn at_most(self, k: usize) -> Result<(), Bad> {
        if self.after(k + 1).is_empty() {
            return Ok(());
        }
        Err(self.bad(k + 1, "too many words"))
    }

    pub fn tokens(self, k: usize) -> Result<Vec<u8>, Bad> {
        bytes(self.at(k)).ok_or_else(|| self.bad(k, "bad tokens"))
    }

    pub fn number(self, k: usize) -> Result<u64, Bad> {
        number(self.at(k)).ok_or_else(|| self.bad(k, "bad number"))
    }

    /// A number of at most `most`.
    pub fn size(self, k: usize, most: usize) -> Result<usize, Bad> {
        size(self.at(k), most).ok_or_else(|| self.bad(k, "bad number"))
    }

    /// Values of tokens, any number of them.
    pub fn values(self, k: usize) -> Result<Vec<i32>, Bad> {
        list(self.at(k), usize::MAX, value).ok_or_else(|| self.bad(k, "bad values"))
    }

    /// One token's kind.
    pub fn kind(self, k: usize) -> Result<u8, Bad> {
        match self.tokens(k)?[..] {
            [kind] => Ok(kind),
            _ => Err(self.bad(k, "bad tokens")),
        }
    }

    /// One token's value.
    pub fn value(self, k: usize) -> Result<i32, Bad> {
        value(self.at(k)).ok_or_else(|| self.bad(k, "bad values"))
    }

    pub fn sheet(self, k: usize) -> Result<Vec<u8>, Bad> {
        bytes(self.at(k)).ok_or_else(|| self.bad(k, "bad sheet"))
    }

    /// Lengths of candidates, any number of them.
    pub fn lengths(self, k: usize) -> Result<Vec<u32>, Bad> {
        list(self.at(k), usize::MAX, place).ok_or_else(|| self.bad(k, "bad lengths"))
    }

    pub fn registers(self, k: usize) -> Result<Vec<i64>, Bad> {
        list(self.at(k), CELLS, register).ok_or_else(|| self.bad(k, "bad registers"))
    }

    pub fn places(self, k: usize) -> Result<Vec<u32>, Bad> {
        list(self.at(k), CELLS, place).ok_or_else(|| self.bad(k, "bad places"))
    }
}

/// Bytes as hex digits, `-` for none.
pub fn bytes(word: &[u8]) -> Option<Vec<u8>> {
    match word {
        b"-" => Some(vec![]),
        b"" => None,
        _ if word.len() % 2 == 1 => None,
        _ => word.chunks(2).map(|pair| Some(digit(pair[0])? << 4 | digit(pair[1])?)).collect(),
    }
}

fn digit(byte: u8) -> Option<u8> {
    (byte as char).to_digit(16).map(|digit| digit as u8)
}

/// Decimal digits.
fn number(word: &[u8]) -> Option<u64> {
    if word.is_empty() {
        return None;
    }
    word.iter().try_fold(0u64, |n, byte| {
        let digit = (*byte as char).to_digit(10)?;
        n.checked_mul(10)?.checked_add(digit.into()).filter(|&n| n < NUMBERS)
    })
}

fn size(word: &[u8], most: usize) -> Option<usize> {
    let n = usize::try_from(number(word)?).ok()?;
    (n <= most).then_some(n)
}

/// A value with a minus sign where negative, or `m` for the mark.
fn register(word: &[u8]) -> Option<i64> {
    match word {
        b"m" => Some(MARK),
        [b'-', digits @ ..] => i64::try_from(number(digits)?).ok().map(|n| -n),
        _ => i64::try_from(number(word)?).ok(),
    }
}

/// What a token carries: no mark.
fn value(word: &[u8]) -> Option<i32> {
    register(word)?.try_into().ok()
}

fn place(word: &[u8]) -> Option<u32> {
    u32::try_from(number(word)?).ok()
}

/// At most so many cells separated by commas, `-` for none.
fn list<T>(word: &[u8], most: usize, cell: impl Fn(&[u8]) -> Option<T>) -> Option<Vec<T>> {
    if word == b"-" {
        return Some(vec![]);
    }
    let cells: Option<Vec<T>> = word.split(|&byte| byte == b',').take(most.saturating_add(1)).map(cell).collect();
    cells.filter(|cells| cells.len() <= most)
}

#[cfg(test)]
mod tests {
    use super::*;

    #[test]
    fn words_are_parted_by_single_spaces() {
        let words = Words(b"open  01 2 ");
        assert_eq!(
            [words.at(0), words.at(1), words.at(2), words.at(3), words.at(4), words.at(5)],
            [&b"open"[..], b"", b"01", b"2", b"", b""]
        );
        assert_eq!(words.after(2), b"01 2 ");
        assert!(words.at_most(3).is_ok());
        assert_eq!(words.at_most(2), Err(words.bad(3, "too many words")));
    }

    #[test]
    fn bytes_are_pairs_of_hex_digits() {
        assert_eq!(bytes(b"-"), Some(vec![]));
        assert_eq!(bytes(b"0aFf"), Some(vec![10, 255]));
        for word in [&b""[..], b"0", b"0g", b"012", b"--", b"+1"] {
            assert_eq!(bytes(word), None);
        }
    }

    #[test]
    fn numbers_are_decimal() {
        assert_eq!(number(b"9999999999999999999"), Some(NUMBERS - 1));
        assert_eq!(number(b"00000000000000000000007"), Some(7));
        for word in [&b""[..], b"10000000000000000000", b"18446744073709551616", b"1a", b"-1", b"+1"] {
            assert_eq!(number(word), None);
        }
        assert_eq!((size(b"8192", CELLS), size(b"8193", CELLS)), (Some(CELLS), None));
    }

    #[test]
    fn cells_are_listed_from_the_bottom() {
        assert_eq!(list(b"-", CELLS, register), Some(vec![]));
        assert_eq!(
            list(b"m,-5,-9223372036854775807,9223372036854775807,-0", CELLS, register),
            Some(vec![MARK, -5, -i64::MAX, i64::MAX, 0])
        );
        assert_eq!(list(b"0,4294967295", CELLS, place), Some(vec![0, u32::MAX]));
        for word in [&b""[..], b"1,", b",1", b"1,-", b"9223372036854775808", b"-9223372036854775808", b"1-"] {
            assert_eq!(list(word, CELLS, register), None);
        }
        assert_eq!(list(b"-2147483648,2147483647", 2, value), Some(vec![i32::MIN, i32::MAX]));
        for word in [&b"2147483648"[..], b"-2147483649", b"m", b"1,,2"] {
            assert_eq!(list(word, usize::MAX, value), None);
        }
        assert_eq!((list(b"4294967296", CELLS, place), list(b"m", CELLS, place)), (None, None));
        assert_eq!(list(&[&b"7,".repeat(CELLS - 1)[..], b"7"].concat(), CELLS, place).map(|cells| cells.len()), Some(CELLS));
        assert_eq!(list(&[&b"7,".repeat(CELLS)[..], b"7"].concat(), CELLS, place), None);
    }
}
