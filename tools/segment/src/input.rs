//! The lines of an input.
use std::io::{self, BufRead, BufReader, Read};

/// A line has fewer bytes.
const LONGEST: usize = 1_048_576;

/// A line without its end.
#[derive(Debug, PartialEq, Eq)]
pub enum Line<'a> {
    Text(&'a [u8]),
    TooLong,
}

pub struct Lines<R> {
    input: BufReader<R>,
    held: Vec<u8>,
    /// The number of the line read last, counted from 1.
    pub number: usize,
}

impl<R: Read> Lines<R> {
    pub fn new(input: R) -> Lines<R> {
        Lines { input: BufReader::with_capacity(1 << 16, input), held: vec![], number: 0 }
    }

    /// Whether the next line may have to be waited for.
    pub fn waits(&self) -> bool {
        !self.input.buffer().contains(&b'\n')
    }

    /// The next line; the last needs no line end.
    pub fn next(&mut self) -> io::Result<Option<Line<'_>>> {
        self.held.clear();
        while !self.take_part()? {}
        if self.held.is_empty() {
            return Ok(None);
        }
        self.number += 1;
        let text = self.held.strip_suffix(b"\n").unwrap_or(&self.held);
        let text = text.strip_suffix(b"\r").unwrap_or(text);
        Ok(Some(if text.len() < LONGEST { Line::Text(text) } else { Line::TooLong }))
    }

    /// Takes what waits of the line, with its end, but no more of a line that is too long than shows it; whether the line is over.
    fn take_part(&mut self) -> io::Result<bool> {
        let part = match self.input.fill_buf() {
            Err(error) if error.kind() == io::ErrorKind::Interrupted => return Ok(false),
            filled => filled?,
        };
        let end = part.iter().position(|&byte| byte == b'\n');
        let taken = end.map_or(part.len(), |end| end + 1);
        let over = end.is_some() || part.is_empty();
        let room = (LONGEST + 2).saturating_sub(self.held.len());
        self.held.extend_from_slice(&part[..taken.min(room)]);
        self.input.consume(taken);
        Ok(over)
    }
}

#[cfg(test)]
mod tests {
    use super::*;

    fn lines(text: &[u8]) -> Vec<Option<Vec<u8>>> {
        let mut lines = Lines::new(text);
        let mut all = vec![];
        while let Some(line) = lines.next().unwrap() {
            all.push(match line {
                Line::Text(text) => Some(text.to_vec()),
                Line::TooLong => None,
            });
        }
        assert_eq!(lines.number, all.len());
        all
    }

    #[test]
    fn ends() {
        assert_eq!(lines(b""), []);
        assert_eq!(lines(b"\n"), [Some(b"".to_vec())]);
        assert_eq!(lines(b"a\r\n\r\nb"), [Some(b"a".to_vec()), Some(b"".to_vec()), Some(b"b".to_vec())]);
        assert_eq!(lines(b"a\r\r\n"), [Some(b"a\r".to_vec())]);
    }

    #[test]
    fn long_lines() {
        for end in [&b"\n"[..], b"\r\n"] {
            let longest = vec![b'a'; LONGEST - 1];
            assert_eq!(lines(&[&longest, end, b"b"].concat()), [Some(longest.clone()), Some(b"b".to_vec())]);
            assert_eq!(lines(&[&longest, &b"a"[..], end, b"b"].concat()), [None, Some(b"b".to_vec())]);
            assert_eq!(lines(&[&longest, &longest, end, b"b"].concat()), [None, Some(b"b".to_vec())]);
        }
    }
}
