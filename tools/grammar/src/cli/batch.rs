//! Segments a line each, and an answer a line.
use super::Trouble;
use crate::run::{self, lists, Names, Token};
use crate::suggest::grouped;
use crate::Built;
use segment::Run;
use std::io::{BufRead, Write};
use std::time::{Duration, Instant};

/// How many segments were answered, and how many of them with a refusal.
#[derive(Clone, Copy, Debug, Default, PartialEq, Eq)]
pub struct Counts {
    pub segments: u64,
    pub refused: u64,
}

/// One grammar's segments, on one run's memory.
struct Batch<'b> {
    built: &'b Built,
    names: Names<'b>,
    run: Run<'b>,
    tokens: Vec<Token>,
}

/// Answers each line: the value, or the refusal in words. An empty line is the segment without tokens.
pub fn answer(built: &Built, mut lines: Box<dyn BufRead>, out: &mut dyn Write, watched: bool) -> Result<Counts, Trouble> {
    let mut batch = Batch { built, names: Names::new(&built.grammar), run: built.table.run(), tokens: vec![] };
    let mut progress = Progress { watched, last: Instant::now() };
    let (mut counts, mut line) = (Counts::default(), Vec::new());
    loop {
        line.clear();
        let read = lines.read_until(b'\n', &mut line).map_err(|e| Trouble::Failed(format!("the segments cannot be read: {e}")))?;
        if read == 0 {
            progress.end(counts);
            return Ok(counts);
        }
        counts.segments += 1;
        match batch.value(&line) {
            Ok(value) => writeln!(out, "{value}")?,
            Err(words) => {
                counts.refused += 1;
                writeln!(out, "{}", crate::source::plain(&words))?;
            }
        }
        progress.show(counts);
    }
}

impl Batch<'_> {
    fn value(&mut self, line: &[u8]) -> Result<i64, String> {
        self.tokens.clear();
        for (i, word) in line.split(u8::is_ascii_whitespace).filter(|w| !w.is_empty()).enumerate() {
            self.tokens.push(self.names.token(i, &String::from_utf8_lossy(word))?);
        }
        let (kinds, values) = lists(&self.tokens);
        self.run.evaluate_values(&kinds, &values).map_err(|_| self.told())
    }

    /// Runs a refused segment again for its words.
    fn told(&mut self) -> String {
        let outcome = run::run_on(&mut self.run, &self.tokens);
        match outcome.answer {
            Ok(value) => value.to_string(),
            Err(refusal) => run::told(self.built, &self.tokens, &outcome, refusal),
        }
    }
}

/// How far it is, on a terminal and at most twice a second.
struct Progress {
    watched: bool,
    last: Instant,
}

impl Progress {
    fn show(&mut self, counts: Counts) {
        if !self.watched || counts.segments % 256 != 0 || self.last.elapsed() < Duration::from_millis(500) {
            return;
        }
        self.last = Instant::now();
        eprint!("\r{} segments, {} refused", grouped(counts.segments), grouped(counts.refused));
    }

    fn end(&self, counts: Counts) {
        if self.watched {
            eprintln!("\r{} segments, {} refused", grouped(counts.segments), grouped(counts.refused));
        }
    }
}
