//! What stands between commands, and which function answers which.
use crate::input::Line;
use crate::words::{bytes, Bad, Fault, Words, AREA};
use crate::{inner, preview, rank, runs, sheets, tables, trace, window};
use engine::lent::{Both, Memory, Record};
use std::collections::HashMap;
use std::io::Write;

/// Answers a line.
pub type Command = fn(&mut Session, Words, &mut dyn Write) -> Result<(), Fault>;

/// The commands, a list for each module: a new group of commands is a module whose list is named here.
const COMMANDS: &[&[(&str, Command)]] =
    &[tables::COMMANDS, runs::COMMANDS, inner::COMMANDS, preview::COMMANDS, rank::COMMANDS, sheets::COMMANDS, trace::COMMANDS, window::COMMANDS];

/// The run, its inner run and the window as they stand, and the tables that have names.
pub struct Session {
    pub record: Record,
    pub inner: Record,
    pub registers: Vec<i64>,
    pub places: Vec<u32>,
    program: Vec<u32>,
    pub window: Vec<i64>,
    pub tables: HashMap<Vec<u8>, Vec<u8>>,
}

impl Session {
    /// Before the first command: closed records, all zero, and no cells.
    pub fn new() -> Session {
        Session {
            record: Record::default(),
            inner: Record::default(),
            registers: vec![],
            places: vec![],
            program: vec![0; AREA],
            window: vec![],
            tables: HashMap::new(),
        }
    }

    /// Answers a line; a comment has no answer.
    pub fn answer(&mut self, line: Line, out: &mut dyn Write) -> Result<(), Fault> {
        let words = match line {
            Line::Text([b'#', ..]) => return Ok(()),
            Line::Text(text) => Words(text),
            Line::TooLong => return Err(Bad { answer: "line too long", word: None, reason: None }.into()),
        };
        let mut commands = COMMANDS.iter().copied().flatten();
        let Some((_, command)) = commands.find(|(name, _)| name.as_bytes() == words.at(0)) else {
            return Err(words.bad(0, "bad command").into());
        };
        command(self, words, out)
    }

    /// The table that word `k` names or spells.
    pub fn table(&self, words: Words, k: usize) -> Result<Vec<u8>, Bad> {
        let word = words.at(k);
        self.tables.get(word).cloned().or_else(|| bytes(word)).ok_or_else(|| words.bad(k, "bad table"))
    }

    /// The record, and the stacks lent as they stand with so many words of the program area.
    pub fn lend(&mut self, area: usize) -> (&mut Record, Memory<'_>) {
        let memory = Memory { registers: &mut self.registers, places: &mut self.places, program: &mut self.program[..area] };
        (&mut self.record, memory)
    }

    /// The same with both records.
    pub fn lend_both(&mut self, area: usize) -> (Both<'_>, Memory<'_>) {
        let memory = Memory { registers: &mut self.registers, places: &mut self.places, program: &mut self.program[..area] };
        ((&mut self.record, &mut self.inner), memory)
    }
}
