//! The commands that try a token on the run that stands: `preview` and `may`. The run stays as it is.
use crate::answers::{Answer, Cells, Recorded};
use crate::runs::{PLACE, REGISTER};
use crate::session::{Command, Session};
use crate::words::{Bad, Fault, Words, AREA, CELLS};
use engine::lent::{self, Memory, Stopped};
use std::io::Write;

pub const COMMANDS: &[(&str, Command)] = &[("preview", preview), ("may", may)];

/// Fresh scratch and a program area.
struct Scratch {
    registers: Vec<i64>,
    places: Vec<u32>,
    program: Vec<u32>,
}

impl Scratch {
    /// Of the sizes that word `k` and the two behind it say.
    fn of(words: Words, k: usize) -> Result<Scratch, Bad> {
        let (registers, places) = (vec![REGISTER; words.size(k, CELLS)?], vec![PLACE; words.size(k + 1, CELLS)?]);
        Ok(Scratch { registers, places, program: vec![0; words.size(k + 2, AREA)?] })
    }

    fn lent(&mut self) -> Memory<'_> {
        Memory { registers: &mut self.registers, places: &mut self.places, program: &mut self.program }
    }

    /// ` | SCRATCHREGISTERS | SCRATCHPLACES`
    fn shown(&self, out: &mut dyn Write) -> Result<(), Fault> {
        Ok(writeln!(out, " | {} | {}", Cells(&self.registers), Cells(&self.places))?)
    }
}

fn stopped(session: &Session) -> Stopped<'_> {
    Stopped { record: &session.record, registers: &session.registers, places: &session.places }
}

/// `preview TABLE KIND VALUE NSREGS NSPLACES NPROG`
fn preview(session: &mut Session, words: Words, out: &mut dyn Write) -> Result<(), Fault> {
    words.at_most(6)?;
    let (table, kind, value) = (session.table(words, 1)?, words.kind(2)?, words.value(3)?);
    let mut scratch = Scratch::of(words, 4)?;
    let (record, answer) = lent::preview(&table, stopped(session), &mut scratch.lent(), kind, value);
    write!(out, "{} | {}", Answer::of_feed(answer), Recorded(&record))?;
    scratch.shown(out)
}

/// `may TABLE VALUE NSREGS NSPLACES NPROG`
fn may(session: &mut Session, words: Words, out: &mut dyn Write) -> Result<(), Fault> {
    words.at_most(5)?;
    let (table, value) = (session.table(words, 1)?, words.value(2)?);
    let mut scratch = Scratch::of(words, 3)?;
    match lent::may_follow(&table, stopped(session), &mut scratch.lent(), value) {
        Ok(set) => {
            let tokens: Vec<i64> = (0..64).filter(|token| set >> token & 1 == 1).collect();
            write!(out, "tokens {}", Cells(&tokens))?;
        }
        Err(refusal) => write!(out, "{}", Answer::Refused(refusal))?,
    }
    scratch.shown(out)
}
