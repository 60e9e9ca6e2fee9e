//! The command on candidate segments: `rank`. It has stacks of its own; the run that stands is not touched.
use crate::answers::{Answer, Cells};
use crate::runs::{PLACE, REGISTER};
use crate::session::{Command, Session};
use crate::words::{Fault, Words, AREA, CELLS};
use engine::lent::{self, Candidates, Memory};
use std::io::Write;

pub const COMMANDS: &[(&str, Command)] = &[("rank", rank)];

/// What a fresh list holds.
const LISTED: i64 = -1;

/// `rank TABLE KINDS VALUES LENGTHS NREGS NPLACES NPROG NLIST`
fn rank(session: &mut Session, words: Words, out: &mut dyn Write) -> Result<(), Fault> {
    words.at_most(8)?;
    let (table, kinds, values, lengths) = (session.table(words, 1)?, words.tokens(2)?, words.values(3)?, words.lengths(4)?);
    let (mut registers, mut places) = (vec![REGISTER; words.size(5, CELLS)?], vec![PLACE; words.size(6, CELLS)?]);
    let area = words.size(7, AREA)?;
    let mut list = vec![LISTED; words.size(8, CELLS)?];
    let program = session.lend(area).1.program;
    let mut memory = Memory { registers: &mut registers, places: &mut places, program };
    let candidates = Candidates { kinds: &kinds, values: &values, lengths: &lengths };
    match lent::rank(&table, candidates, &mut memory, &mut list) {
        Ok(report) => write!(out, "ranked {} {}", report.valued, report.total)?,
        Err(refusal) => write!(out, "{}", Answer::Refused(refusal))?,
    }
    Ok(writeln!(out, " | {} | {} | {}", Cells(&list), Cells(&registers), Cells(&places))?)
}
