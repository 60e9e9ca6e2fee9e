//! The commands on tree sheets: `sheet` and `judge`.
use crate::answers::{Answer, Bytes};
use crate::session::{Command, Session};
use crate::words::{Fault, Words};
use engine::lent::{self, Written};
use std::io::Write;

pub const COMMANDS: &[(&str, Command)] = &[("sheet", sheet), ("judge", judge)];

/// How many bytes of a sheet can be lent.
const SHEET: usize = 1 << 20;

/// What fresh bytes hold before a sheet is written into them.
const BYTE: u8 = 0xa5;

/// `sheet TABLE KINDS VALUES NREGS NPLACES NSHEET`
fn sheet(session: &mut Session, words: Words, out: &mut dyn Write) -> Result<(), Fault> {
    words.at_most(6)?;
    let (table, kinds, values) = (session.table(words, 1)?, words.tokens(2)?, words.values(3)?);
    let room = (words.number(4)? as usize, words.number(5)? as usize);
    let mut buffer = vec![BYTE; words.size(6, SHEET)?];
    match lent::sheet(&table, &kinds, &values, room, &mut buffer) {
        Ok(Written { value, moves, length }) => write!(out, "value {value} {moves} {length}")?,
        Err(refusal) => write!(out, "{}", Answer::Refused(refusal))?,
    }
    Ok(writeln!(out, " | {}", Bytes(&buffer))?)
}

/// `judge TABLE KINDS VALUES SHEET`
fn judge(session: &mut Session, words: Words, out: &mut dyn Write) -> Result<(), Fault> {
    words.at_most(4)?;
    let (table, kinds, values, sheet) = (session.table(words, 1)?, words.tokens(2)?, words.values(3)?, words.sheet(4)?);
    match lent::judge(&table, &kinds, &values, &sheet) {
        Ok(value) => writeln!(out, "value {value}")?,
        Err(refusal) => writeln!(out, "{}", Answer::Refused(refusal))?,
    }
    Ok(())
}
