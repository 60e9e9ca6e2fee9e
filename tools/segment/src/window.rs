//! The commands on a window: `wopen`, `wvalue`, `wrefused` and `wset`.
use crate::answers::Cells;
use crate::session::{Command, Session};
use crate::words::{Fault, Words, CELLS};
use engine::window::{self, Standing};
use engine::Refusal;
use std::io::Write;

pub const COMMANDS: &[(&str, Command)] = &[("wopen", wopen), ("wvalue", wvalue), ("wrefused", wrefused), ("wset", wset)];

/// What fresh cells hold before an opening.
const CELL: i64 = 7;

/// `window TOTAL LARGEST | BUFFER` or `refused 42 0 | BUFFER`.
fn show(session: &Session, answer: Result<Standing, Refusal>, out: &mut dyn Write) -> Result<(), Fault> {
    match answer {
        Ok(Standing { total, largest: Some(largest) }) => write!(out, "window {total} {largest}")?,
        Ok(Standing { total, largest: None }) => write!(out, "window {total} none")?,
        Err(refusal) => write!(out, "refused {} {}", refusal.number(), refusal.count())?,
    }
    Ok(writeln!(out, " | {}", Cells(&session.window))?)
}

/// `wopen SIZE NBUF`
fn wopen(session: &mut Session, words: Words, out: &mut dyn Write) -> Result<(), Fault> {
    words.at_most(2)?;
    let (size, cells) = (words.number(1)?, words.size(2, CELLS)?);
    session.window = vec![CELL; cells];
    let answer = window::open(size, &mut session.window);
    show(session, answer, out)
}

/// `wvalue V`
fn wvalue(session: &mut Session, words: Words, out: &mut dyn Write) -> Result<(), Fault> {
    words.at_most(1)?;
    let [value] = words.registers(1)?[..] else {
        return Err(words.bad(1, "bad number").into());
    };
    let answer = window::value(0, value, 0, &mut session.window);
    show(session, answer, out)
}

/// `wrefused N`
fn wrefused(session: &mut Session, words: Words, out: &mut dyn Write) -> Result<(), Fault> {
    words.at_most(1)?;
    let number = words.size(1, u32::MAX as usize)? as u32;
    if number == 0 {
        return Err(words.bad(1, "bad number").into());
    }
    let answer = window::value(number, 0, 0, &mut session.window);
    show(session, answer, out)
}

/// `wset BUFFER`
fn wset(session: &mut Session, words: Words, out: &mut dyn Write) -> Result<(), Fault> {
    words.at_most(1)?;
    session.window = words.registers(1)?;
    Ok(writeln!(out, "ok")?)
}
