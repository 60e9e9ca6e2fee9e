//! The commands on the inner run: `inner`, `ifeed`, `ifinish`, `giveup` and `iset`.
use crate::answers::{Answer, Cells, Recorded};
use crate::runs::{record, record_words};
use crate::session::{Command, Session};
use crate::words::{Fault, Words, AREA};
use engine::lent;
use std::io::Write;

pub const COMMANDS: &[(&str, Command)] = &[("inner", inner), ("ifeed", ifeed), ("ifinish", ifinish), ("giveup", giveup), ("iset", iset)];

/// `ANSWER | OUTER | INNER | REGISTERS | PLACES`
fn answered(session: &Session, answer: Answer, out: &mut dyn Write) -> Result<(), Fault> {
    let Session { record, inner, registers, places, .. } = session;
    Ok(writeln!(out, "{answer} | {} | {} | {} | {}", Recorded(record), Recorded(inner), Cells(registers), Cells(places))?)
}

/// `inner OUTERTABLE INNERTABLE NPROG`
fn inner(session: &mut Session, words: Words, out: &mut dyn Write) -> Result<(), Fault> {
    words.at_most(3)?;
    let (outer, table) = (session.table(words, 1)?, session.table(words, 2)?);
    let (both, mut memory) = session.lend_both(words.size(3, AREA)?);
    let answer = Answer::of_open(lent::open_inner(&outer, &table, both, &mut memory));
    answered(session, answer, out)
}

/// `ifeed TABLE KINDS VALUES NPROG`
fn ifeed(session: &mut Session, words: Words, out: &mut dyn Write) -> Result<(), Fault> {
    words.at_most(4)?;
    let (table, kinds, values) = (session.table(words, 1)?, words.tokens(2)?, words.values(3)?);
    let (both, mut memory) = session.lend_both(words.size(4, AREA)?);
    let answer = Answer::of_feed(lent::feed_inner(&table, both, &mut memory, &kinds, &values));
    answered(session, answer, out)
}

/// `ifinish TABLE NPROG`
fn ifinish(session: &mut Session, words: Words, out: &mut dyn Write) -> Result<(), Fault> {
    words.at_most(2)?;
    let table = session.table(words, 1)?;
    let (both, mut memory) = session.lend_both(words.size(2, AREA)?);
    let answer = Answer::of_finish(lent::finish_inner(&table, both, &mut memory));
    answered(session, answer, out)
}

/// `giveup TABLE NPROG`
fn giveup(session: &mut Session, words: Words, out: &mut dyn Write) -> Result<(), Fault> {
    words.at_most(2)?;
    let table = session.table(words, 1)?;
    let (both, mut memory) = session.lend_both(words.size(2, AREA)?);
    let answer = Answer::of_feed(lent::give_up_inner(&table, both, &mut memory));
    answered(session, answer, out)
}

/// `iset RECORD`
fn iset(session: &mut Session, words: Words, out: &mut dyn Write) -> Result<(), Fault> {
    words.at_most(record_words(words, 1))?;
    session.inner = record(words, 1)?;
    Ok(writeln!(out, "ok")?)
}
