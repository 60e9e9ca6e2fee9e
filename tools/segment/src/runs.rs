//! The commands on the run that stands: `open`, `feed`, `feedv`, `feedr`, `finish`, `show` and `set`.
use crate::answers::{Answer, Cells, Recorded};
use crate::session::{Command, Session};
use crate::words::{Bad, Fault, Words, AREA, CELLS};
use engine::lent::{self, Memory, Record};
use engine::Refusal;
use std::io::Write;

pub const COMMANDS: &[(&str, Command)] =
    &[("open", open), ("feed", feed), ("feedv", feedv), ("feedr", feedr), ("finish", finish), ("show", show), ("set", set)];

/// A feed of kinds and values.
type Feed = fn(&[u8], &mut Record, &mut Memory, &[u8], &[i32]) -> Result<u64, Refusal>;

/// What fresh cells hold before an opening.
pub const REGISTER: i64 = 7;
pub const PLACE: u32 = 9;

/// `RECORD | REGISTERS | PLACES`
fn stands(session: &Session, out: &mut dyn Write) -> Result<(), Fault> {
    let Session { record, registers, places, .. } = session;
    Ok(writeln!(out, "{} | {} | {}", Recorded(record), Cells(registers), Cells(places))?)
}

/// `ANSWER | RECORD | REGISTERS | PLACES`
fn answered(session: &Session, answer: Answer, out: &mut dyn Write) -> Result<(), Fault> {
    write!(out, "{answer} | ")?;
    stands(session, out)
}

/// `open TABLE NREGS NPLACES NPROG`
fn open(session: &mut Session, words: Words, out: &mut dyn Write) -> Result<(), Fault> {
    words.at_most(4)?;
    let table = session.table(words, 1)?;
    let (registers, places, area) = (words.size(2, CELLS)?, words.size(3, CELLS)?, words.size(4, AREA)?);
    session.registers = vec![REGISTER; registers];
    session.places = vec![PLACE; places];
    let (record, mut memory) = session.lend(area);
    let answer = Answer::of_open(lent::open(&table, record, &mut memory));
    answered(session, answer, out)
}

/// `feed TABLE TOKENS NPROG`: every value is 0.
fn feed(session: &mut Session, words: Words, out: &mut dyn Write) -> Result<(), Fault> {
    words.at_most(3)?;
    let (table, kinds) = (session.table(words, 1)?, words.tokens(2)?);
    let values = vec![0; kinds.len()];
    fed(session, lent::feed, &table, (&kinds, &values), words.size(3, AREA)?, out)
}

/// `feedv TABLE KINDS VALUES NPROG`
fn feedv(session: &mut Session, words: Words, out: &mut dyn Write) -> Result<(), Fault> {
    fed_values(session, lent::feed, words, out)
}

/// `feedr TABLE KINDS VALUES NPROG`: through the call that changes the record in place.
fn feedr(session: &mut Session, words: Words, out: &mut dyn Write) -> Result<(), Fault> {
    fed_values(session, lent::feed_in_place, words, out)
}

fn fed_values(session: &mut Session, call: Feed, words: Words, out: &mut dyn Write) -> Result<(), Fault> {
    words.at_most(4)?;
    let (table, kinds, values) = (session.table(words, 1)?, words.tokens(2)?, words.values(3)?);
    fed(session, call, &table, (&kinds, &values), words.size(4, AREA)?, out)
}

fn fed(session: &mut Session, call: Feed, table: &[u8], tokens: (&[u8], &[i32]), area: usize, out: &mut dyn Write) -> Result<(), Fault> {
    let (record, mut memory) = session.lend(area);
    let answer = Answer::of_feed(call(table, record, &mut memory, tokens.0, tokens.1));
    answered(session, answer, out)
}

/// `finish TABLE NPROG`
fn finish(session: &mut Session, words: Words, out: &mut dyn Write) -> Result<(), Fault> {
    words.at_most(2)?;
    let table = session.table(words, 1)?;
    let (record, mut memory) = session.lend(words.size(2, AREA)?);
    let answer = Answer::of_finish(lent::finish(&table, record, &mut memory));
    answered(session, answer, out)
}

/// `show`
fn show(session: &mut Session, words: Words, out: &mut dyn Write) -> Result<(), Fault> {
    words.at_most(0)?;
    stands(session, out)
}

/// How many words a record has that begins with word `k`: five, or eight of an inner run.
pub fn record_words(words: Words, k: usize) -> usize {
    if words.at(k + 5) == b"inner" {
        8
    } else {
        5
    }
}

/// The record that begins with word `k`: STATE TOKENS MOVES RH PH, and for an inner run `inner` RB PB.
pub fn record(words: Words, k: usize) -> Result<Record, Bad> {
    let status = match words.at(k) {
        b"open" => lent::RUNNING,
        b"waiting" => lent::WAITING,
        b"closed" => lent::CLOSED,
        _ => return Err(words.bad(k, "bad record")),
    };
    let number = |i| words.number(k + i).map_err(|_| words.bad(k + i, "bad record"));
    let (tokens, moves, registers, places) = (number(1)?, number(2)?, number(3)?, number(4)?);
    let record = Record { status, tokens, moves, registers, places, ..Record::default() };
    if record_words(words, k) == 5 {
        return Ok(record);
    }
    Ok(Record { kind: lent::INNER, register_base: number(6)?, place_base: number(7)?, ..record })
}

/// `set RECORD | REGISTERS | PLACES`
fn set(session: &mut Session, words: Words, out: &mut dyn Write) -> Result<(), Fault> {
    let k = 1 + record_words(words, 1);
    words.at_most(k + 3)?;
    if let Some(k) = [k, k + 2].into_iter().find(|&k| words.at(k) != b"|") {
        return Err(words.bad(k, "bad record").into());
    }
    let record = record(words, 1)?;
    let (registers, places) = (words.registers(k + 1)?, words.places(k + 3)?);
    session.record = record;
    session.registers = registers;
    session.places = places;
    Ok(writeln!(out, "ok")?)
}
