//! The commands about a table: `check`, `stretch`, `list`, `house` and `table`.
use crate::answers::{Answer, Bytes};
use crate::session::{Command, Session};
use crate::words::{bytes, Bad, Fault, Words, AREA};
use engine::lent::{self, PROGRAM};
use std::ffi::OsStr;
use std::fs::File;
use std::io::{self, Read, Write};
use std::os::unix::ffi::OsStrExt;

pub const COMMANDS: &[(&str, Command)] = &[("check", check), ("stretch", stretch), ("list", list), ("house", house), ("table", table)];

/// One byte more than a table may have: whatever is longer is refused by its length like any other.
const TABLE: u64 = 32769;

/// Room for every listing: at most 3,200 lines (1,536 adds, 1,024 rules, 512 conditions and 128 removes) of at most 64 bytes.
const LISTING: usize = 262_144;

/// `check TABLE`
fn check(session: &mut Session, words: Words, out: &mut dyn Write) -> Result<(), Fault> {
    words.at_most(1)?;
    match lent::check(&session.table(words, 1)?) {
        Ok(()) => writeln!(out, "ok")?,
        Err(refusal) => writeln!(out, "{}", Answer::Refused(refusal))?,
    }
    Ok(())
}

/// `stretch TABLE P`
fn stretch(session: &mut Session, words: Words, out: &mut dyn Write) -> Result<(), Fault> {
    words.at_most(2)?;
    let production = words.number(2)?;
    let table = session.table(words, 1)?;
    match lent::stretch(&table, production as usize) {
        Ok((start, length)) => writeln!(out, "ok {start} {}", start + length)?,
        Err(refusal) => writeln!(out, "{}", Answer::Refused(refusal))?,
    }
    Ok(())
}

/// `list TABLE`
fn list(session: &mut Session, words: Words, out: &mut dyn Write) -> Result<(), Fault> {
    words.at_most(1)?;
    let table = session.table(words, 1)?;
    let mut listing = vec![0; LISTING];
    let (length, over) = lent::list(&table, session.lend(PROGRAM).1.program, &mut listing);
    assert!(over, "a listing has at most {LISTING} bytes");
    out.write_all(&listing[..length])?;
    Ok(writeln!(out, ".")?)
}

/// What fresh bytes hold before a table is written into them.
const BYTE: u8 = 0xa5;

/// `house TABLE NOUT`
fn house(session: &mut Session, words: Words, out: &mut dyn Write) -> Result<(), Fault> {
    words.at_most(2)?;
    let mut buffer = vec![BYTE; words.size(2, AREA)?];
    match lent::house(&session.table(words, 1)?, &mut buffer) {
        Ok(length) => write!(out, "written {length}")?,
        Err(refusal) => write!(out, "{}", Answer::Refused(refusal))?,
    }
    Ok(writeln!(out, " | {}", Bytes(&buffer))?)
}

/// `table NAME FILE`: from now on NAME stands for the bytes of the file. FILE is the rest of the line.
fn table(session: &mut Session, words: Words, out: &mut dyn Write) -> Result<(), Fault> {
    let name = words.at(1);
    if name.is_empty() || bytes(name).is_some() {
        return Err(words.bad(1, "bad name").into());
    }
    let table = read(words.after(2)).map_err(|error| Bad { reason: error.map(|e| e.to_string()), ..words.bad(2, "bad file") })?;
    session.tables.insert(name.to_vec(), table);
    Ok(writeln!(out, "ok")?)
}

/// The bytes of a file; what went wrong, where it has a name.
fn read(name: &[u8]) -> Result<Vec<u8>, Option<io::Error>> {
    if name.is_empty() {
        return Err(None);
    }
    let mut table = vec![];
    File::open(OsStr::from_bytes(name))?.take(TABLE).read_to_end(&mut table)?;
    Ok(table)
}
