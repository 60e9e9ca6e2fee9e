//! An inner run: over the same lent stacks, above the heights of an outer run, which waits until it ends.
use crate::run::{admit, call_cells, fits, lend, open_cells, prepare, Answer, Kind, Record, Status, Tokens, MARK};

/// A later call on an inner run.
#[derive(Clone, Copy, Debug)]
pub enum Call<'a> {
    Feed(Tokens<'a>),
    Finish,
    GiveUp,
}

/// Both records, the outer one first, and the answer.
pub type Called = (Record, Record, Answer);

/// The lent cells from the heights `h` and `k` on.
fn above<'a>(registers: &'a mut [i64], places: &'a mut [u32], h: u64, k: u64) -> (&'a mut [i64], &'a mut [u32]) {
    let (registers, places) = lend(registers, places);
    let (h, k) = (h.min(registers.len() as u64) as usize, k.min(places.len() as u64) as usize);
    (&mut registers[h..], &mut places[k..])
}

/// Whether the outer run may have an inner one: its table, 33, 40 and 34.
fn judge(table: &[u8], outer: &Record, registers: &mut [i64], places: &mut [u32], program: &mut [u32]) -> Result<(), Answer> {
    prepare(table, program)?;
    admit(outer, 40)?;
    let (registers, places) = lend(registers, places);
    if !fits(program, outer, registers, places) {
        return Err(Answer::Refused(34, 0));
    }
    Ok(())
}

pub fn open(tables: (&[u8], &[u8]), outer: Record, registers: &mut [i64], places: &mut [u32], program: &mut [u32]) -> Called {
    let judged = judge(tables.0, &outer, registers, places, program).and_then(|()| prepare(tables.1, program));
    if let Err(answer) = judged {
        return (outer, Record::default(), answer);
    }
    let (registers, places) = above(registers, places, outer.registers, outer.places);
    let (inner, answer) = open_cells(registers, places, program);
    if answer != Answer::Opened {
        return (outer, inner, answer);
    }
    let begins = Kind::Inner(outer.registers, outer.places);
    (Record { status: Status::Waiting, ..outer }, Record { kind: begins, ..inner }, answer)
}

/// 33, and the 34 of the records alone.
fn belong(outer: &Record, inner: &Record) -> Result<(), Answer> {
    if outer.status == Status::Closed || inner.status == Status::Closed {
        return Err(Answer::Refused(33, 0));
    }
    let waits = outer.status == Status::Waiting && outer.kind == Kind::Outer;
    if !waits || inner.status != Status::Running || inner.kind != Kind::Inner(outer.registers, outer.places) {
        return Err(Answer::Refused(34, 0));
    }
    Ok(())
}

pub fn call(
    table: &[u8],
    (outer, inner): (Record, Record),
    registers: &mut [i64],
    places: &mut [u32],
    program: &mut [u32],
    call: Call,
) -> Called {
    if let Err(answer) = prepare(table, program).and_then(|()| belong(&outer, &inner)) {
        return (outer, inner, answer);
    }
    let (registers, places) = above(registers, places, outer.registers, outer.places);
    let tokens = match call {
        Call::Feed(tokens) => Some(tokens),
        Call::Finish => None,
        Call::GiveUp => Some((&[][..], &[][..])),
    };
    let (mut after, answer) = call_cells(inner, registers, places, program, tokens);
    after.kind = inner.kind;
    if matches!((call, answer), (Call::GiveUp, Answer::More(_))) {
        after.status = Status::Closed;
    }
    if after.status != Status::Closed {
        return (outer, after, answer);
    }
    registers.fill(MARK);
    places.fill(0);
    (Record { status: Status::Running, ..outer }, after, answer)
}
