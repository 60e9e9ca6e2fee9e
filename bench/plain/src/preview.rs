//! What one more token would do to a run that is stopped, and the set of tokens that may come next. The run's own cells are only read.
use crate::run::{admit, fits, moved, prepare, Answer, Record, MARK};

/// The caller's record and stacks.
#[derive(Clone, Copy)]
pub struct Stopped<'a> {
    pub record: Record,
    pub registers: &'a [i64],
    pub places: &'a [u32],
}

/// The scratch lent for tries.
pub struct Scratch<'a> {
    pub registers: &'a mut [i64],
    pub places: &'a mut [u32],
}

impl Stopped<'_> {
    /// The same with the cells that a run may use.
    fn lent(self) -> Self {
        let (n, k) = (self.registers.len().min(4096), self.places.len().min(1024));
        Stopped { registers: &self.registers[..n], places: &self.places[..k], ..self }
    }
}

impl Scratch<'_> {
    /// One token tried on a copy; these cells are clear before and after.
    fn attempt(&mut self, stopped: Stopped, program: &[u32], kind: u8, value: i32) -> (Record, Answer) {
        let (n, k) = (stopped.record.registers as usize, stopped.record.places as usize);
        self.registers[..n].copy_from_slice(&stopped.registers[..n]);
        self.places[..k].copy_from_slice(&stopped.places[..k]);
        let (record, answer) = moved(stopped.record, self.registers, self.places, program, Some((&[kind], &[value])));
        self.registers[..record.registers as usize].fill(MARK);
        self.places[..record.places as usize].fill(0);
        (record, answer)
    }
}

/// 30, the table, 33, 40, 34 and 39; then as much of the scratch as is needed, cleared.
fn begin<'s>(table: &[u8], stopped: &Stopped, scratch: Scratch<'s>, program: &mut [u32]) -> Result<Scratch<'s>, Answer> {
    prepare(table, program)?;
    admit(&stopped.record, 34)?;
    if !fits(program, &stopped.record, stopped.registers, stopped.places) {
        return Err(Answer::Refused(34, 0));
    }
    let (n, k) = (stopped.registers.len(), stopped.places.len());
    if scratch.registers.len() < n || scratch.places.len() < k {
        return Err(Answer::Refused(39, 0));
    }
    let (registers, places) = (&mut scratch.registers[..n], &mut scratch.places[..k]);
    registers.fill(MARK);
    places.fill(0);
    Ok(Scratch { registers, places })
}

/// The record and the answer that feeding a token would give.
pub fn preview(table: &[u8], stopped: Stopped, scratch: Scratch, program: &mut [u32], kind: u8, value: i32) -> (Record, Answer) {
    let stopped = stopped.lent();
    match begin(table, &stopped, scratch, program) {
        Ok(mut scratch) => scratch.attempt(stopped, program, kind, value),
        Err(answer) => (stopped.record, answer),
    }
}

/// The tokens that may come next, as bits; or number and offset of the refusal.
pub fn may(table: &[u8], stopped: Stopped, scratch: Scratch, program: &mut [u32], value: i32) -> Result<u64, Answer> {
    let stopped = stopped.lent();
    let mut scratch = begin(table, &stopped, scratch, program)?;
    let passes = |&t: &u8| !matches!(scratch.attempt(stopped, program, t, value).1, Answer::Refused(..));
    Ok((0..program[3] as u8).filter(passes).map(|t| 1 << t).sum())
}
