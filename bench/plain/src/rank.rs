//! Ranked suggestions: candidate segments under one table, evaluated in turn and listed, highest value first.
use crate::run::{lend, moved, open_used, prepare, Answer, Tokens};
use std::cmp::Reverse;

/// The most candidates.
pub const CANDIDATES: usize = 512;

/// The cells of an entry: the candidate's number, its value or 0, its refusal or 0.
pub const ENTRY: usize = 3;

/// How many candidates were valued, the total of their values, and how many entries were written.
#[derive(Clone, Copy, Debug, PartialEq, Eq)]
pub struct Report {
    pub valued: usize,
    pub total: i64,
    pub entries: usize,
}

/// 37: whether there are too many candidates, or their lengths or the list do not suit them.
fn is_unfit(list: &[i64], kinds: &[u8], lengths: &[u32]) -> bool {
    let sum: u64 = lengths.iter().map(|&length| u64::from(length)).sum();
    lengths.len() > CANDIDATES || sum != kinds.len() as u64 || list.len() / ENTRY < lengths.len()
}

/// How many cells of each stack the candidate before left in use: those above are clear.
type Used = (usize, usize);

/// A candidate's value or refusal, on stacks opened afresh.
fn evaluate(registers: &mut [i64], places: &mut [u32], program: &[u32], tokens: Tokens, used: &mut Used) -> Result<i64, u32> {
    let (mut record, mut answer) = open_used(registers, places, program, *used);
    for call in [Some(tokens), None] {
        if !matches!(answer, Answer::Refused(..)) {
            (record, answer) = moved(record, registers, places, program, call);
            *used = (record.registers as usize, record.places as usize);
        }
    }
    match answer {
        Answer::Value(value, _) => Ok(value),
        Answer::Refused(number, _) => Err(number),
        Answer::Opened | Answer::More(_) => unreachable!("a finish answers a value or a refusal"),
    }
}

/// Number and offset of the refusal where the call is turned back.
pub fn rank(
    table: &[u8],
    registers: &mut [i64],
    places: &mut [u32],
    program: &mut [u32],
    list: &mut [i64],
    (kinds, values): Tokens,
    lengths: &[u32],
) -> Result<Report, (u32, u64)> {
    if is_unfit(list, kinds, lengths) {
        return Err((37, 0));
    }
    if let Err(Answer::Refused(number, offset)) = prepare(table, program) {
        return Err((number, offset));
    }
    if kinds.len() != values.len() {
        return Err((38, 0));
    }
    let (registers, places) = lend(registers, places);
    let mut entries = Vec::with_capacity(lengths.len());
    let (mut at, mut used) = (0, (registers.len(), places.len()));
    for (number, &length) in lengths.iter().enumerate() {
        let end = at + length as usize;
        entries.push((number, evaluate(registers, places, program, (&kinds[at..end], &values[at..end]), &mut used)));
        at = end;
    }
    entries.sort_by_key(|&(_, outcome)| (outcome.is_err(), Reverse(outcome.unwrap_or(0))));
    for (cells, &(number, outcome)) in list.chunks_mut(ENTRY).zip(&entries) {
        cells.copy_from_slice(&[number as i64, outcome.unwrap_or(0), outcome.err().unwrap_or(0).into()]);
    }
    let valued = entries.iter().filter_map(|(_, outcome)| outcome.ok());
    Ok(Report { valued: valued.clone().count(), total: valued.sum(), entries: entries.len() })
}
