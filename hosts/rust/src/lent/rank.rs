//! Ranked suggestions: candidate segments under one table, evaluated and listed, highest value first.
use super::{answered, Memory};
use crate::Refusal;

/// The most candidates that one call takes.
pub const CANDIDATES: usize = 512;
/// The cells of an entry in the list: the candidate's number, its value or 0, its refusal's number or 0.
pub const ENTRY: usize = 3;

/// Candidate segments: the tokens of all, one after the other, and how many belong to each.
#[derive(Clone, Copy, Debug, PartialEq, Eq)]
pub struct Candidates<'a> {
    /// The tokens' kinds.
    pub kinds: &'a [u8],
    /// The tokens' values, as many as kinds.
    pub values: &'a [i32],
    /// The lengths, at most [`CANDIDATES`] of them, which add up to the number of kinds.
    pub lengths: &'a [u32],
}

/// What a ranking comes to.
#[derive(Clone, Copy, Debug, Default, PartialEq, Eq)]
pub struct Report {
    /// How many candidates have a value.
    pub valued: usize,
    /// The exact total of these values.
    pub total: i64,
    /// How many entries were written: one for each candidate.
    pub entries: usize,
}

extern "C" {
    fn segment_rank(
        table: *const u8,
        table_length: usize,
        registers: *mut i64,
        registers_length: usize,
        places: *mut u32,
        places_length: usize,
        program: *mut u32,
        program_length: usize,
        list: *mut i64,
        list_length: usize,
        kinds: *const u8,
        kinds_length: usize,
        values: *const i32,
        values_length: usize,
        lengths: *const u32,
        lengths_length: usize,
        valued: &mut usize,
        total: &mut i64,
        entries: &mut usize,
        number: &mut u32,
        offset: &mut u32,
    );
}

/// Evaluates each candidate in turn, on stacks opened afresh, and writes an entry for each into the first cells of `list`: those with a
/// value first, the highest first and equal ones by number; then the refused ones by number. Cells past the entries stay. On a refusal no
/// cell of `list` is written, and neither is a stack.
///
/// # Errors
/// 37: more than [`CANDIDATES`], lengths that do not add up to the kinds, or a list with fewer entries than candidates. Then 30; 1 to 13:
/// the table is refused; 38.
pub fn rank(table: &[u8], candidates: Candidates, m: &mut Memory, list: &mut [i64]) -> Result<Report, Refusal> {
    let Candidates { kinds, values, lengths } = candidates;
    let (mut report, mut number, mut offset) = (Report::default(), 0, 0);
    let cells = (list.as_mut_ptr(), list.len());
    let (k, v, l) = (kinds.as_ptr(), values.as_ptr(), lengths.as_ptr());
    let Report { valued, total, entries } = &mut report;
    call!(
        segment_rank,
        [table.as_ptr(), table.len()],
        m,
        cells.0,
        cells.1,
        k,
        kinds.len(),
        v,
        values.len(),
        l,
        lengths.len(),
        valued,
        total,
        entries,
        &mut number,
        &mut offset
    );
    answered(number, offset.into()).map(|_| report)
}
