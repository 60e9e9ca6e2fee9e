//! What one more token would do to a run that is stopped, and the set of tokens that may come next. The run itself is only read.
use super::{answered, Memory, Record};
use crate::Refusal;

/// A run as it stands, which a preview only reads.
#[derive(Clone, Copy, Debug, PartialEq, Eq)]
pub struct Stopped<'a> {
    /// Its record.
    pub record: &'a Record,
    /// Its registers; at most [`REGISTERS`](super::REGISTERS) count.
    pub registers: &'a [i64],
    /// Its places; at most [`PLACES`](super::PLACES) count.
    pub places: &'a [u32],
}

extern "C" {
    fn segment_preview(
        table: *const u8,
        table_length: usize,
        record: &Record,
        registers: *const i64,
        registers_length: usize,
        places: *const u32,
        places_length: usize,
        scratch_registers: *mut i64,
        scratch_registers_length: usize,
        scratch_places: *mut u32,
        scratch_places_length: usize,
        program: *mut u32,
        program_length: usize,
        kind: u8,
        value: i32,
        next: &mut Record,
        number: &mut u32,
        count: &mut u64,
    );

    fn segment_may(
        table: *const u8,
        table_length: usize,
        record: &Record,
        registers: *const i64,
        registers_length: usize,
        places: *const u32,
        places_length: usize,
        scratch_registers: *mut i64,
        scratch_registers_length: usize,
        scratch_places: *mut u32,
        scratch_places_length: usize,
        program: *mut u32,
        program_length: usize,
        value: i32,
        tokens: &mut u64,
        number: &mut u32,
        count: &mut u64,
    );
}

/// What feeding this token would answer, the moves made since opening or a refusal, and the record that the feed would hand back. Tried on
/// the scratch, which has at least as many registers and places as count of the run's own; that part of it ends cleared. On 39 and the
/// refusals before it (1 to 13, 30, 33, 34, 40) no cell of the scratch is written, and the record is the one brought.
pub fn preview(table: &[u8], run: Stopped, scratch: &mut Memory, kind: u8, value: i32) -> (Record, Result<u64, Refusal>) {
    let (mut next, mut number, mut count) = (Record::default(), 0, 0);
    let (r, p) = ((run.registers.as_ptr(), run.registers.len()), (run.places.as_ptr(), run.places.len()));
    let before = (table.as_ptr(), table.len());
    let out = (&mut next, &mut number, &mut count);
    call!(segment_preview, [before.0, before.1, run.record, r.0, r.1, p.0, p.1], scratch, kind, value, out.0, out.1, out.2);
    (next, answered(number, count))
}

/// The tokens whose preview with this value is no refusal, token `k` as bit `k`; the end is none of them. The scratch is left as by a
/// preview.
///
/// # Errors
/// 1 to 13, 30, 33, 34, 39, 40: what turns a preview back.
pub fn may_follow(table: &[u8], run: Stopped, scratch: &mut Memory, value: i32) -> Result<u64, Refusal> {
    let (mut tokens, mut number, mut count) = (0, 0, 0);
    let (r, p) = ((run.registers.as_ptr(), run.registers.len()), (run.places.as_ptr(), run.places.len()));
    let before = (table.as_ptr(), table.len());
    let out = (&mut tokens, &mut number, &mut count);
    call!(segment_may, [before.0, before.1, run.record, r.0, r.1, p.0, p.1], scratch, value, out.0, out.1, out.2);
    answered(number, count).map(|_| tokens)
}
