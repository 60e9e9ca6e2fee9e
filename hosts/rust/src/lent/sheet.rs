//! Tree sheets: a record for each node of a segment's tree.
use super::answered;
use crate::Refusal;

/// A native stack that is enough for [`sheet`] and [`judge`](super::judge), in bytes. They call themselves for the nodes of a tree, at most
/// 1,023 deep: `sheet` uses up to 2.5 MB, more than a test or a spawned thread has, `judge` up to 0.6 MB. Every other call makes do with far less.
pub const SHEET_STACK: usize = 8 << 20;

/// What a sheet that was written comes to.
#[derive(Clone, Copy, Debug, Default, PartialEq, Eq)]
pub struct Written {
    /// The segment's value.
    pub value: i64,
    /// The moves that a run makes.
    pub moves: u64,
    /// How many bytes of the buffer the sheet has.
    pub length: usize,
}

extern "C" {
    fn segment_sheet(
        table: *const u8,
        table_length: usize,
        kinds: *const u8,
        kinds_length: usize,
        values: *const i32,
        values_length: usize,
        registers: usize,
        places: usize,
        sheet: *mut u8,
        sheet_length: usize,
        number: &mut u32,
        value: &mut i64,
        count: &mut u64,
        length: &mut u64,
    );
}

/// Evaluates a segment by the tree itself, and writes a record for each node into the first bytes of `out`, in the order of entering. Value
/// and refusals are those of a run on so many registers and places. Bytes past the sheet stay; on a refusal all do. Needs [`SHEET_STACK`].
///
/// # Errors
/// 1 to 13: the table is refused. 38: kinds and values are not equally many. 20 to 24, 31, 32, 35: the segment is refused. 41: `out` is too
/// short.
pub fn sheet(table: &[u8], kinds: &[u8], values: &[i32], (registers, places): (usize, usize), out: &mut [u8]) -> Result<Written, Refusal> {
    let (mut number, mut value, mut count, mut length) = (0, 0, 0, 0);
    let (k, v) = (kinds.as_ptr(), values.as_ptr());
    // SAFETY: the pointers are those of slices, with their lengths, and of four numbers, all alive during the call; `out` is lent exclusively.
    unsafe {
        segment_sheet(
            table.as_ptr(),
            table.len(),
            k,
            kinds.len(),
            v,
            values.len(),
            registers,
            places,
            out.as_mut_ptr(),
            out.len(),
            &mut number,
            &mut value,
            &mut count,
            &mut length,
        );
    }
    answered(number, count).map(|moves| Written { value, moves, length: length as usize })
}
