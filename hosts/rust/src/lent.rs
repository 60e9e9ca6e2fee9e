//! The library's calls as they are: the caller lends the memory, and a call's answer is numbers.
//!
//! A call may be made with any bytes, records and stacks: the library judges them and turns back what does not fit.
use crate::Refusal;

/// Calls a function on runs: what it takes before the lent memory, that memory, then what it takes beside.
///
/// The pointers are those of slices, with their lengths, and of numbers; no two overlap, since all but the tables' and the tokens' are
/// lent exclusively. So the call is safe.
macro_rules! call {
    ($function:ident, [$($before:expr),+], $m:expr, $($more:expr),+) => {
        // SAFETY: see above.
        unsafe {
            $function(
                $($before,)+
                $m.registers.as_mut_ptr(),
                $m.registers.len(),
                $m.places.as_mut_ptr(),
                $m.places.len(),
                $m.program.as_mut_ptr(),
                $m.program.len(),
                $($more),+
            )
        }
    };
}

mod in_place;
mod inner;
mod judge;
mod preview;
mod rank;
mod sheet;

pub use in_place::feed_in_place;
pub use inner::{feed_inner, finish_inner, give_up_inner, open_inner, Both};
pub use judge::judge;
pub use preview::{may_follow, preview, Stopped};
pub use rank::{rank, Candidates, Report, CANDIDATES, ENTRY};
pub use sheet::{sheet, Written, SHEET_STACK};

/// How many registers a run uses at most; cells past them are neither read nor written.
pub const REGISTERS: usize = 4096;
/// How many places a run uses at most; cells past them are neither read nor written.
pub const PLACES: usize = 1024;
/// The words that a program area needs.
pub const PROGRAM: usize = 16384;
/// A line of a listing has at most so many bytes.
pub const LINE: usize = 64;
/// What a register without a value holds.
pub const MARK: i64 = i64::MIN;

/// The status of a closed run.
pub const CLOSED: u64 = 0;
/// The status of a run that is open; so counts every number but [`CLOSED`] and [`WAITING`].
pub const RUNNING: u64 = 1;
/// The status of a run that waits for its inner run.
pub const WAITING: u64 = 2;
/// The kind of an ordinary run; so counts every number but [`INNER`].
pub const OUTER: u64 = 0;
/// The kind of an inner run.
pub const INNER: u64 = 1;

/// The run record, as eight numbers. The default is the record that a refused opening hands back: closed and all zero.
#[repr(C)]
#[derive(Clone, Copy, Debug, Default, PartialEq, Eq)]
pub struct Record {
    /// [`CLOSED`], [`RUNNING`] or [`WAITING`].
    pub status: u64,
    /// The tokens read.
    pub tokens: u64,
    /// The moves made since opening.
    pub moves: u64,
    /// The height of the register stack; of an inner run counted from where it begins.
    pub registers: u64,
    /// The height of the place stack; of an inner run counted from where it begins.
    pub places: u64,
    /// [`OUTER`] or [`INNER`].
    pub kind: u64,
    /// The register height where an inner run begins, otherwise 0.
    pub register_base: u64,
    /// The place height where an inner run begins, otherwise 0.
    pub place_base: u64,
}

/// The memory of a run, lent to each call.
#[derive(Debug, PartialEq, Eq)]
pub struct Memory<'a> {
    /// The registers; at most [`REGISTERS`] count.
    pub registers: &'a mut [i64],
    /// The places; at most [`PLACES`] count.
    pub places: &'a mut [u32],
    /// The program area, of at least [`PROGRAM`] words.
    pub program: &'a mut [u32],
}

extern "C" {
    fn segment_check(table: *const u8, table_length: usize, number: &mut u32, offset: &mut u32);

    fn segment_stretch(
        table: *const u8,
        table_length: usize,
        production: usize,
        start: &mut usize,
        length: &mut usize,
        number: &mut u32,
        offset: &mut u32,
    );

    fn segment_list(
        table: *const u8,
        table_length: usize,
        program: *mut u32,
        program_length: usize,
        out: *mut u8,
        out_length: usize,
        length: &mut usize,
        over: &mut u32,
    );

    fn segment_house(
        table: *const u8,
        table_length: usize,
        out: *mut u8,
        out_length: usize,
        length: &mut usize,
        number: &mut u32,
        offset: &mut u32,
    );

    fn segment_open(
        table: *const u8,
        table_length: usize,
        record: &mut Record,
        registers: *mut i64,
        registers_length: usize,
        places: *mut u32,
        places_length: usize,
        program: *mut u32,
        program_length: usize,
        number: &mut u32,
        count: &mut u64,
    );

    fn segment_feed(
        table: *const u8,
        table_length: usize,
        record: &mut Record,
        registers: *mut i64,
        registers_length: usize,
        places: *mut u32,
        places_length: usize,
        program: *mut u32,
        program_length: usize,
        kinds: *const u8,
        kinds_length: usize,
        values: *const i32,
        values_length: usize,
        number: &mut u32,
        count: &mut u64,
    );

    fn segment_finish(
        table: *const u8,
        table_length: usize,
        record: &mut Record,
        registers: *mut i64,
        registers_length: usize,
        places: *mut u32,
        places_length: usize,
        program: *mut u32,
        program_length: usize,
        number: &mut u32,
        value: &mut i64,
        count: &mut u64,
    );
}

pub(crate) fn answered(number: u32, count: u64) -> Result<u64, Refusal> {
    match number {
        0 => Ok(count),
        _ => Err(Refusal::new(number, count)),
    }
}

/// The verdict on a table.
///
/// # Errors
/// 1 to 13: the table is refused, with the offset of its field.
pub fn check(table: &[u8]) -> Result<(), Refusal> {
    let (mut number, mut offset) = (0, 0);
    // SAFETY: the pointers are those of a slice and of two numbers, all alive during the call.
    unsafe { segment_check(table.as_ptr(), table.len(), &mut number, &mut offset) };
    answered(number, offset.into()).map(drop)
}

/// Start and length of a production's stretch of the table.
///
/// # Errors
/// 1 to 13: the table is refused. 14: there is no such production.
pub fn stretch(table: &[u8], production: usize) -> Result<(usize, usize), Refusal> {
    let (mut start, mut length, mut number, mut offset) = (0, 0, 0, 0);
    // SAFETY: as in `check`.
    unsafe { segment_stretch(table.as_ptr(), table.len(), production, &mut start, &mut length, &mut number, &mut offset) };
    answered(number, offset.into()).map(|_| (start, length))
}

/// As many lines of a table's listing as there is room for, into the first bytes of `out`: how many bytes, and whether that is all.
/// With a shorter area than [`PROGRAM`], or less room than [`LINE`], 0 and false.
#[must_use]
pub fn list(table: &[u8], program: &mut [u32], out: &mut [u8]) -> (usize, bool) {
    let (mut length, mut over) = (0, 0);
    let (p, o) = (program.as_mut_ptr(), out.as_mut_ptr());
    // SAFETY: as in `check`; the area and the bytes are lent exclusively.
    unsafe { segment_list(table.as_ptr(), table.len(), p, program.len(), o, out.len(), &mut length, &mut over) };
    (length, over == 1)
}

/// An accepted table in house order, into the first bytes of `out`: how many. On a refusal no byte of `out` is written. What is written is
/// never longer than the table.
///
/// # Errors
/// 1 to 13: the table is refused. 36: `out` is too short.
pub fn house(table: &[u8], out: &mut [u8]) -> Result<usize, Refusal> {
    let (mut length, mut number, mut offset) = (0, 0, 0);
    // SAFETY: as in `check`; the bytes are lent exclusively.
    unsafe { segment_house(table.as_ptr(), table.len(), out.as_mut_ptr(), out.len(), &mut length, &mut number, &mut offset) };
    answered(number, offset.into()).map(|_| length)
}

/// Opens a run; the record is handed back closed and all zero on a refusal.
///
/// # Errors
/// 1 to 13, 30, 31, 32.
pub fn open(table: &[u8], record: &mut Record, m: &mut Memory) -> Result<u64, Refusal> {
    let (mut number, mut count) = (0, 0);
    call!(segment_open, [table.as_ptr(), table.len(), record], m, &mut number, &mut count);
    answered(number, count)
}

/// Feeds tokens, each a kind and a value; answers the moves made since opening. The value of a kind that carries none is ignored.
///
/// # Errors
/// 1 to 13, 20 to 23, 30 to 35, 38, 40.
pub fn feed(table: &[u8], record: &mut Record, m: &mut Memory, kinds: &[u8], values: &[i32]) -> Result<u64, Refusal> {
    let (mut number, mut count) = (0, 0);
    let (kind, value) = (kinds.as_ptr(), values.as_ptr());
    let before = (table.as_ptr(), table.len());
    call!(segment_feed, [before.0, before.1, record], m, kind, kinds.len(), value, values.len(), &mut number, &mut count);
    answered(number, count)
}

/// Finishes the segment; answers its value and the moves made since opening.
///
/// # Errors
/// 1 to 13, 22 to 24, 30 to 35, 40.
pub fn finish(table: &[u8], record: &mut Record, m: &mut Memory) -> Result<(i64, u64), Refusal> {
    let (mut number, mut value, mut count) = (0, 0, 0);
    call!(segment_finish, [table.as_ptr(), table.len(), record], m, &mut number, &mut value, &mut count);
    answered(number, count).map(|moves| (value, moves))
}
