//! The library's calls on an inner run: one over the same lent memory, above an outer run, which waits until it ends.
use super::{answered, Memory, Record};
use crate::Refusal;

extern "C" {
    fn segment_inner_open(
        outer_table: *const u8,
        outer_table_length: usize,
        inner_table: *const u8,
        inner_table_length: usize,
        outer: &mut Record,
        inner: &mut Record,
        registers: *mut i64,
        registers_length: usize,
        places: *mut u32,
        places_length: usize,
        program: *mut u32,
        program_length: usize,
        number: &mut u32,
        count: &mut u64,
    );

    fn segment_inner_feed(
        table: *const u8,
        table_length: usize,
        outer: &mut Record,
        inner: &mut Record,
        registers: *mut i64,
        registers_length: usize,
        places: *mut u32,
        places_length: usize,
        program: *mut u32,
        program_length: usize,
        kinds: *const u8,
        kinds_length: usize,
        values: *const i32,
        values_length: usize,
        number: &mut u32,
        count: &mut u64,
    );

    fn segment_inner_finish(
        table: *const u8,
        table_length: usize,
        outer: &mut Record,
        inner: &mut Record,
        registers: *mut i64,
        registers_length: usize,
        places: *mut u32,
        places_length: usize,
        program: *mut u32,
        program_length: usize,
        number: &mut u32,
        value: &mut i64,
        count: &mut u64,
    );

    fn segment_inner_give_up(
        table: *const u8,
        table_length: usize,
        outer: &mut Record,
        inner: &mut Record,
        registers: *mut i64,
        registers_length: usize,
        places: *mut u32,
        places_length: usize,
        program: *mut u32,
        program_length: usize,
        number: &mut u32,
        count: &mut u64,
    );
}

/// The records of an outer run and of its inner run.
pub type Both<'a> = (&'a mut Record, &'a mut Record);

/// Opens an inner run above an outer one, which then waits. The outer run is judged by its own table, the first of the two. A refusal sets
/// no mark, changes no stack, and hands back an inner record closed and all zero.
///
/// # Errors
/// 1 to 13 of either table, 30 to 34, 40.
pub fn open_inner(outer_table: &[u8], table: &[u8], (outer, inner): Both, m: &mut Memory) -> Result<u64, Refusal> {
    let (mut number, mut count) = (0, 0);
    let (o, i) = (outer_table.as_ptr(), table.as_ptr());
    call!(segment_inner_open, [o, outer_table.len(), i, table.len(), outer, inner], m, &mut number, &mut count);
    answered(number, count)
}

/// Feeds tokens to the inner run; answers its moves since its opening. A refusal that closes it ends it, as a finish does.
///
/// # Errors
/// 1 to 13, 20 to 23, 30 to 35, 38.
pub fn feed_inner(table: &[u8], (outer, inner): Both, m: &mut Memory, kinds: &[u8], values: &[i32]) -> Result<u64, Refusal> {
    let (mut number, mut count) = (0, 0);
    let (t, kind, value) = (table.as_ptr(), kinds.as_ptr(), values.as_ptr());
    let out = (&mut number, &mut count);
    call!(segment_inner_feed, [t, table.len(), outer, inner], m, kind, kinds.len(), value, values.len(), out.0, out.1);
    answered(number, count)
}

/// Finishes the inner run's segment; answers its value and moves. The run ends: its cells are cleared, and the outer run no longer waits.
///
/// # Errors
/// 1 to 13, 22 to 24, 30 to 35.
pub fn finish_inner(table: &[u8], (outer, inner): Both, m: &mut Memory) -> Result<(i64, u64), Refusal> {
    let (mut number, mut value, mut count) = (0, 0, 0);
    let out = (&mut number, &mut value, &mut count);
    call!(segment_inner_finish, [table.as_ptr(), table.len(), outer, inner], m, out.0, out.1, out.2);
    answered(number, count).map(|moves| (value, moves))
}

/// Gives the inner run up: it ends as it stands; answers its moves.
///
/// # Errors
/// 1 to 13, 30, 33, 34.
pub fn give_up_inner(table: &[u8], (outer, inner): Both, m: &mut Memory) -> Result<u64, Refusal> {
    let (mut number, mut count) = (0, 0);
    call!(segment_inner_give_up, [table.as_ptr(), table.len(), outer, inner], m, &mut number, &mut count);
    answered(number, count)
}
