//! A feed through the engine's call that changes a record where it stands.
use super::{answered, Memory, Record};
use crate::Refusal;

extern "C" {
    fn segment_feed_in_place(
        table: *const u8,
        table_length: usize,
        record: &mut Record,
        registers: *mut i64,
        registers_length: usize,
        places: *mut u32,
        places_length: usize,
        program: *mut u32,
        program_length: usize,
        kinds: *const u8,
        kinds_length: usize,
        values: *const i32,
        values_length: usize,
        number: &mut u32,
        count: &mut u64,
    );
}

/// As [`feed`](super::feed), through the engine's call that changes its record in place: the same answer, record and memory.
///
/// ```
/// use segment::lent::{self, Memory, Record, PROGRAM};
/// # let table = include_bytes!(concat!(env!("CARGO_MANIFEST_DIR"), "/../../grammars/words.table"));
/// let (mut registers, mut places, mut program) = ([0; 20], [0; 8], [0; PROGRAM]);
/// let mut memory = Memory { registers: &mut registers, places: &mut places, program: &mut program };
/// let mut record = Record::default();
/// lent::open(table, &mut record, &mut memory)?;
/// for word in [0, 0] {
///     lent::feed_in_place(table, &mut record, &mut memory, &[word], &[0])?;
/// }
/// assert_eq!((record.tokens, lent::finish(table, &mut record, &mut memory)?.0), (2, 2));
/// # Ok::<(), segment::Refusal>(())
/// ```
///
/// # Errors
/// As for [`feed`](super::feed).
pub fn feed_in_place(table: &[u8], record: &mut Record, m: &mut Memory, kinds: &[u8], values: &[i32]) -> Result<u64, Refusal> {
    let (mut number, mut count) = (0, 0);
    let (kind, value) = (kinds.as_ptr(), values.as_ptr());
    let before = (table.as_ptr(), table.len());
    call!(segment_feed_in_place, [before.0, before.1, record], m, kind, kinds.len(), value, values.len(), &mut number, &mut count);
    answered(number, count)
}
