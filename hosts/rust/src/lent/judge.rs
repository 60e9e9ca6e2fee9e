//! Sheets from other tools: whether a tree sheet describes a segment's tree.
use super::answered;
use crate::Refusal;

extern "C" {
    fn segment_judge(
        table: *const u8,
        table_length: usize,
        kinds: *const u8,
        kinds_length: usize,
        values: *const i32,
        values_length: usize,
        sheet: *const u8,
        sheet_length: usize,
        number: &mut u32,
        value: &mut i64,
        offset: &mut u32,
    );
}

/// Judges a tree sheet, any bytes, against a table and a segment: the value of the root where the sheet describes the segment's well
/// evaluated tree, of depth at most 1,023, and nothing stands after it. Needs [`SHEET_STACK`](super::SHEET_STACK).
///
/// # Errors
/// 1 to 13: the table is refused. 38: kinds and values are not equally many. 43: the sheet is not that tree's.
pub fn judge(table: &[u8], kinds: &[u8], values: &[i32], sheet: &[u8]) -> Result<i64, Refusal> {
    let (mut number, mut value, mut offset) = (0, 0, 0);
    let (k, v) = (kinds.as_ptr(), values.as_ptr());
    // SAFETY: the pointers are those of slices, with their lengths, and of three numbers, all alive during the call.
    unsafe {
        segment_judge(
            table.as_ptr(),
            table.len(),
            k,
            kinds.len(),
            v,
            values.len(),
            sheet.as_ptr(),
            sheet.len(),
            &mut number,
            &mut value,
            &mut offset,
        );
    }
    answered(number, offset.into()).map(|_| value)
}
