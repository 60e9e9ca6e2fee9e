//! House order in both engines: a table, the same with its fields shuffled, and what is written once more.
use crate::hex;
use crate::random::Random;
use crate::tables::shuffled;

/// Bytes past those lent, which no call may touch.
const GUARDS: usize = 4;

/// The length written or the refusal's number and offset, and the buffer with what stands past it.
type Called = (Result<usize, (u32, u64)>, Vec<u8>);

/// Writes in both engines, into so many bytes.
fn both(table: &[u8], length: usize) -> Result<Called, String> {
    let (mut a, mut b) = (vec![0xa5; length + GUARDS], vec![0xa5; length + GUARDS]);
    let plain = plain::house::house(table, &mut a[..length]).map_err(|r| (r.number, r.offset as u64));
    let proved = segment::lent::house(table, &mut b[..length]).map_err(|r| (r.number(), r.count()));
    if plain != proved || a != b {
        let show = |answer, bytes: &[u8]| format!("{answer:?} and {}", hex(bytes));
        return Err(format!("house into {length} bytes: proved {}, plain {}\ntable {}", show(proved, &b), show(plain, &a), hex(table)));
    }
    Ok((proved, b))
}

/// A length for the buffer: mostly about that of the table.
fn lent(r: &mut Random, table: &[u8]) -> usize {
    match r.below(10) {
        0 => r.below(table.len() + 1),
        1 | 2 => table.len() - r.below(table.len().min(20) + 1),
        _ => table.len() + r.below(3),
    }
}

/// The house table where the table is accepted.
fn house(table: &[u8]) -> Result<Option<Vec<u8>>, String> {
    let (answer, mut bytes) = both(table, table.len())?;
    Ok(answer.ok().map(|length| {
        bytes.truncate(length);
        bytes
    }))
}

/// Compares the calls on a table, and that shuffled fields and a second time alter nothing. Answers the refusal's number, or 0.
pub fn compared(r: &mut Random, table: &[u8]) -> Result<u32, String> {
    let length = lent(r, table);
    let (answer, _) = both(table, length)?;
    if let (Some(once), Some(other)) = (house(table)?, house(&shuffled(r, table))?) {
        let twice = house(&once)?;
        if once != other || twice.as_ref() != Some(&once) {
            return Err(format!("house: {} once, {} of it shuffled\ntable {}", hex(&once), hex(&other), hex(table)));
        }
    }
    Ok(answer.err().map_or(0, |(number, _)| number))
}
