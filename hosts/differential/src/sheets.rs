//! Tree sheets in both engines: written for a segment of the table's grammar, on stacks of any length and into short buffers, every byte
//! compared, with some past those lent; then judged, with damage, for other tokens and values, and any bytes.
use crate::hex;
use crate::pair::{same, same_cells, GUARDS};
use crate::random::Random;
use crate::segments::Segments;
use crate::Table;

/// The longest sheet that is made.
const ROOM: usize = 1 << 18;

/// The sheet of a segment; none where there is no tree or it is too long.
fn written(table: &[u8], kinds: &[u8], values: &[i32]) -> Option<Vec<u8>> {
    let mut sheet = vec![0; ROOM];
    let (_, _, length) = plain::sheet::sheet(table, (kinds, values), 4096, 1024, &mut sheet).ok()?;
    sheet.truncate(length);
    Some(sheet)
}

/// A sheet written in both engines on stacks of so many cells, into so many bytes: its length, or the refusal's number.
fn wrote(table: &[u8], kinds: &[u8], values: &[i32], room: (usize, usize), long: usize) -> Result<Result<usize, u32>, String> {
    let (mut a, mut b) = (vec![0xa5; long + GUARDS], vec![0xa5; long + GUARDS]);
    let plain = plain::sheet::sheet(table, (kinds, values), room.0, room.1, &mut a[..long]);
    let proved = segment::lent::sheet(table, kinds, values, room, &mut b[..long]);
    let proved = proved.map(|w| (w.value, w.moves, w.length)).map_err(|r| (r.number(), r.count()));
    let shown = || format!("sheet of {kinds:?} {values:?} on {room:?} into {long} bytes\ntable {}", hex(table));
    let alike = same("sheet", proved, plain).and_then(|()| same_cells("byte of the sheet", &b, &a));
    alike.map_err(|e| format!("{e}\n{}", shown()))?;
    Ok(proved.map(|(_, _, length)| length).map_err(|(number, _)| number))
}

/// Sheets written for one segment; the numbers of the refusals, 0 for none.
pub fn written_alike(r: &mut Random, table: &Table) -> Result<Vec<u32>, String> {
    let kinds = table.outline.as_ref().map_or(vec![0, 1], |outline| Segments::new(outline).random(r));
    let mut values = values(r, kinds.len());
    if r.chance(5) {
        values.push(0);
    }
    let full = wrote(&table.bytes, &kinds, &values, (4096 + r.below(3), 1024 + r.below(3)), ROOM)?;
    let most = full.unwrap_or(100);
    let mut numbers = vec![full.err().unwrap_or(0)];
    for _ in 0..3 {
        let room = if r.chance(60) { (r.below(60), r.below(30)) } else { (4096, 1024) };
        let long = if r.chance(50) { most.saturating_sub(r.below(3)) } else { r.below(most + 2) };
        numbers.push(wrote(&table.bytes, &kinds, &values, room, long)?.err().unwrap_or(0));
    }
    Ok(numbers)
}

/// Values that a condition is likelier to hold of than of any.
fn values(r: &mut Random, many: usize) -> Vec<i32> {
    let small = r.chance(70);
    (0..many).map(|_| if small { r.below(7) as i32 } else { r.value() }).collect()
}

/// A change of one to three places, mostly small.
fn damage(r: &mut Random, sheet: &mut Vec<u8>) {
    for _ in 0..1 + r.below(3) {
        let (at, byte) = (r.below(sheet.len() + 1), r.number() as u8);
        match r.below(8) {
            0 => sheet.truncate(at),
            1 => sheet.insert(at, byte),
            2 => sheet.push(byte),
            3 if at < sheet.len() => drop(sheet.remove(at)),
            // Records begin at multiples of 4, and hold values from the twelfth byte on.
            4 if at + 8 <= sheet.len() => sheet[at / 4 * 4..][..4].rotate_left(1),
            5 if at < sheet.len() => sheet[at] ^= 1 << r.below(8),
            6 if at + 4 <= sheet.len() => sheet[at / 4 * 4 + 3] = sheet[at / 4 * 4 + 3].wrapping_add(1),
            _ => sheet.iter_mut().skip(at).take(1).for_each(|b| *b = byte),
        }
    }
}

/// Judges in both engines: the refusal's number, or 0.
fn both(table: &[u8], kinds: &[u8], values: &[i32], sheet: &[u8]) -> Result<u32, String> {
    let plain = plain::sheet::judge(table, kinds, values, sheet);
    let proved = segment::lent::judge(table, kinds, values, sheet).map_err(|r| (r.number(), r.count()));
    let shown = || format!("judge of {kinds:?} {values:?} and {}\ntable {}", hex(sheet), hex(table));
    same("judgement", proved, plain).map_err(|e| format!("{e}\n{}", shown()))?;
    Ok(proved.err().map_or(0, |(number, _)| number))
}

/// The numbers of the refusals, 0 for an accepted sheet.
pub fn compared(r: &mut Random, table: &Table) -> Result<Vec<u32>, String> {
    let kinds = table.outline.as_ref().map_or(vec![0, 1], |outline| Segments::new(outline).random(r));
    let mut values = values(r, kinds.len());
    let own = written(&table.bytes, &kinds, &values);
    let mut sheet = own.clone().unwrap_or_else(|| (0..r.below(60)).map(|_| r.below(4) as u8).collect());
    let first = both(&table.bytes, &kinds, &values, &sheet)?;
    if own.is_some() && first != 0 {
        return Err(format!("the sheet of {kinds:?} {values:?} is refused\ntable {}", hex(&table.bytes)));
    }
    let mut numbers = vec![first];
    for _ in 0..4 {
        match r.below(10) {
            0 => drop(values.pop()),
            1 => values.iter_mut().take(1).for_each(|v| *v = v.wrapping_add(1)),
            _ => damage(r, &mut sheet),
        }
        numbers.push(both(&table.bytes, &kinds, &values, &sheet)?);
        if r.chance(60) {
            values.resize(kinds.len(), 0);
            sheet = own.clone().unwrap_or_default();
        }
    }
    Ok(numbers)
}
