//! House order: each production followed by its rules by the occurrence they set, then its conditions by their bytes, each once.
use crate::table::Refusal;

/// The first bytes of a body that order the fields of a tag.
fn key(field: &[u8]) -> &[u8] {
    if field[0] == 4 {
        &field[3..5]
    } else {
        &field[3..]
    }
}

/// The fields from an offset on, which are whole, up to the table's end.
fn fields(mut rest: &[u8]) -> impl Iterator<Item = &[u8]> {
    std::iter::from_fn(move || {
        let length = 3 + u16::from_be_bytes([*rest.get(1)?, *rest.get(2)?]) as usize;
        let (field, behind) = rest.split_at(length);
        rest = behind;
        Some(field)
    })
}

/// Writes an accepted table in house order and answers its length; a buffer that is too short is a 36.
pub fn house(table: &[u8], out: &mut [u8]) -> Result<usize, Refusal> {
    let (o, _) = crate::check(table)?;
    let (head, productions) = table.split_at(o.offsets[0] as usize);
    let mut order: Vec<&[u8]> = vec![head];
    let mut first = 1;
    for field in fields(productions).chain([&[3][..]]) {
        if field[0] == 3 {
            order[first..].sort_by_key(|field| (field[0], key(field)));
            first = order.len() + 1;
        }
        order.push(field);
    }
    order.pop();
    order.dedup_by(|a, b| a[0] == 5 && a == b);
    let length = order.iter().map(|field| field.len()).sum();
    if out.len() < length {
        return Err(Refusal { number: 36, offset: 0 });
    }
    let mut at = 0;
    for field in order {
        out[at..at + field.len()].copy_from_slice(field);
        at += field.len();
    }
    Ok(length)
}
