//! The segment engine in plain Rust: what the proved engine is measured and compared with.
pub mod house;
pub mod inner;
pub mod judge;
pub mod listing;
pub mod preview;
pub mod program;
pub mod rank;
pub mod run;
pub mod samples;
pub mod sheet;
pub mod table;
pub mod window;

use judge::Sets;
use table::{Outline, Refusal};

/// Judges a table.
pub fn check(table: &[u8]) -> Result<(Outline, Sets), Refusal> {
    let outline = table::read(table)?;
    let sets = judge::judge(table, &outline)?;
    Ok((outline, sets))
}

/// The start and end of a production's fields.
pub fn stretch(table: &[u8], p: usize) -> Result<(usize, usize), Refusal> {
    let (o, _) = check(table)?;
    if p >= o.productions {
        return Err(Refusal { number: 14, offset: 0 });
    }
    let end = if p + 1 < o.productions { o.offsets[p + 1] as usize } else { table.len() };
    Ok((o.offsets[p] as usize, end))
}

#[cfg(test)]
mod tests {
    use super::*;

    #[test]
    fn samples_are_what_they_say() {
        assert!(check(&samples::words()).is_ok());
        assert!(check(&samples::lengths()).is_ok());
        assert!(check(&samples::many_kinds()).is_ok());
        for (n, third, conditions) in [(1, 0, 0), (4, 2, 8), (47, 33, 512)] {
            let table = samples::chain(n, third, conditions);
            assert!(check(&table).is_ok(), "{n}");
            let late = check(&samples::refused_late(n, third, conditions)).err().unwrap();
            assert_eq!((late.number, late.offset as usize), (13, table.len()));
        }
        for table in [samples::conditions(|i| i), samples::conditions(|i| 511 - i), samples::conditions(|_| 0)] {
            assert!(check(&table).is_ok());
        }
        let longest = samples::longest_refused();
        assert_eq!((longest.len(), check(&longest).err().unwrap().number), (32768, 5));
    }

    /// The value of a segment with as much memory as a run can use; the tokens carry 1, 2, 3 and so on.
    fn value(table: &[u8], tokens: &[u8]) -> run::Answer {
        let values: Vec<i32> = (1..).take(tokens.len()).collect();
        let (mut registers, mut places, mut program) = (vec![0; 4096], vec![0; 1024], vec![0; 16384]);
        let (record, _) = run::open(table, &mut registers, &mut places, &mut program);
        let (record, _) = run::feed(table, record, &mut registers, &mut places, &mut program, (tokens, &values));
        run::finish(table, record, &mut registers, &mut places, &mut program).1
    }

    #[test]
    fn segments_are_what_they_say() {
        let is = |answer, v| matches!(answer, run::Answer::Value(found, _) if found == v);
        assert!(is(value(&samples::words(), &[0, 1, 0, 2]), 2));
        assert!(is(value(&samples::lengths(), &[0, 1, 0, 2]), 1 + 3));
        assert!(is(value(&samples::many_kinds(), &[61, 1, 2, 2, 0, 0, 0, 0, 0, 7, 62]), 11));
        assert!(is(value(&samples::lines(), &samples::lines_segment()), 65535 + 559));
        assert!(is(value(&samples::brackets(), &samples::brackets_segment(1000)), 1000));
        assert!(matches!(value(&samples::chain(47, 33, 512), &samples::chain_segment(10)), run::Answer::Value(..)));
    }
}
