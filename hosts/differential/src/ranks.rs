//! Rankings in both engines: candidates derived from a table's grammar, sometimes as many as there may be or more, with lengths and lists
//! that do not suit them. The report and every cell of the list, the stacks and the program area are compared, with some past those lent.
use crate::hex;
use crate::pair::{same, same_cells, Cells, Lengths, GUARDS};
use crate::random::Random;
use crate::segments::Segments;
use crate::Table;
use plain::rank::{Report, ENTRY};
use segment::lent::{self, Candidates};

/// What is brought to both engines.
struct Brought {
    kinds: Vec<u8>,
    values: Vec<i32>,
    lengths: Vec<u32>,
    /// The cells of the list.
    list: usize,
}

/// A number near another one, or far from it.
fn other(r: &mut Random, n: u32) -> u32 {
    match r.below(4) {
        0 => n.wrapping_add(1),
        1 => n.wrapping_sub(1),
        2 => r.below(6) as u32,
        _ => r.number() as u32,
    }
}

impl Brought {
    fn new(r: &mut Random, table: &Table) -> Brought {
        let many = if r.chance(3) { 510 + r.below(5) } else { r.below(9) };
        let segments = table.outline.as_ref().map(Segments::new);
        let (mut kinds, mut lengths) = (vec![], vec![]);
        for _ in 0..many {
            let candidate = segments.as_ref().map_or(vec![0, 1], |s| s.random(r));
            let short = if many > 100 { r.below(4).min(candidate.len()) } else { candidate.len() };
            kinds.extend(&candidate[..short]);
            lengths.push(short as u32);
        }
        let values = (0..kinds.len()).map(|_| r.value()).collect();
        let list = ENTRY * many + r.below(4);
        let mut brought = Brought { kinds, values, lengths, list };
        if r.chance(15) {
            brought.damage(r);
        }
        brought
    }

    /// One thing that does not suit the others, or two that make up for each other.
    fn damage(&mut self, r: &mut Random) {
        match r.below(8) {
            0 => self.list = self.list.saturating_sub(1 + r.below(5)),
            1 => drop(self.kinds.pop()),
            2 => drop(self.values.pop()),
            3 => self.values.push(1),
            4 => drop(self.lengths.pop()),
            5 => self.lengths.push(other(r, 0)),
            6 if self.lengths.len() > 1 => (self.lengths[0], self.lengths[1]) = (self.lengths[1], self.lengths[0]),
            _ => {
                let n = self.lengths.len();
                self.lengths.iter_mut().nth(r.below(n + 1)).into_iter().for_each(|length| *length = other(r, *length));
            }
        }
    }
}

/// Ranks in both engines on memory of these lengths. Answers the refusal's number or 0, and the numbers of the candidates' refusals.
pub fn compared(r: &mut Random, table: &Table, l: Lengths) -> Result<(u32, Vec<u32>), String> {
    let Brought { kinds, values, lengths, list } = Brought::new(r, table);
    let shown = || format!("rank of {kinds:?} {values:?} {lengths:?} into {list} cells, {l:?}\ntable {}", hex(&table.bytes));
    let (mut cells, fresh) = (Cells::new(r, l), r.number() as i64);
    let (mut others, mut a) = (cells.clone(), vec![fresh; list + GUARDS]);
    let mut b = a.clone();
    let m = others.lent(l);
    let plain = plain::rank::rank(&table.bytes, m.registers, m.places, m.program, &mut a[..list], (&kinds, &values), &lengths);
    let candidates = Candidates { kinds: &kinds, values: &values, lengths: &lengths };
    let proved = lent::rank(&table.bytes, candidates, &mut cells.lent(l), &mut b[..list]);
    let report = |report: lent::Report| Report { valued: report.valued, total: report.total, entries: report.entries };
    let proved = proved.map(report).map_err(|r| (r.number(), r.count()));
    let alike = same("report", proved, plain).and_then(|()| same_cells("cell of the list", &b, &a));
    alike.and_then(|()| cells.same(&others)).map_err(|e| format!("{e}\n{}", shown()))?;
    match proved {
        Ok(report) => Ok((0, b.chunks(ENTRY).take(report.entries).map(|entry| entry[2] as u32).collect())),
        Err((number, _)) => Ok((number, vec![])),
    }
}
