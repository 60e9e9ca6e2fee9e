//! What a segment may cost at most: how often a part can follow or hold itself before the stacks are full.
use crate::model::{Grammar, Symbol};
use crate::suggest::grouped;
use crate::Built;
use segment::lent::{PLACES, REGISTERS};

/// Registers and places.
#[derive(Clone, Copy, Debug, PartialEq, Eq)]
struct Room {
    registers: usize,
    places: usize,
}

impl Room {
    fn and(self, other: Room) -> Room {
        Room { registers: self.registers + other.registers, places: self.places + other.places }
    }

    fn least(self, other: Room) -> Room {
        Room { registers: self.registers.min(other.registers), places: self.places.min(other.places) }
    }

    fn most(self, other: Room) -> Room {
        Room { registers: self.registers.max(other.registers), places: self.places.max(other.places) }
    }
}

/// More than any run has.
const NEVER: Room = Room { registers: 1 << 40, places: 1 << 40 };
const NOTHING: Room = Room { registers: 0, places: 0 };

/// What a production keeps while it waits at a position: its place, what the symbols before gave, and all of the symbol there.
fn waiting(g: &Grammar, p: usize, position: usize) -> Room {
    let right = &g.productions[p].right;
    let passed: usize = right[..position - 1].iter().map(|&s| g.counts(s).1).sum();
    let (takes, gives) = g.counts(right[position - 1]);
    Room { registers: passed + takes + gives, places: 1 }
}

/// The positions of a right side at which parts stand.
fn parts(g: &Grammar, p: usize) -> impl Iterator<Item = (usize, usize)> + '_ {
    let right = g.productions[p].right.iter().enumerate();
    right.filter_map(|(i, s)| if let Symbol::Part(n) = s { Some((i + 1, *n)) } else { None })
}

/// What each part needs at least, whatever its alternatives and conditions: the least registers and the least places.
fn needs(g: &Grammar) -> Vec<Room> {
    let mut needs = vec![NEVER; g.parts.len()];
    for _ in 0..=g.parts.len() {
        for (p, production) in g.productions.iter().enumerate() {
            // Behind its last symbol it keeps what all of them gave.
            let passed = Room { registers: production.right.iter().map(|&s| g.counts(s).1).sum(), places: 1 };
            let own = parts(g, p).fold(passed, |most, (k, n)| most.most(waiting(g, p, k).and(needs[n])));
            needs[production.left] = needs[production.left].least(own);
        }
    }
    needs
}

/// What lies below each part at least when it is predicted first.
fn below(g: &Grammar) -> Vec<Room> {
    let mut below = vec![NEVER; g.parts.len()];
    below[g.start] = Room { registers: g.counts(g.whole).1, places: 1 };
    for _ in 0..=g.parts.len() {
        for (p, production) in g.productions.iter().enumerate() {
            for (k, n) in parts(g, p) {
                below[n] = below[n].least(below[production.left].and(waiting(g, p, k)));
            }
        }
    }
    below
}

/// A line for each production that has its own left side on the right: what each time takes, and how often that goes at most.
pub fn lines(built: &Built) -> Vec<String> {
    let g = &built.grammar;
    let (needs, below) = (needs(g), below(g));
    let mut lines = Vec::new();
    for (p, production) in g.productions.iter().enumerate() {
        for (k, n) in parts(g, p).filter(|&(_, n)| n == production.left) {
            let each = waiting(g, p, k);
            let spare = below[n].and(needs[n]);
            let times = |whole: usize, used: usize, each: usize| whole.saturating_sub(used).checked_div(each).unwrap_or(usize::MAX);
            let places = times(PLACES, spare.places, each.places);
            let most = places.min(times(REGISTERS, spare.registers, each.registers));
            let how = if k == production.right.len() { "in a row" } else { "inside each other" };
            let (line, words) = (built.places.productions[p].span.line, room(each));
            if lines.is_empty() {
                lines.push("what the stacks hold, conditions aside:".into());
            }
            lines.push(format!("line {line}, `{}`: each takes {words}; at most {} {how}", g.heading(production), grouped(most as u64)));
        }
    }
    lines
}

fn room(each: Room) -> String {
    use crate::suggest::counted;
    match each {
        NOTHING => "nothing".into(),
        Room { registers: 0, places } => counted(places, "place"),
        Room { registers, places } => format!("{} and {}", counted(places, "place"), counted(registers, "register")),
    }
}
