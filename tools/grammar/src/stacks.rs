//! The stacks of a run with names: whose value a register holds, and where each place stands.
use crate::model::{Condition, Function, Grammar, Item, Occurrence, Production, Symbol};
use std::ops::Range;

/// The number of the whole segment as a production, with the start symbol as its one symbol.
pub const WHOLE: usize = 128;

/// A place: a production and how many of its symbols are passed.
#[derive(Clone, Copy, Debug, PartialEq, Eq)]
pub struct Place {
    pub production: usize,
    pub passed: usize,
}

impl Place {
    pub fn of(number: u32) -> Place {
        Place { production: (number / 256) as usize, passed: (number % 256) as usize }
    }

    pub fn number(self) -> usize {
        self.production * 256 + self.passed
    }
}

/// A register: its number, counted from the top, its value, and the occurrence it belongs to in the production of a place.
#[derive(Clone, Copy, Debug, PartialEq, Eq)]
pub struct Cell {
    pub number: usize,
    pub value: Option<i64>,
    /// Which place, counted from the bottom and from 0.
    pub place: usize,
    pub occurrence: Occurrence,
}

/// Both stacks of a run as it stands.
#[derive(Clone, Debug)]
pub struct Stacks<'g> {
    grammar: &'g Grammar,
    /// From the bottom.
    pub places: Vec<Place>,
    /// From the top.
    pub cells: Vec<Cell>,
}

/// The symbols of a production's right side; the whole segment has the start symbol.
pub fn right(g: &Grammar, production: usize) -> &[Symbol] {
    if production == WHOLE {
        return std::slice::from_ref(&g.whole);
    }
    &g.productions[production].right
}

impl<'g> Stacks<'g> {
    /// From the registers and places in use, both from the bottom.
    pub fn new(grammar: &'g Grammar, registers: &[Option<i64>], places: &[u32]) -> Stacks<'g> {
        let places: Vec<Place> = places.iter().copied().map(Place::of).collect();
        let mut stacks = Stacks { grammar, places, cells: Vec::with_capacity(registers.len()) };
        let shown = stacks.shown(registers.len());
        let mut left = registers;
        for (i, awaited) in shown.into_iter().enumerate().rev() {
            for occurrence in stacks.held(i, awaited) {
                let Some((value, below)) = left.split_last() else { break };
                let number = stacks.cells.len() + 1;
                stacks.cells.push(Cell { number, value: *value, place: i, occurrence });
                left = below;
            }
        }
        stacks
    }

    fn counts(&self, place: Place, position: usize) -> (usize, usize) {
        self.grammar.counts(right(self.grammar, place.production)[position - 1])
    }

    /// Which attributes of the symbol at hand have registers, for each place. Places below the top wait and have all of them. At the top
    /// the height tells: none before an add or a token's read, what the symbol gives before a test, else all.
    fn shown(&self, height: usize) -> Vec<Range<usize>> {
        let awaited = |p: &Place| {
            let whole = p.passed >= right(self.grammar, p.production).len();
            let (takes, gives) = if whole { (0, 0) } else { self.counts(*p, p.passed + 1) };
            1..takes + gives + 1
        };
        let passed = |p: &Place| (1..=p.passed).map(|k| self.counts(*p, k).1).sum::<usize>();
        let mut shown: Vec<_> = self.places.iter().map(awaited).collect();
        let passed: usize = self.places.iter().map(passed).sum();
        if let Some((top, below)) = shown.split_last_mut() {
            let below: usize = below.iter().map(Range::len).sum();
            let held = height.saturating_sub(passed + below);
            top.start = top.end.saturating_sub(held).max(1);
        }
        shown
    }

    /// The occurrences of a place that have registers, from the top: the symbol at hand, then the symbols passed, the last first.
    fn held(&self, place: usize, awaited: Range<usize>) -> Vec<Occurrence> {
        let at = self.places[place];
        let mut held: Vec<Occurrence> = awaited.map(|attribute| Occurrence { position: at.passed + 1, attribute }).collect();
        for position in (1..=at.passed).rev() {
            let (takes, gives) = self.counts(at, position);
            held.extend((takes + 1..=takes + gives).map(|attribute| Occurrence { position, attribute }));
        }
        held
    }

    /// The register of an occurrence in the production at a place, which need not be pushed yet: its left side's registers are those of
    /// the symbol that the place below waits at.
    pub fn cell(&self, place: usize, o: Occurrence) -> Option<&Cell> {
        let (place, position) = match o.position {
            0 => (place.checked_sub(1)?, self.places.get(place.checked_sub(1)?)?.passed + 1),
            k => (place, k),
        };
        let wanted = Occurrence { position, attribute: o.attribute };
        self.cells.iter().find(|c| c.place == place && c.occurrence == wanted)
    }

    pub fn value(&self, place: usize, o: Occurrence) -> Option<i64> {
        self.cell(place, o)?.value
    }

    /// A register's name: the attribute as the production of its place writes it.
    pub fn name(&self, cell: &Cell) -> String {
        let g = self.grammar;
        match self.places[cell.place].production {
            WHOLE => format!("{}.{}", g.parts[g.start].name, g.attribute(g.whole, cell.occurrence.attribute)),
            p => g.label(&g.productions[p], cell.occurrence),
        }
    }

    /// A place as a production with a dot before the symbol at hand.
    pub fn place_name(&self, place: Place) -> String {
        let g = self.grammar;
        let mut right: Vec<&str> = right(g, place.production).iter().map(|&s| g.name(s)).collect();
        right.insert(place.passed.min(right.len()), "\u{b7}");
        match place.production {
            WHOLE => format!("segment: {}", right.join(" ")),
            p => format!("{}: {}", g.parts[g.productions[p].left].name, right.join(" ")),
        }
    }
}

/// The limits of values.
pub const LIMIT: i128 = 1_000_000_000_000;

/// A rule's exact result. None where an operand has no value.
pub fn result(f: &Function<Occurrence>, value: impl Fn(Occurrence) -> Option<i64>) -> Option<i128> {
    let of = |o: &Occurrence| value(*o).map(i128::from);
    Some(match f {
        Function::Const(c) => (*c).into(),
        Function::Copy(a) => of(a)?,
        Function::Sum(a, b) => of(a)? + of(b)?,
        Function::Diff(a, b) => of(a)? - of(b)?,
        Function::Prod(a, b) => of(a)? * of(b)?,
        Function::Max(a, b) => of(a)?.max(of(b)?),
        Function::Min(a, b) => of(a)?.min(of(b)?),
        Function::AddC(a, c) => of(a)? + i128::from(*c),
        Function::Quot(a, c) => (2 * of(a)? + i128::from(*c)).div_euclid(2 * i128::from(*c)),
    })
}

/// Whether a condition holds. None where an operand has no value.
pub fn holds(c: &Condition<Occurrence>, value: impl Fn(Occurrence) -> Option<i64>) -> Option<bool> {
    Some(match c {
        Condition::Range(a, low, high) => (i64::from(*low)..=i64::from(*high)).contains(&value(*a)?),
        Condition::AtMost(a, b, c) => value(*a)? <= value(*b)? + i64::from(c.unwrap_or(0)),
    })
}

/// The rules of a production for a position: what the symbol there takes, or what the left side gives.
pub fn rules(p: &Production, position: usize) -> impl Iterator<Item = (usize, &Item<Occurrence>)> {
    p.items.iter().enumerate().filter(move |(_, item)| matches!(item, Item::Rule(o, _) if o.position == position))
}

/// The conditions of a production that are tested at a position: the rightmost that they read.
pub fn conditions(p: &Production, position: usize) -> impl Iterator<Item = (usize, &Condition<Occurrence>)> {
    p.items.iter().enumerate().filter_map(move |(i, item)| match item {
        Item::Condition(c) if item.reads().iter().map(|o| o.position).max() == Some(position) => Some((i, c)),
        _ => None,
    })
}
