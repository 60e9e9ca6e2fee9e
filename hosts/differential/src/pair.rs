//! The two engines side by side: each call is made on both with the same record and the same memory, and everything is compared.
use crate::random::Random;
use crate::records::{brought, handed};
use plain::inner;
use plain::run::{self, Answer};
use segment::lent::{self, Memory, Record};
use segment::Refusal;
use std::fmt::Debug;

/// Cells past those lent, which no call may touch.
pub(crate) const GUARDS: usize = 4;

#[derive(Clone, Copy, Debug)]
pub enum Call<'a> {
    Open,
    /// Kinds and values.
    Feed(&'a [u8], &'a [i32]),
    Finish,
    /// An inner run's table; the call's own is the outer run's.
    InnerOpen(&'a [u8]),
    InnerFeed(&'a [u8], &'a [i32]),
    InnerFinish,
    GiveUp,
}

impl Call<'_> {
    pub fn name(&self) -> &'static str {
        match self {
            Call::Open => "open",
            Call::Feed(..) => "feed",
            Call::Finish => "finish",
            Call::InnerOpen(_) => "inner open",
            Call::InnerFeed(..) => "inner feed",
            Call::InnerFinish => "inner finish",
            Call::GiveUp => "inner give up",
        }
    }
}

/// The number of a refusal or 0, the value or 0, and what comes with it.
pub type Answered = (u32, i64, u64);

#[derive(Clone, PartialEq, Eq)]
pub(crate) struct Cells {
    pub registers: Vec<i64>,
    pub places: Vec<u32>,
    program: Vec<u32>,
}

/// How many cells of each are lent.
#[derive(Clone, Copy, Debug)]
pub struct Lengths {
    pub registers: usize,
    pub places: usize,
    pub program: usize,
}

impl Cells {
    pub fn new(r: &mut Random, l: Lengths) -> Cells {
        let (a, b, c) = (r.number() as i64, r.number() as u32, r.number() as u32);
        Cells { registers: vec![a; l.registers + GUARDS], places: vec![b; l.places + GUARDS], program: vec![c; l.program + GUARDS] }
    }

    pub fn lent(&mut self, l: Lengths) -> Memory<'_> {
        Memory {
            registers: &mut self.registers[..l.registers],
            places: &mut self.places[..l.places],
            program: &mut self.program[..l.program],
        }
    }

    /// Whether these cells, of the proved engine, are those of the plain one.
    pub fn same(&self, plain: &Cells) -> Result<(), String> {
        if self != plain {
            same_cells("register", &self.registers, &plain.registers)?;
            same_cells("place", &self.places, &plain.places)?;
            same_cells("program word", &self.program, &plain.program)?;
        }
        Ok(())
    }
}

/// The records of an outer and an inner run.
#[derive(Clone, Copy, Debug, Default, PartialEq, Eq)]
pub struct Records {
    pub outer: Record,
    pub inner: Record,
}

#[derive(Clone)]
pub struct Pair {
    pub records: Records,
    most: Lengths,
    pub lengths: Lengths,
    pub(crate) cells: Cells,
    others: Cells,
}

fn in_proved(table: &[u8], Records { outer, inner }: &mut Records, m: &mut Memory, call: Call) -> Answered {
    let moved = |moves| (0, 0, moves);
    let finished = |(value, moves)| (0, value, moves);
    let answer = match call {
        Call::Open => lent::open(table, outer, m).map(moved),
        Call::Feed(kinds, values) => lent::feed(table, outer, m, kinds, values).map(moved),
        Call::Finish => lent::finish(table, outer, m).map(finished),
        Call::InnerOpen(inside) => lent::open_inner(table, inside, (outer, inner), m).map(moved),
        Call::InnerFeed(kinds, values) => lent::feed_inner(table, (outer, inner), m, kinds, values).map(moved),
        Call::InnerFinish => lent::finish_inner(table, (outer, inner), m).map(finished),
        Call::GiveUp => lent::give_up_inner(table, (outer, inner), m).map(moved),
    };
    answer.unwrap_or_else(|r| (r.number(), 0, r.count()))
}

/// The plain calls on a run alone hand back one record, those on an inner run both.
fn plain_call(table: &[u8], both: (run::Record, run::Record), m: Memory, call: Call) -> (run::Record, Option<run::Record>, Answer) {
    let (registers, places, program) = (m.registers, m.places, m.program);
    let alone = |(record, answer)| (record, None, answer);
    let later = match call {
        Call::Open => return alone(run::open(table, registers, places, program)),
        Call::Feed(kinds, values) => return alone(run::feed(table, both.0, registers, places, program, (kinds, values))),
        Call::Finish => return alone(run::finish(table, both.0, registers, places, program)),
        Call::InnerOpen(inside) => {
            let (outer, inner, answer) = inner::open((table, inside), both.0, registers, places, program);
            return (outer, Some(inner), answer);
        }
        Call::InnerFeed(kinds, values) => inner::Call::Feed((kinds, values)),
        Call::InnerFinish => inner::Call::Finish,
        Call::GiveUp => inner::Call::GiveUp,
    };
    let (outer, inner, answer) = inner::call(table, both, registers, places, program, later);
    (outer, Some(inner), answer)
}

fn in_plain(table: &[u8], records: &mut Records, m: Memory, call: Call) -> Answered {
    let (outer, inner, answer) = plain_call(table, (brought(&records.outer), brought(&records.inner)), m, call);
    records.outer = handed(outer);
    records.inner = inner.map_or(records.inner, handed);
    match answer {
        Answer::Opened => (0, 0, 0),
        Answer::More(moves) => (0, 0, moves),
        Answer::Value(value, moves) => (0, value, moves),
        Answer::Refused(number, count) => (number, 0, count),
    }
}

pub(crate) fn same<T: PartialEq + Debug>(what: &str, proved: T, plain: T) -> Result<(), String> {
    if proved == plain {
        return Ok(());
    }
    Err(format!("{what}: proved {proved:?}, plain {plain:?}"))
}

/// The first cell that differs is named.
pub(crate) fn same_cells<T: PartialEq + Debug + Copy>(what: &str, proved: &[T], plain: &[T]) -> Result<(), String> {
    match (0..proved.len()).find(|&i| proved[i] != plain[i]) {
        Some(i) => same(&format!("{what} {i}"), proved[i], plain[i]),
        None => Ok(()),
    }
}

impl Pair {
    pub fn new(r: &mut Random, lengths: Lengths) -> Pair {
        let cells = Cells::new(r, lengths);
        Pair { records: Records::default(), most: lengths, lengths, others: cells.clone(), cells }
    }

    /// Makes a call on both engines; a feed once more, by the call that changes the record in place.
    pub fn call(&mut self, table: &[u8], call: Call) -> Result<Answered, String> {
        let before = matches!(call, Call::Feed(..)).then(|| (self.records, self.cells.clone()));
        self.others.clone_from(&self.cells);
        let mut other = self.records;
        let plain = in_plain(table, &mut other, self.others.lent(self.lengths), call);
        let proved = in_proved(table, &mut self.records, &mut self.cells.lent(self.lengths), call);
        same("answer", proved, plain)?;
        same("record", self.records.outer, other.outer)?;
        same("inner record", self.records.inner, other.inner)?;
        self.cells.same(&self.others)?;
        if let (Call::Feed(kinds, values), Some((records, cells))) = (call, before) {
            self.others = cells;
            let again = self.in_place(table, records.outer, kinds, values)?;
            same("answer in place", proved, again)?;
        }
        Ok(proved)
    }

    /// The feed that was made, in place, on the record and the cells before it: what stands there must be what the feed left.
    fn in_place(&mut self, table: &[u8], mut record: Record, kinds: &[u8], values: &[i32]) -> Result<Answered, String> {
        let answer = lent::feed_in_place(table, &mut record, &mut self.others.lent(self.lengths), kinds, values);
        same("record in place", self.records.outer, record)?;
        self.cells.same(&self.others)?;
        Ok(answer.map_or_else(|r| (r.number(), 0, r.count()), |moves| (0, 0, moves)))
    }

    /// The registers and places that are lent.
    pub fn lent(&self) -> (&[i64], &[u32]) {
        (&self.cells.registers[..self.lengths.registers], &self.cells.places[..self.lengths.places])
    }

    /// Feeds one token in the proved engine alone.
    pub fn feed(&mut self, table: &[u8], kind: u8, value: i32) -> Result<u64, Refusal> {
        lent::feed(table, &mut self.records.outer, &mut self.cells.lent(self.lengths), &[kind], &[value])
    }

    /// Whether records and cells are those of another pair.
    pub fn unchanged(&self, before: &Pair) -> Result<(), String> {
        same("records", self.records, before.records)?;
        self.cells.same(&before.cells)
    }

    /// Lends other lengths from now on, at most those made.
    pub fn lend(&mut self, r: &mut Random) {
        let fewer = |r: &mut Random, n: usize| if r.chance(50) { n } else { n - r.below(n.min(3) + 1) };
        self.lengths =
            Lengths { registers: fewer(r, self.most.registers), places: fewer(r, self.most.places), program: fewer(r, self.most.program) };
    }
}
