//! Tree sheets: a record for each node of a segment's tree, in the order of entering.
use crate::program::{build, AREA};
use crate::run::{evaluated, Answer, Machine};
use crate::table::{constant, Outline};

/// The most nodes on a way down from the root, which counts.
pub const DEPTH: usize = 1023;

/// The bytes of a record before its values: production, tokens before, tokens covered.
const HEAD: usize = 12;

const LIMIT: i64 = 1_000_000_000_000;

/// A sheet and what it is judged against.
struct Judge<'a> {
    table: &'a [u8],
    outline: &'a Outline,
    kinds: &'a [u8],
    values: &'a [i32],
    sheet: &'a [u8],
}

/// For each position of a production where its values are: the first byte of a nonterminal's in the sheet, or a token's number.
type Marks = [usize; 13];

impl Judge<'_> {
    fn word(&self, at: usize) -> Option<usize> {
        let bytes = self.sheet.get(at..at + 4)?;
        Some(u32::from_be_bytes(bytes.try_into().unwrap()) as usize)
    }

    fn long(&self, at: usize) -> i64 {
        i64::from_be_bytes(self.sheet[at..at + 8].try_into().unwrap())
    }

    /// The value of an occurrence of production p.
    fn read(&self, p: usize, marks: &Marks, position: u8, attribute: u8) -> i64 {
        let mark = marks[position as usize];
        if self.outline.symbol(p, position) < 128 {
            return self.values[mark].into();
        }
        self.long(mark + 8 * (attribute as usize - 1))
    }

    /// Whether a rule gives the value that stands at what it sets.
    fn rule_holds(&self, p: usize, marks: &Marks, b: &[u8]) -> bool {
        let a = || self.read(p, marks, b[3], b[4]);
        let c = || self.read(p, marks, b[5], b[6]);
        let value = match b[2] {
            0 => Some(constant(b, 3).into()),
            1 => Some(a()),
            2 => Some(a() + c()),
            3 => Some(a() - c()),
            4 => a().checked_mul(c()),
            5 => Some(a().max(c())),
            6 => Some(a().min(c())),
            7 => Some(a() + i64::from(constant(b, 5))),
            _ => {
                let by = i64::from(constant(b, 5));
                Some((2 * a() + by).div_euclid(2 * by))
            }
        };
        value == Some(self.read(p, marks, b[0], b[1]))
    }

    fn condition_holds(&self, p: usize, marks: &Marks, b: &[u8]) -> bool {
        let a = self.read(p, marks, b[1], b[2]);
        match b[0] {
            0 => i64::from(constant(b, 3)) <= a && a <= i64::from(constant(b, 7)),
            1 => a <= self.read(p, marks, b[3], b[4]),
            _ => a <= self.read(p, marks, b[3], b[4]) + i64::from(constant(b, 5)),
        }
    }

    /// Whether the rules and conditions of production p hold.
    fn holds(&self, p: usize, marks: &Marks) -> bool {
        let o = self.outline;
        let end = if p + 1 < o.productions { o.offsets[p + 1] as usize } else { self.table.len() };
        let mut at = o.offsets[p] as usize;
        while at < end {
            let size = self.table[at + 1] as usize * 256 + self.table[at + 2] as usize;
            let b = &self.table[at + 3..at + 3 + size];
            let held = match self.table[at] {
                4 => self.rule_holds(p, marks, b),
                5 => self.condition_holds(p, marks, b),
                _ => true,
            };
            if !held {
                return false;
            }
            at += 3 + size;
        }
        true
    }

    /// A node of a nonterminal, whose record is at a byte of the sheet and whose tokens begin at one: where both are over.
    fn node(&self, symbol: u8, at: usize, from: usize, depth: usize) -> Option<(usize, usize)> {
        let o = self.outline;
        let p = self.word(at)?;
        if depth > DEPTH || p >= o.productions || o.symbol(p, 0) != symbol || self.word(at + 4)? != from {
            return None;
        }
        let covered = self.word(at + 8)?;
        let mut next = at + HEAD + 8 * (o.inh(symbol) + o.syn(symbol)) as usize;
        if next > self.sheet.len() || (at + HEAD..next).step_by(8).any(|i| !(-LIMIT..=LIMIT).contains(&self.long(i))) {
            return None;
        }
        let (mut marks, mut end) = ([at + HEAD; 13], from);
        for k in 1..=o.rows[p][1] {
            let x = o.symbol(p, k);
            if x < 128 {
                if self.kinds.get(end) != Some(&x) {
                    return None;
                }
                marks[k as usize] = end;
                end += 1;
            } else {
                marks[k as usize] = next + HEAD;
                (next, end) = self.node(x, next, end, depth + 1)?;
            }
        }
        (covered == end - from && self.holds(p, &marks)).then_some((next, end))
    }
}

/// Judges a sheet against table and segment: the root's value, or number and offset of the refusal.
pub fn judge(table: &[u8], kinds: &[u8], values: &[i32], sheet: &[u8]) -> Result<i64, (u32, u64)> {
    let (outline, _) = crate::check(table).map_err(|r| (r.number, r.offset.into()))?;
    if kinds.len() != values.len() {
        return Err((38, 0));
    }
    let j = Judge { table, outline: &outline, kinds, values, sheet };
    if j.node(128 + outline.start, 0, 0, 1) != Some((sheet.len(), kinds.len())) {
        return Err((43, 0));
    }
    Ok(j.long(HEAD + 8 * (outline.result as usize - 1)))
}

/// The operations of a program that enter a node and leave it.
const PREDICT: u32 = 3;
const REMOVE: u32 = 5;

/// The records so far: as many as there is room for, the length of all, and where those of the nodes not yet left begin.
struct Writer<'a> {
    outline: &'a Outline,
    room: usize,
    bytes: Vec<u8>,
    length: usize,
    open: Vec<usize>,
}

impl Writer<'_> {
    /// A record without tokens covered and without what the node gives; both come when it is left.
    fn enter(&mut self, m: &Machine) {
        let (p, before) = m.standing();
        let symbol = self.outline.symbol(p, 0);
        let (takes, gives) = (self.outline.inh(symbol), self.outline.syn(symbol));
        self.open.push(self.length);
        self.length += HEAD + 8 * (takes + gives) as usize;
        if self.length > self.room {
            return;
        }
        self.bytes.extend((p as u32).to_be_bytes());
        self.bytes.extend(before.to_be_bytes());
        self.bytes.extend([0; 4]);
        for a in 1..=takes {
            self.bytes.extend(m.register(a.into()).to_be_bytes());
        }
        self.bytes.resize(self.length, 0);
    }

    fn leave(&mut self, m: &Machine) {
        let at = self.open.pop().expect("a node was entered");
        if self.length > self.room {
            return;
        }
        let word = |at: usize| u32::from_be_bytes(self.bytes[at..at + 4].try_into().unwrap());
        let (p, covered) = (word(at) as usize, m.standing().1 - word(at + 4));
        let symbol = self.outline.symbol(p, 0);
        self.bytes[at + 8..at + HEAD].copy_from_slice(&covered.to_be_bytes());
        let first = at + HEAD + 8 * self.outline.inh(symbol) as usize;
        for a in 0..self.outline.syn(symbol) {
            let to = first + 8 * a as usize;
            self.bytes[to..to + 8].copy_from_slice(&m.register(u32::from(a) + 1).to_be_bytes());
        }
    }
}

/// A segment's value, the moves and the length of its sheet, which is written; or number and offset of the refusal.
pub fn sheet(
    table: &[u8],
    (kinds, values): (&[u8], &[i32]),
    registers: usize,
    places: usize,
    out: &mut [u8],
) -> Result<(i64, u64, usize), (u32, u64)> {
    let (outline, sets) = crate::check(table).map_err(|r| (r.number, r.offset.into()))?;
    if kinds.len() != values.len() {
        return Err((38, 0));
    }
    let mut program = vec![0; AREA];
    build(table, &outline, &sets, &mut program);
    let (mut registers, mut places) = (vec![0; registers.min(4096)], vec![0; places.min(1024)]);
    let mut w = Writer { outline: &outline, room: out.len(), bytes: vec![], length: 0, open: vec![] };
    let told = &mut |m: &Machine, op: u32| match op {
        PREDICT => w.enter(m),
        REMOVE => w.leave(m),
        _ => {}
    };
    match evaluated(&mut registers, &mut places, &program, (kinds, values), told) {
        Answer::Value(value, moves) if w.length <= w.room => {
            out[..w.length].copy_from_slice(&w.bytes);
            Ok((value, moves, w.length))
        }
        Answer::Refused(number, tokens) => Err((number, tokens)),
        _ => Err((41, 0)),
    }
}
