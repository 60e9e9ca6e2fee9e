//! Opening, feeding and finishing a run.
use crate::program::{build, AREA, WHOLE};

pub const MARK: i64 = i64::MIN;
const MOVES: u64 = u32::MAX as u64;
const TOKENS: u64 = 65535;
const SEGMENT: u32 = 32768;

#[derive(Clone, Copy, Debug, PartialEq, Eq, Default)]
pub enum Status {
    #[default]
    Closed,
    Running,
    Waiting,
}

/// An inner run has the heights where it begins.
#[derive(Clone, Copy, Debug, PartialEq, Eq, Default)]
pub enum Kind {
    #[default]
    Outer,
    Inner(u64, u64),
}

#[derive(Clone, Copy, Debug, PartialEq, Eq, Default)]
pub struct Record {
    pub status: Status,
    pub kind: Kind,
    pub tokens: u64,
    pub moves: u64,
    pub registers: u64,
    pub places: u64,
}

#[derive(Clone, Copy, Debug, PartialEq, Eq)]
pub enum Answer {
    Opened,
    More(u64),
    Value(i64, u64),
    Refused(u32, u64),
}

/// Kinds and values.
pub type Tokens<'a> = (&'a [u8], &'a [i32]);

pub(crate) struct Machine<'a> {
    program: &'a [u32],
    registers: &'a mut [i64],
    places: &'a mut [u32],
    rh: usize,
    ph: usize,
    tokens: u64,
    moves: u64,
    /// Address of the next instruction of the top place.
    at: usize,
    records: usize,
}

fn signed(word: u32) -> i64 {
    word as i32 as i64
}

fn in_range(v: i64) -> bool {
    (-1_000_000_000_000..=1_000_000_000_000).contains(&v)
}

impl<'a> Machine<'a> {
    fn new(record: Record, registers: &'a mut [i64], places: &'a mut [u32], program: &'a [u32]) -> Machine<'a> {
        let (rh, ph, records) = (record.registers as usize, record.places as usize, program[2] as usize);
        let (tokens, moves) = (record.tokens, record.moves);
        let mut m = Machine { program, registers, places, rh, ph, tokens, moves, at: 0, records };
        m.at = m.expect_of(m.places[ph - 1]);
        m
    }

    /// The production on top of the places, and the tokens read.
    pub fn standing(&self) -> (usize, u32) {
        (self.places[self.ph - 1] as usize / 256, self.tokens as u32)
    }

    pub fn register(&self, selector: u32) -> i64 {
        self.registers[self.rh - selector as usize]
    }

    fn compute(&self, w: u32, c: u32) -> Option<i64> {
        let a = || self.register(w >> 11 & 127);
        let b = || self.register(w >> 18);
        let v = match w >> 7 & 15 {
            0 => signed(c),
            1 => a(),
            2 => a() + b(),
            3 => a() - b(),
            4 => a().checked_mul(b())?,
            5 => a().max(b()),
            6 => a().min(b()),
            7 => a() + signed(c),
            _ => (2 * a() + signed(c)).div_euclid(2 * signed(c)),
        };
        in_range(v).then_some(v)
    }

    fn holds(&self, at: usize) -> bool {
        let w = self.program[at];
        let a = self.register(w & 127);
        if w >> 7 & 15 == 0 {
            signed(self.program[at + 1]) <= a && a <= signed(self.program[at + 2])
        } else {
            a <= self.register(w >> 11 & 127) + signed(self.program[at + 1])
        }
    }

    fn evaluate(&mut self, n: usize) -> Result<(), u32> {
        let mut values = [0i64; 8];
        for i in 0..n {
            let at = self.at + 1 + 2 * i;
            values[i] = self.compute(self.program[at], self.program[at + 1]).ok_or(23u32)?;
        }
        for i in 0..n {
            let target = self.program[self.at + 1 + 2 * i] & 127;
            let to = self.rh - target as usize;
            self.registers[to] = values[i];
        }
        self.at += 1 + 2 * n;
        Ok(())
    }

    fn test(&mut self, n: usize) -> Result<(), u32> {
        for i in 0..n {
            if !self.holds(self.at + 1 + 3 * i) {
                return Err(22);
            }
        }
        self.at += 1 + 3 * n;
        self.places[self.ph - 1] += 1;
        Ok(())
    }

    fn pass(&mut self) {
        if self.program[self.at] & 7 != 4 {
            self.places[self.ph - 1] += 1;
        }
    }

    fn predict(&mut self, n: usize, look: usize) -> Result<(), u32> {
        let mut p = self.program[WHOLE + 64 * n + look] % 256;
        if p == 0 {
            return Err(if look == 63 { 24 } else { 21 });
        }
        loop {
            let r = self.records + 8 * (p as usize - 1);
            let entries = self.program[r + 5] as usize;
            let scheme = self.program[r + 6] as usize;
            if (0..entries).all(|i| self.holds(scheme - 3 * entries + 3 * i)) {
                if self.ph == self.places.len() {
                    return Err(32);
                }
                self.places[self.ph] = 256 * (p - 1);
                self.ph += 1;
                self.at = scheme;
                return Ok(());
            }
            loop {
                p = self.program[self.records + 8 * (p as usize - 1) + 1];
                if p == 0 {
                    return Err(22);
                }
                let set = self.records + 8 * (p as usize - 1) + 2 + look / 32;
                if self.program[set] >> (look % 32) & 1 == 1 {
                    break;
                }
            }
        }
    }

    fn remove(&mut self, n: usize) {
        self.registers[self.rh - n..self.rh].fill(MARK);
        self.rh -= n;
        self.places[self.ph - 1] = 0;
        self.ph -= 1;
        self.at = self.expect_of(self.places[self.ph - 1]) + 1;
        self.pass();
    }

    /// The address of the expect at which a place waits.
    fn expect_of(&self, place: u32) -> usize {
        if place >= SEGMENT {
            return (place - SEGMENT) as usize;
        }
        let r = self.records + 8 * (place / 256) as usize;
        self.program[self.program[r + 4] as usize + (place % 256) as usize] as usize
    }

    /// Reads a token: one that carries a value adds its register.
    fn read(&mut self, n: usize, look: usize, value: i32) -> Result<(), u32> {
        if look != n {
            return Err(if look == 63 { 24 } else { 21 });
        }
        if self.program[7 + n / 32] >> (n % 32) & 1 == 1 {
            if self.rh == self.registers.len() {
                return Err(31);
            }
            self.registers[self.rh] = value.into();
            self.rh += 1;
        }
        self.tokens += 1;
        self.at += 1;
        self.pass();
        Ok(())
    }

    fn one(&mut self, look: usize, value: i32) -> Result<(), u32> {
        let word = self.program[self.at];
        let n = (word >> 3) as usize;
        match word & 7 {
            0 => {
                if self.registers.len() - self.rh < n {
                    return Err(31);
                }
                self.rh += n;
                self.at += 1;
            }
            1 => self.evaluate(n)?,
            2 => self.read(n, look, value)?,
            3 => self.predict(n, look)?,
            4 => self.test(n)?,
            _ => self.remove(n),
        }
        Ok(())
    }

    fn advance(&mut self, look: usize, value: i32) -> Result<(), u32> {
        self.advance_with(look, value, &mut |_, _| ())
    }

    /// Moves until the token is read, or the start symbol is left, and all that needs no next token is done. Each move is told by its
    /// operation.
    fn advance_with(&mut self, look: usize, value: i32, told: &mut impl FnMut(&Self, u32)) -> Result<(), u32> {
        let before = self.tokens;
        loop {
            let op = self.program[self.at] & 7;
            if op == 6 {
                return if look == 63 || self.tokens > before { Ok(()) } else { Err(21) };
            }
            if look != 63 && self.tokens > before && (op == 2 || op == 3) {
                return Ok(());
            }
            if self.moves == MOVES {
                return Err(35);
            }
            self.one(look, value)?;
            self.moves += 1;
            told(self, op);
        }
    }

    fn feed(&mut self, tokens: Tokens) -> Result<(), u32> {
        self.feed_with(tokens, &mut |_, _| ())
    }

    fn feed_with(&mut self, tokens: Tokens, told: &mut impl FnMut(&Self, u32)) -> Result<(), u32> {
        let terminals = self.program[3];
        for (&t, &value) in tokens.0.iter().zip(tokens.1) {
            if self.tokens == TOKENS {
                return Err(35);
            }
            if t as u32 >= terminals {
                return Err(20);
            }
            self.advance_with(t as usize, value, told)?;
        }
        Ok(())
    }

    fn record(&self, status: Status) -> Record {
        let (registers, places) = (self.rh as u64, self.ph as u64);
        Record { status, kind: Kind::Outer, tokens: self.tokens, moves: self.moves, registers, places }
    }
}

/// 34: whether record and stacks are such as a run leaves.
pub(crate) fn fits(program: &[u32], r: &Record, registers: &[i64], places: &[u32]) -> bool {
    let (rh, ph) = (r.registers as usize, r.places as usize);
    if r.tokens > TOKENS || r.moves > MOVES || r.registers > registers.len() as u64 || r.places > places.len() as u64 || ph == 0 {
        return false;
    }
    if registers[rh..].iter().any(|&v| v != MARK) || places[ph..].iter().any(|&p| p != 0) {
        return false;
    }
    let mut at = 0;
    let mut take = |n: u32, valued: bool| {
        let n = n as usize;
        if rh - at < n {
            return false;
        }
        at += n;
        registers[at - n..at].iter().all(|&v| if valued { in_range(v) } else { v == MARK })
    };
    let (records, start, productions) = (program[2], program[4], program[6]);
    if places[0] == SEGMENT + 1 {
        return ph == 1 && take(start, true) && at == rh;
    }
    if places[0] != SEGMENT || !take(start, false) {
        return false;
    }
    let waits = (records + 8 * productions) as usize;
    let mut awaited = 128 + (program[0] >> 3);
    for &place in &places[1..ph] {
        let (p, k) = (place / 256, place % 256);
        if p >= productions || k >= 12 {
            return false;
        }
        let word = program[waits + (12 * p + k) as usize];
        if word == 0 || 128 + (word & 63) != awaited {
            return false;
        }
        awaited = word >> 21 & 255;
        if !take(word >> 6 & 127, true) || !take(word >> 13 & 15, false) || !take(word >> 17 & 15, true) {
            return false;
        }
    }
    at == rh
}

pub(crate) fn lend<'a>(registers: &'a mut [i64], places: &'a mut [u32]) -> (&'a mut [i64], &'a mut [u32]) {
    let (r, p) = (registers.len().min(4096), places.len().min(1024));
    (&mut registers[..r], &mut places[..p])
}

/// What each call begins with: 30, the table, and its program written.
pub(crate) fn prepare(table: &[u8], program: &mut [u32]) -> Result<(), Answer> {
    if program.len() < AREA {
        return Err(Answer::Refused(30, 0));
    }
    let (o, sets) = crate::check(table).map_err(|r| Answer::Refused(r.number, r.offset as u64))?;
    build(table, &o, &sets, program);
    Ok(())
}

/// 33, 40, and the number `wrong` for an inner record.
pub(crate) fn admit(record: &Record, wrong: u32) -> Result<(), Answer> {
    match (record.status, record.kind) {
        (Status::Closed, _) => Err(Answer::Refused(33, 0)),
        (_, Kind::Inner(..)) => Err(Answer::Refused(wrong, 0)),
        (Status::Waiting, Kind::Outer) => Err(Answer::Refused(40, 0)),
        (Status::Running, Kind::Outer) => Ok(()),
    }
}

/// Opens a run on these cells.
pub(crate) fn open_cells(registers: &mut [i64], places: &mut [u32], program: &[u32]) -> (Record, Answer) {
    let used = (registers.len(), places.len());
    open_used(registers, places, program, used)
}

/// The same on cells of which only the first so many are not clear.
pub(crate) fn open_used(registers: &mut [i64], places: &mut [u32], program: &[u32], used: (usize, usize)) -> (Record, Answer) {
    let n = program[4] as usize;
    if registers.len() < n {
        return (Record::default(), Answer::Refused(31, 0));
    }
    if places.is_empty() {
        return (Record::default(), Answer::Refused(32, 0));
    }
    registers[..used.0].fill(MARK);
    places[..used.1].fill(0);
    places[0] = SEGMENT;
    (Record { status: Status::Running, registers: n as u64, places: 1, ..Record::default() }, Answer::Opened)
}

/// 34, 38 and the moves, on these cells: those of tokens, or of the end where there are none.
pub(crate) fn call_cells(
    record: Record,
    registers: &mut [i64],
    places: &mut [u32],
    program: &[u32],
    tokens: Option<Tokens>,
) -> (Record, Answer) {
    if !fits(program, &record, registers, places) {
        return (record, Answer::Refused(34, 0));
    }
    if tokens.is_some_and(|(kinds, values)| kinds.len() != values.len()) {
        return (record, Answer::Refused(38, 0));
    }
    moved(record, registers, places, program, tokens)
}

/// The moves alone, of a record that fits and lists of equal length.
pub(crate) fn moved(
    record: Record,
    registers: &mut [i64],
    places: &mut [u32],
    program: &[u32],
    tokens: Option<Tokens>,
) -> (Record, Answer) {
    let mut m = Machine::new(record, registers, places, program);
    let outcome = match tokens {
        Some(ts) => m.feed(ts),
        None => m.advance(63, 0),
    };
    match (outcome, tokens) {
        (Err(k), _) => (m.record(Status::Closed), Answer::Refused(k, m.tokens)),
        (Ok(()), Some(_)) => (m.record(Status::Running), Answer::More(m.moves)),
        (Ok(()), None) => (m.record(Status::Closed), Answer::Value(m.register(m.program[5]), m.moves)),
    }
}

/// A whole segment on stacks opened afresh; each move is told by its operation.
pub(crate) fn evaluated(
    registers: &mut [i64],
    places: &mut [u32],
    program: &[u32],
    tokens: Tokens,
    told: &mut impl FnMut(&Machine, u32),
) -> Answer {
    let (record, opened) = open_cells(registers, places, program);
    if let Answer::Refused(..) = opened {
        return opened;
    }
    let mut m = Machine::new(record, registers, places, program);
    match m.feed_with(tokens, told).and_then(|()| m.advance_with(63, 0, told)) {
        Ok(()) => Answer::Value(m.register(program[5]), m.moves),
        Err(number) => Answer::Refused(number, m.tokens),
    }
}

pub fn open(table: &[u8], registers: &mut [i64], places: &mut [u32], program: &mut [u32]) -> (Record, Answer) {
    if let Err(answer) = prepare(table, program) {
        return (Record::default(), answer);
    }
    let (registers, places) = lend(registers, places);
    open_cells(registers, places, program)
}

fn call(
    table: &[u8],
    record: Record,
    registers: &mut [i64],
    places: &mut [u32],
    program: &mut [u32],
    tokens: Option<Tokens>,
) -> (Record, Answer) {
    if let Err(answer) = prepare(table, program).and_then(|()| admit(&record, 34)) {
        return (record, answer);
    }
    let (registers, places) = lend(registers, places);
    call_cells(record, registers, places, program, tokens)
}

pub fn feed(
    table: &[u8],
    record: Record,
    registers: &mut [i64],
    places: &mut [u32],
    program: &mut [u32],
    tokens: Tokens,
) -> (Record, Answer) {
    call(table, record, registers, places, program, Some(tokens))
}

pub fn finish(table: &[u8], record: Record, registers: &mut [i64], places: &mut [u32], program: &mut [u32]) -> (Record, Answer) {
    call(table, record, registers, places, program, None)
}
