//! The two engines under one face: the same calls over buffers of the same sizes.
use segment::lent::{self, Memory, MARK, PLACES, PROGRAM, REGISTERS};

/// The lent memory, as it is before an opening.
#[derive(Clone)]
pub struct Buffers {
    registers: Vec<i64>,
    places: Vec<u32>,
    program: Vec<u32>,
}

impl Buffers {
    pub fn new() -> Buffers {
        Buffers::small(REGISTERS, PLACES)
    }

    /// So many registers and places.
    pub fn small(registers: usize, places: usize) -> Buffers {
        Buffers { registers: vec![MARK; registers], places: vec![0; places], program: vec![0; PROGRAM] }
    }

    pub fn lent(&mut self) -> Memory<'_> {
        Memory { registers: &mut self.registers, places: &mut self.places, program: &mut self.program }
    }
}

/// Number and count of a refusal, as an error.
pub type Answer<T> = Result<T, (u32, u64)>;

/// One run at a time.
pub trait Engine: 'static {
    fn new() -> Self;
    /// Number and offset of a table's refusal, 0 and 0 where it is accepted.
    fn check(table: &[u8]) -> (u32, u32);
    fn open(&mut self, table: &[u8]) -> Answer<()>;
    fn feed(&mut self, table: &[u8], kinds: &[u8], values: &[i32]) -> Answer<u64>;
    fn finish(&mut self, table: &[u8]) -> Answer<(i64, u64)>;
    /// An inner run over the run as it stands, from its opening to its finish.
    fn footnote(&mut self, outer: &[u8], table: &[u8], kinds: &[u8], values: &[i32]) -> Answer<(i64, u64)>;
}

pub struct Proved {
    record: lent::Record,
    buffers: Buffers,
}

impl Engine for Proved {
    fn new() -> Proved {
        Proved { record: lent::Record::default(), buffers: Buffers::new() }
    }

    fn check(table: &[u8]) -> (u32, u32) {
        lent::check(table).map_or_else(|r| (r.number(), r.count() as u32), |()| (0, 0))
    }

    fn open(&mut self, table: &[u8]) -> Answer<()> {
        lent::open(table, &mut self.record, &mut self.buffers.lent()).map(drop).map_err(|r| (r.number(), r.count()))
    }

    fn feed(&mut self, table: &[u8], kinds: &[u8], values: &[i32]) -> Answer<u64> {
        lent::feed(table, &mut self.record, &mut self.buffers.lent(), kinds, values).map_err(|r| (r.number(), r.count()))
    }

    fn finish(&mut self, table: &[u8]) -> Answer<(i64, u64)> {
        lent::finish(table, &mut self.record, &mut self.buffers.lent()).map_err(|r| (r.number(), r.count()))
    }

    fn footnote(&mut self, outer: &[u8], table: &[u8], kinds: &[u8], values: &[i32]) -> Answer<(i64, u64)> {
        let (record, m) = (&mut self.record, &mut self.buffers.lent());
        let mut inner = lent::Record::default();
        let opened = lent::open_inner(outer, table, (record, &mut inner), m);
        let fed = opened.and_then(|_| lent::feed_inner(table, (record, &mut inner), m, kinds, values));
        fed.and_then(|_| lent::finish_inner(table, (record, &mut inner), m)).map_err(|r| (r.number(), r.count()))
    }
}

/// The proved engine, which feeds by the call that changes the record in place.
pub struct InPlace(Proved);

impl Engine for InPlace {
    fn new() -> InPlace {
        InPlace(Proved::new())
    }

    fn check(table: &[u8]) -> (u32, u32) {
        Proved::check(table)
    }

    fn open(&mut self, table: &[u8]) -> Answer<()> {
        self.0.open(table)
    }

    fn feed(&mut self, table: &[u8], kinds: &[u8], values: &[i32]) -> Answer<u64> {
        let (record, mut memory) = (&mut self.0.record, self.0.buffers.lent());
        lent::feed_in_place(table, record, &mut memory, kinds, values).map_err(|r| (r.number(), r.count()))
    }

    fn finish(&mut self, table: &[u8]) -> Answer<(i64, u64)> {
        self.0.finish(table)
    }

    fn footnote(&mut self, outer: &[u8], table: &[u8], kinds: &[u8], values: &[i32]) -> Answer<(i64, u64)> {
        self.0.footnote(outer, table, kinds, values)
    }
}

pub struct Plain {
    record: plain::run::Record,
    buffers: Buffers,
}

impl Plain {
    /// Keeps the record and takes the answer apart: the value, or 0, and the moves.
    fn keep(&mut self, (record, answer): (plain::run::Record, plain::run::Answer)) -> Answer<(i64, u64)> {
        self.record = record;
        match answer {
            plain::run::Answer::Opened => Ok((0, 0)),
            plain::run::Answer::More(moves) => Ok((0, moves)),
            plain::run::Answer::Value(value, moves) => Ok((value, moves)),
            plain::run::Answer::Refused(number, count) => Err((number, count)),
        }
    }
}

impl Engine for Plain {
    fn new() -> Plain {
        Plain { record: plain::run::Record::default(), buffers: Buffers::new() }
    }

    fn check(table: &[u8]) -> (u32, u32) {
        plain::check(table).map_or_else(|r| (r.number, r.offset), |_| (0, 0))
    }

    fn open(&mut self, table: &[u8]) -> Answer<()> {
        let m = self.buffers.lent();
        let called = plain::run::open(table, m.registers, m.places, m.program);
        self.keep(called).map(drop)
    }

    fn feed(&mut self, table: &[u8], kinds: &[u8], values: &[i32]) -> Answer<u64> {
        let m = self.buffers.lent();
        let called = plain::run::feed(table, self.record, m.registers, m.places, m.program, (kinds, values));
        self.keep(called).map(|(_, moves)| moves)
    }

    fn finish(&mut self, table: &[u8]) -> Answer<(i64, u64)> {
        let m = self.buffers.lent();
        let called = plain::run::finish(table, self.record, m.registers, m.places, m.program);
        self.keep(called)
    }

    fn footnote(&mut self, outer: &[u8], table: &[u8], kinds: &[u8], values: &[i32]) -> Answer<(i64, u64)> {
        let m = self.buffers.lent();
        let (mut record, mut inner, _) = plain::inner::open((outer, table), self.record, m.registers, m.places, m.program);
        let calls = [plain::inner::Call::Feed((kinds, values)), plain::inner::Call::Finish];
        let mut answer = plain::run::Answer::Opened;
        for call in calls {
            (record, inner, answer) = plain::inner::call(table, (record, inner), m.registers, m.places, m.program, call);
        }
        self.keep((record, answer))
    }
}
