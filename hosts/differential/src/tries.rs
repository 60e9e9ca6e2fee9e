//! Previews and the set of tokens that may come next, on runs as they stand and on forged ones, with scratch of about the length that is
//! needed. Answer, record, every cell of the scratch and the program area are compared; then with a feed on a copy, and the set with
//! previews of all tokens. The run's own cells must stay.
use crate::pair::{same, Cells, Lengths, Pair};
use crate::random::Random;
use crate::records::{brought, handed};
use crate::{hex, Comparison};
use plain::preview as tried;
use plain::run::Answer;
use segment::lent::{self, Record, Stopped};

/// Number and what comes with it of a refusal, as an error.
type Answered<T> = Result<T, (u32, u64)>;

/// A run, and the scratch of both engines.
struct Try<'a> {
    table: &'a [u8],
    pair: &'a Pair,
    lengths: Lengths,
    cells: Cells,
    others: Cells,
}

/// A number of cells for a stack of which so many count.
fn about(r: &mut Random, counted: usize) -> usize {
    match r.below(20) {
        0 => counted.saturating_sub(1 + r.below(3)),
        1 => r.below(counted + 1),
        _ => counted + r.below(3),
    }
}

impl<'a> Try<'a> {
    fn new(r: &mut Random, table: &'a [u8], pair: &'a Pair) -> Try<'a> {
        let l = pair.lengths;
        let lengths = Lengths { registers: about(r, l.registers.min(4096)), places: about(r, l.places.min(1024)), program: l.program };
        let cells = Cells::new(r, lengths);
        Try { table, pair, lengths, others: cells.clone(), cells }
    }

    fn proved<A>(&mut self, call: impl FnOnce(&[u8], Stopped, &mut lent::Memory) -> A) -> A {
        let (registers, places) = self.pair.lent();
        let run = Stopped { record: &self.pair.records.outer, registers, places };
        call(self.table, run, &mut self.cells.lent(self.lengths))
    }

    fn plain<A>(&mut self, call: impl FnOnce(&[u8], tried::Stopped, tried::Scratch, &mut [u32]) -> A) -> A {
        let (registers, places) = self.pair.lent();
        let run = tried::Stopped { record: brought(&self.pair.records.outer), registers, places };
        let m = self.others.lent(self.lengths);
        call(self.table, run, tried::Scratch { registers: m.registers, places: m.places }, m.program)
    }

    fn preview(&mut self, kind: u8, value: i32) -> Result<(Record, Answered<u64>), String> {
        let (record, answer) = self.proved(|table, run, scratch| lent::preview(table, run, scratch, kind, value));
        let proved = (record, answer.map_err(|r| (r.number(), r.count())));
        let (record, answer) = self.plain(|table, run, scratch, program| tried::preview(table, run, scratch, program, kind, value));
        same("preview", proved, (handed(record), answered(answer)))?;
        self.cells.same(&self.others)?;
        Ok(proved)
    }

    fn may(&mut self, value: i32) -> Result<Answered<u64>, String> {
        let set = self.proved(|table, run, scratch| lent::may_follow(table, run, scratch, value));
        let proved = set.map_err(|r| (r.number(), r.count()));
        let set = self.plain(|table, run, scratch, program| tried::may(table, run, scratch, program, value));
        same("set", proved, set.or_else(answered))?;
        self.cells.same(&self.others)?;
        Ok(proved)
    }

    /// What a feed on a copy gives, which lends no scratch and so has no 39.
    fn fed(&self, kind: u8, value: i32) -> (Record, Answered<u64>) {
        let mut copy = self.pair.clone();
        let answer = copy.feed(self.table, kind, value);
        (copy.records.outer, answer.map_err(|r| (r.number(), r.count())))
    }

    /// Whether the set holds each token that a preview lets through, and no other.
    fn each(&mut self, set: u64, value: i32) -> Result<(), String> {
        for kind in 0..64 {
            let passes = self.preview(kind, value)?.1.is_ok();
            same(&format!("token {kind} in the set, and let through"), set >> kind & 1 == 1, passes)?;
        }
        Ok(())
    }
}

/// The moves of an answer, or its refusal.
fn answered(answer: Answer) -> Answered<u64> {
    match answer {
        Answer::Opened => Ok(0),
        Answer::More(moves) | Answer::Value(_, moves) => Ok(moves),
        Answer::Refused(number, count) => Err((number, count)),
    }
}

fn compared(t: &mut Try, r: &mut Random) -> Result<(u32, u32), String> {
    let (kind, value) = (if r.chance(5) { r.below(256) } else { r.below(5) } as u8, r.value());
    let proved = t.preview(kind, value)?;
    if !matches!(proved.1, Err((39, _))) {
        same("preview, and a feed on a copy", proved, t.fed(kind, value))?;
    }
    let set = t.may(value)?;
    if let (Ok(set), true) = (set, r.chance(20)) {
        t.each(set, value)?;
    }
    Ok((proved.1.err().map_or(0, |e| e.0), set.err().map_or(0, |e| e.0)))
}

/// Tries a token, and all of them, on the run as it stands or forged; it then goes on as it was. So often, of a hundred times.
pub fn sometimes(c: &mut Comparison, pair: &Pair, table: &[u8], often: usize) -> Result<(), String> {
    if !c.r.chance(often) {
        return Ok(());
    }
    let mut own = pair.clone();
    match c.r.below(10) {
        0..=2 => own.forge(&mut c.r),
        3 => own.lend(&mut c.r),
        _ => {}
    }
    let before = own.clone();
    let mut t = Try::new(&mut c.r, table, &own);
    let brought = (own.records.outer, own.lengths, t.lengths);
    let compared = compared(&mut t, &mut c.r).and_then(|numbers| own.unchanged(&before).map(|()| numbers));
    let (preview, may) = compared.map_err(|e| format!("{e}\na try on {brought:?}\ntable {}", hex(table)))?;
    c.count("preview", preview);
    c.count("may follow", may);
    Ok(())
}
