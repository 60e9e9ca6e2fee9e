//! `lent::feed_in_place` beside `lent::feed`: the same answer, record, registers, places and program words, on refusals too.
use segment::lent::{self, Memory, Record, CLOSED, INNER, PROGRAM, WAITING};

const LENGTHS: &[u8] = include_bytes!("../../../grammars/lengths.table");

#[derive(Clone, Debug, PartialEq, Eq)]
struct Lent {
    record: Record,
    registers: Vec<i64>,
    places: Vec<u32>,
    program: Vec<u32>,
}

impl Lent {
    fn memory(&mut self) -> (&mut Record, Memory<'_>) {
        (&mut self.record, Memory { registers: &mut self.registers, places: &mut self.places, program: &mut self.program })
    }

    /// Both feeds on what stands; what the feed leaves stands afterwards. The refusal's number, or 0.
    fn feed(&mut self, table: &[u8], kinds: &[u8], values: &[i32]) -> u32 {
        let mut other = self.clone();
        let (record, mut memory) = other.memory();
        let in_place = lent::feed_in_place(table, record, &mut memory, kinds, values);
        let (record, mut memory) = self.memory();
        let answer = lent::feed(table, record, &mut memory, kinds, values);
        assert_eq!((&answer, &*self), (&in_place, &other));
        answer.err().map_or(0, |refusal| refusal.number())
    }

    fn with(&self, change: impl Fn(&mut Lent)) -> Lent {
        let mut lent = self.clone();
        change(&mut lent);
        lent
    }
}

#[test]
fn as_a_feed() {
    let mut lent = Lent { record: Record::default(), registers: vec![7; 20], places: vec![9; 8], program: vec![5; PROGRAM + 2] };
    let (record, mut memory) = lent.memory();
    lent::open(LENGTHS, record, &mut memory).unwrap();
    assert_eq!((lent.feed(LENGTHS, &[], &[]), lent.feed(LENGTHS, &[0, 1], &[4, 99])), (0, 0));
    assert_eq!(lent.record.tokens, 2);
    let refused = |change: &dyn Fn(&mut Lent)| lent.with(change).feed(LENGTHS, &[0], &[1]);
    assert_eq!(refused(&|l| l.program.truncate(PROGRAM - 1)), 30);
    assert_eq!(refused(&|l| l.record.status = CLOSED), 33);
    assert_eq!(refused(&|l| l.record.status = WAITING), 40);
    assert_eq!(refused(&|l| l.record.status = 5), 0);
    assert_eq!(refused(&|l| l.record.kind = INNER), 34);
    assert_eq!(refused(&|l| l.record.registers += 1), 34);
    assert_eq!(refused(&|l| l.record.register_base = 3), 0);
    assert_eq!(refused(&|l| l.record.tokens = 65_535), 35);
    assert_eq!(refused(&|l| l.places.truncate(4)), 32);
    assert_eq!((lent.clone().feed(&LENGTHS[1..], &[0], &[1]), lent.feed(LENGTHS, &[0], &[])), (2, 38));
    assert_eq!((lent.feed(LENGTHS, &[2, 2], &[0, 0]), lent.record.status, lent.record.tokens), (21, CLOSED, 3));
}
