//! What may be typed now: one preview, and the set of tokens beside as many previews as there are tokens.
use crate::engines::Buffers;
use crate::{beside, round, ROUNDS};
use plain::preview::{self as plain_preview, Scratch};
use plain::run::{self, Record};
use plain::samples;
use segment::lent::{self, Memory, Stopped};
use std::hint::black_box;
use std::time::Instant;

/// A run that is stopped, in both engines, and scratch.
struct Typing {
    table: Vec<u8>,
    record: (Record, lent::Record),
    own: Buffers,
    scratch: (Buffers, Buffers),
}

impl Typing {
    fn new(table: Vec<u8>, tokens: &[u8], room: &Buffers) -> Typing {
        let (mut own, mut other, mut record) = (room.clone(), room.clone(), lent::Record::default());
        let values = vec![0; tokens.len()];
        lent::open(&table, &mut record, &mut own.lent()).unwrap();
        lent::feed(&table, &mut record, &mut own.lent(), tokens, &values).unwrap();
        let m = other.lent();
        let (opened, _) = run::open(&table, m.registers, m.places, m.program);
        let (fed, _) = run::feed(&table, opened, m.registers, m.places, m.program, (tokens, &values));
        Typing { table, record: (fed, record), own, scratch: (room.clone(), room.clone()) }
    }

    /// A call of the proved engine, and of the plain one.
    fn proved<A>(&mut self, call: impl FnOnce(&[u8], Stopped, &mut Memory) -> A) -> A {
        let Memory { registers, places, .. } = self.own.lent();
        call(&self.table, Stopped { record: &self.record.1, registers, places }, &mut self.scratch.1.lent())
    }

    fn plain<A>(&mut self, call: impl FnOnce(&[u8], plain_preview::Stopped, Scratch, &mut [u32]) -> A) -> A {
        let Memory { registers, places, .. } = self.own.lent();
        let m = self.scratch.0.lent();
        let scratch = Scratch { registers: m.registers, places: m.places };
        call(&self.table, plain_preview::Stopped { record: self.record.0, registers, places }, scratch, m.program)
    }

    fn proved_set(&mut self) -> u64 {
        self.proved(|table, run, scratch| lent::may_follow(table, run, scratch, 0)).unwrap()
    }

    fn plain_set(&mut self) -> u64 {
        self.plain(|table, run, scratch, program| plain_preview::may(table, run, scratch, program, 0)).unwrap_or(0)
    }

    fn proved_preview(&mut self, kind: u8) -> bool {
        self.proved(|table, run, scratch| lent::preview(table, run, scratch, kind, 0)).1.is_ok()
    }

    fn plain_preview(&mut self, kind: u8) -> bool {
        let (_, answer) = self.plain(|table, run, scratch, program| plain_preview::preview(table, run, scratch, program, kind, 0));
        !matches!(answer, run::Answer::Refused(..))
    }
}

pub fn previews() {
    let all = Buffers::new;
    let runs = [
        ("words and tags, two words", samples::words(), vec![0; 2], all()),
        ("words and tags, 900 words", samples::words(), vec![0; 900], all()),
        ("63 kinds of tokens, none read", samples::many_kinds(), vec![], all()),
        ("63 kinds of tokens, 20 read", samples::many_kinds(), vec![0; 20], all()),
        ("63 kinds of tokens, 20 read, 128 and 32 cells", samples::many_kinds(), vec![0; 20], Buffers::small(128, 32)),
        ("63 kinds of tokens, 900 read", samples::many_kinds(), vec![0; 900], all()),
        ("brackets, 20 open, two of 63 kinds expected", samples::rare_brackets(), vec![0; 20], all()),
        ("brackets, 900 open, two of 63 kinds expected", samples::rare_brackets(), vec![0; 900], all()),
        ("brackets, 900 to be closed, one of 63 kinds expected", samples::rare_brackets(), [vec![0; 900], vec![2]].concat(), all()),
    ];
    println!("\n| run | tokens in the set | a preview: plain Rust, µs | proved, µs | proved / plain | the set: plain Rust, µs | proved, µs | proved / plain | 63 previews, proved, µs |");
    println!("|---|---|---|---|---|---|---|---|---|");
    for (name, table, tokens, room) in runs {
        let (mut a, mut b) = (Typing::new(table.clone(), &tokens, &room), Typing::new(table.clone(), &tokens, &room));
        let set = b.proved_set();
        assert_eq!(set, a.plain_set(), "{name}");
        assert!((0..64).all(|kind| b.proved_preview(kind) == (set >> kind & 1 == 1)), "{name}");
        let kind = set.trailing_zeros() as u8;
        let (p, q) = beside(
            || round(&table, || assert!(black_box(a.plain_preview(black_box(kind))))) / 1000.0,
            || round(&table, || assert!(black_box(b.proved_preview(black_box(kind))))) / 1000.0,
        );
        let (x, y) = beside(
            || round(&table, || assert_eq!(black_box(a.plain_set()), set)) / 1000.0,
            || round(&table, || assert_eq!(black_box(b.proved_set()), set)) / 1000.0,
        );
        let singly = (0..10 * ROUNDS).map(|_| {
            let start = Instant::now();
            (0..63).for_each(|kind| assert_eq!(b.proved_preview(black_box(kind)), set >> kind & 1 == 1));
            start.elapsed().as_nanos() as f64 / 1000.0
        });
        let singly = singly.fold(f64::MAX, f64::min);
        println!("| {name} | {} | {p:.1} | {q:.1} | {:.2} | {x:.1} | {y:.1} | {:.2} | {singly:.0} |", set.count_ones(), q / p, y / x);
    }
}
