//! 512 candidates of 20 words that carry their lengths, ranked by one call: beside the plain ranking, and beside a host that evaluates them
//! one by one, three calls each, and sorts.
use crate::engines::{Buffers, Engine, Proved};
use crate::{beside, ROUNDS};
use plain::{rank, samples};
use segment::lent::{self, Candidates, CANDIDATES, ENTRY};
use std::hint::black_box;
use std::time::Instant;

const WORDS: usize = 20;

/// Lengths of the words of a candidate whose text has so many letters, 20 to 800.
fn words(letters: usize) -> impl Iterator<Item = i32> {
    (0..WORDS).map(move |i| ((letters + i) / WORDS) as i32)
}

/// One call, in microseconds.
fn micros(call: impl FnOnce()) -> f64 {
    let start = Instant::now();
    call();
    start.elapsed().as_nanos() as f64 / 1000.0
}

/// Each candidate by an opening, a feed and a finish; then those with a value, sorted.
fn one_by_one(table: &[u8], kinds: &[u8], values: &[i32]) -> f64 {
    let mut engine = Proved::new();
    micros(|| {
        let mut found = Vec::with_capacity(CANDIDATES);
        for (i, part) in values.chunks(WORDS).enumerate() {
            engine.open(table).unwrap();
            let fed = engine.feed(table, &kinds[..WORDS], part);
            found.push((i, fed.and_then(|_| engine.finish(table))));
        }
        found.sort_by_key(|(_, answer)| (answer.is_err(), std::cmp::Reverse(answer.map_or(0, |(value, _)| value))));
        black_box(found);
    })
}

pub fn rankings() {
    let table = samples::lengths();
    let lengths = vec![WORDS as u32; CANDIDATES];
    // The letters of each candidate, and the kind of its last token.
    let orders: [(&str, fn(usize) -> usize, u8); 5] = [
        ("values falling", |i| 531 - i, 0),
        ("values rising", |i| 20 + i, 0),
        ("values shuffled", |i| 20 + (i * 197 + 101) % 512, 0),
        ("values all alike", |_| 100, 0),
        ("all refused at their last token", |_| 100, 2),
    ];
    println!("\n| 512 candidates of 20 words, cells lent | plain Rust, µs | proved, µs | proved / plain | one by one, proved, µs |");
    println!("|---|---|---|---|---|");
    for (name, letters, last) in orders {
        let kinds = [&[0; WORDS - 1][..], &[last]].concat().repeat(CANDIDATES);
        let values: Vec<i32> = (0..CANDIDATES).flat_map(|i| words(letters(i))).collect();
        for (size, room) in [("4,096 and 1,024", Buffers::new()), ("128 and 32", Buffers::small(128, 32))] {
            let (mut a, mut b, mut one, mut other) = (room.clone(), room, vec![0; ENTRY * CANDIDATES], vec![0; ENTRY * CANDIDATES]);
            let mut reports = (None, None);
            let plain = || {
                let m = a.lent();
                micros(|| reports.0 = rank::rank(&table, m.registers, m.places, m.program, &mut one, (&kinds, &values), &lengths).ok())
            };
            let proved = || {
                let candidates = Candidates { kinds: &kinds, values: &values, lengths: &lengths };
                micros(|| reports.1 = lent::rank(&table, candidates, &mut b.lent(), &mut other).ok())
            };
            let (x, y) = beside(plain, proved);
            assert_eq!(reports.0.map(|r| (r.valued, r.total)), reports.1.map(|r| (r.valued, r.total)), "{name}");
            assert_eq!(one, other, "{name}");
            let singly = (0..ROUNDS).map(|_| one_by_one(&table, &kinds, &values)).fold(f64::MAX, f64::min);
            println!("| {name}, {size} | {x:.0} | {y:.0} | {:.2} | {singly:.0} |", y / x);
        }
    }
}
