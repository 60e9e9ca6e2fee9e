//! Tree sheets of rising length, written and judged beside the plain engine. The judgement of the table is counted in, and is most of the
//! first lines.
use crate::beside;
use plain::{samples, sheet};
use segment::lent;
use std::hint::black_box;
use std::time::Instant;

/// The sheet of a segment.
fn written(table: &[u8], kinds: &[u8], values: &[i32]) -> Vec<u8> {
    let mut sheet = vec![0; 1 << 23];
    let (_, _, length) = sheet::sheet(table, (kinds, values), 4096, 1024, &mut sheet).expect("a tree");
    sheet.truncate(length);
    sheet
}

/// Some calls, in microseconds a call.
fn micros(sheet: &[u8], mut call: impl FnMut()) -> f64 {
    let calls = (100_000 / (sheet.len() + 500)).max(2);
    let start = Instant::now();
    for _ in 0..calls {
        call();
    }
    start.elapsed().as_nanos() as f64 / 1000.0 / calls as f64
}

type Sample = (&'static str, Vec<u8>, Vec<u8>);

fn segments() -> Vec<Sample> {
    let (words, lines) = (samples::words(), samples::lines());
    vec![
        ("words and tags, no words", words.clone(), vec![]),
        ("words and tags, 10 words", words.clone(), vec![0; 10]),
        ("words and tags, 100 words", words.clone(), vec![0; 100]),
        ("words and tags, 1,000 words", words, vec![0; 1000]),
        ("lines, 1,056 tokens", lines.clone(), vec![0; 8 * 132]),
        ("lines, 10,560 tokens", lines.clone(), vec![0; 80 * 132]),
        ("lines, the most tokens", lines, samples::lines_segment()),
        ("chain of 47, many rules and conditions", samples::chain(47, 33, 512), samples::chain_segment(10)),
    ]
}

fn head(what: &str) {
    println!("\n| {what} | bytes | plain Rust, µs | proved, µs | proved / plain | proved, ns a byte |");
    println!("|---|---|---|---|---|---|");
}

fn line(name: &str, bytes: usize, (x, y): (f64, f64)) {
    println!("| {name} | {bytes} | {x:.1} | {y:.1} | {:.2} | {:.2} |", y / x, 1000.0 * y / bytes as f64);
}

pub fn writing() {
    head("sheet written");
    for (name, table, kinds) in &segments() {
        let values = crate::values(kinds.len());
        let right = written(table, kinds, &values);
        let (mut a, mut b) = (right.clone(), vec![0; right.len()]);
        let plain = || {
            micros(&right, || {
                black_box(sheet::sheet(black_box(table), (kinds, &values), 4096, 1024, &mut a)).unwrap();
            })
        };
        let proved = || {
            micros(&right, || {
                black_box(lent::sheet(black_box(table), kinds, &values, (4096, 1024), &mut b)).unwrap();
            })
        };
        let times = beside(plain, proved);
        assert!(a == b, "{name}");
        line(name, right.len(), times);
    }
}

pub fn judging() {
    head("sheet judged");
    for (name, table, kinds) in &segments() {
        let values = crate::values(kinds.len());
        let bytes = written(table, kinds, &values);
        assert_eq!(lent::judge(table, kinds, &values, &bytes).ok(), sheet::judge(table, kinds, &values, &bytes).ok(), "{name}");
        let plain = || {
            micros(&bytes, || {
                black_box(sheet::judge(table, kinds, &values, black_box(&bytes))).unwrap();
            })
        };
        let proved = || {
            micros(&bytes, || {
                black_box(lent::judge(table, kinds, &values, black_box(&bytes))).unwrap();
            })
        };
        line(name, bytes.len(), beside(plain, proved));
    }
}
