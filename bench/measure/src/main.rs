//! Measures the proved engine beside the plain one: same machine, same run, same input.
mod engines;
mod previews;
mod rankings;
mod sheets;

use engines::{Engine, InPlace, Plain, Proved};
use plain::samples;
use std::cell::Cell;
use std::hint::black_box;
use std::time::Instant;

const ROUNDS: usize = 50;

/// The best of several rounds of each, in turn, so that both meet the same machine.
fn beside(mut plain: impl FnMut() -> f64, mut proved: impl FnMut() -> f64) -> (f64, f64) {
    let mut best = (f64::MAX, f64::MAX);
    for _ in 0..ROUNDS {
        best = (best.0.min(plain()), best.1.min(proved()));
    }
    best
}

/// A round of calls under a table, in nanoseconds a call.
fn round(table: &[u8], mut call: impl FnMut()) -> f64 {
    let calls = (200_000 / (table.len() + 100)).max(4);
    let start = Instant::now();
    for _ in 0..calls {
        call();
    }
    start.elapsed().as_nanos() as f64 / calls as f64
}

fn judging<E: Engine>(table: &[u8]) -> impl FnMut() -> f64 + '_ {
    move || {
        round(table, || {
            black_box(E::check(black_box(table)));
        })
    }
}

fn opening<E: Engine>(table: &[u8]) -> impl FnMut() -> f64 + '_ {
    let mut engine = E::new();
    move || round(table, || black_box(engine.open(black_box(table))).unwrap())
}

/// A feed without tokens, after `before` has been fed.
fn empty_feed<'a, E: Engine>(table: &'a [u8], before: &[u8]) -> impl FnMut() -> f64 + 'a + use<'a, E> {
    let mut engine = E::new();
    engine.open(table).unwrap();
    engine.feed(table, before, &values(before.len())).unwrap();
    move || {
        round(table, || {
            black_box(engine.feed(black_box(table), &[], &[])).unwrap();
        })
    }
}

/// A value for each of so many tokens.
fn values(tokens: usize) -> Vec<i32> {
    (1..=9).cycle().take(tokens).collect()
}

/// The feeds of a run, in pieces of so many tokens, on buffers made anew and opened before the clock starts: in nanoseconds. What
/// `made` holds then is the moves of the feeds and the segment's value.
fn feeds<'a, E: Engine>(table: &'a [u8], tokens: &'a [u8], piece: usize, made: &'a Cell<(u64, i64)>) -> impl FnMut() -> f64 + 'a {
    let values = values(tokens.len());
    move || {
        let (mut engine, mut moves) = (E::new(), 0);
        engine.open(table).unwrap();
        let start = Instant::now();
        for (part, values) in tokens.chunks(piece).zip(values.chunks(piece)) {
            moves = black_box(engine.feed(black_box(table), black_box(part), black_box(values))).unwrap();
        }
        let time = start.elapsed().as_nanos() as f64;
        made.set((moves, engine.finish(table).unwrap().0));
        time
    }
}

fn judge_tables() {
    let tables = [
        ("words and tags, accepted", samples::words()),
        ("words that carry their lengths, accepted", samples::lengths()),
        ("refused late by 13", samples::refused_late(1, 0, 0)),
        ("chain of 4, accepted", samples::chain(4, 2, 8)),
        ("chain of 4, refused late", samples::refused_late(4, 2, 8)),
        ("chain of 47, accepted", samples::chain(47, 33, 512)),
        ("chain of 47, refused late", samples::refused_late(47, 33, 512)),
        ("as long as allowed, refused by its last field", samples::longest_refused()),
        ("32,768 zeros, refused at once", vec![0u8; 32768]),
    ];
    println!("| table | bytes | plain Rust, ns | proved, ns | proved / plain |");
    println!("|---|---|---|---|---|");
    for (name, table) in &tables {
        assert_eq!(Proved::check(table), Plain::check(table), "{name}");
        let (a, b) = beside(judging::<Plain>(table), judging::<Proved>(table));
        println!("| {name} | {} | {a:.0} | {b:.0} | {:.2} |", table.len(), b / a);
    }
}

/// What a field costs in `check`: tables of rising length, and the most rules that a production can have, in order and against it.
fn judge_fields() {
    let mut tables = vec![
        ("brackets".to_string(), samples::brackets()),
        ("words and tags".to_string(), samples::words()),
        ("chain of 1".to_string(), samples::chain(1, 0, 4)),
        ("chain of 4".to_string(), samples::chain(4, 2, 8)),
        ("chain of 10".to_string(), samples::chain(10, 7, 100)),
        ("chain of 22".to_string(), samples::chain(22, 16, 240)),
        ("chain of 47".to_string(), samples::chain(47, 33, 512)),
        ("the largest".to_string(), samples::largest()),
    ];
    for symbols in [1, 3, 7, 12] {
        for (order, reversed) in [("in order", false), ("reversed", true)] {
            tables.push((format!("{} rules a production, {order}", 8 * (symbols + 1)), samples::many_rules(symbols, reversed)));
        }
    }
    println!("\n| table | bytes | fields | plain Rust, ns | proved, ns | plain Rust, ns a field | proved, ns a field |");
    println!("|---|---|---|---|---|---|---|");
    for (name, table) in &tables {
        assert_eq!((Proved::check(table), Plain::check(table)), ((0, 0), (0, 0)), "{name}");
        let (a, b) = beside(judging::<Plain>(table), judging::<Proved>(table));
        let fields = samples::fields(table);
        println!("| {name} | {} | {fields} | {a:.0} | {b:.0} | {:.1} | {:.1} |", table.len(), a / fields as f64, b / fields as f64);
    }
}

/// The clash test at its worst: every alternative against every earlier one.
fn judge_alternatives() {
    let tables =
        [("127 alternatives, ranges only", samples::alternatives(false)), ("127 alternatives, comparisons", samples::alternatives(true))];
    println!("\n| table | bytes | pairs | plain Rust, µs | proved, µs | proved / plain |");
    println!("|---|---|---|---|---|---|");
    for (name, table) in &tables {
        assert_eq!((Proved::check(table), Plain::check(table)), ((0, 0), (0, 0)), "{name}");
        let (a, b) = beside(judging::<Plain>(table), judging::<Proved>(table));
        println!("| {name} | {} | {} | {:.0} | {:.0} | {:.2} |", table.len(), 127 * 126 / 2, a / 1000.0, b / 1000.0, b / a);
    }
}

fn call_without_tokens() {
    let words = samples::words();
    let tables = [
        ("words and tags", words.clone(), vec![]),
        ("words and tags, 1,000 words on the stacks", words, vec![0; 1000]),
        ("words that carry their lengths, 1,000 on the stacks", samples::lengths(), vec![0; 1000]),
        ("chain of 4", samples::chain(4, 2, 8), vec![]),
        ("chain of 47", samples::chain(47, 33, 512), vec![]),
    ];
    println!("\n| call | bytes | plain Rust, ns | proved, ns | proved / plain |");
    println!("|---|---|---|---|---|");
    let row = |call: &str, bytes: usize, (a, b): (f64, f64)| println!("| {call} | {bytes} | {a:.0} | {b:.0} | {:.2} |", b / a);
    for (name, table, before) in &tables {
        if before.is_empty() {
            row(&format!("judging, {name}"), table.len(), beside(judging::<Plain>(table), judging::<Proved>(table)));
            row(&format!("opening, {name}"), table.len(), beside(opening::<Plain>(table), opening::<Proved>(table)));
        }
        let times = beside(empty_feed::<Plain>(table, before), empty_feed::<Proved>(table, before));
        row(&format!("feed without tokens, {name}"), table.len(), times);
        let times = beside(empty_feed::<Plain>(table, before), empty_feed::<InPlace>(table, before));
        row(&format!("the same in place, {name}"), table.len(), times);
    }
}

fn run_segments() {
    let mixed = [0, 1, 0, 1, 0, 2, 0, 2].repeat(110);
    let segments = [
        ("words and tags, 1,000 words", samples::words(), vec![0; 1000], usize::MAX),
        ("words and tags, tags two deep", samples::words(), mixed.clone(), usize::MAX),
        ("words that carry their lengths, 1,000 words", samples::lengths(), vec![0; 1000], usize::MAX),
        ("words that carry their lengths, tags two deep", samples::lengths(), mixed, usize::MAX),
        ("lines, the most tokens", samples::lines(), samples::lines_segment(), usize::MAX),
        ("brackets, 1,000 deep", samples::brackets(), samples::brackets_segment(1000), usize::MAX),
        ("chain of 47, many rules and conditions", samples::chain(47, 33, 512), samples::chain_segment(10), usize::MAX),
        ("words and tags, 1,000 words, one token a feed", samples::words(), vec![0; 1000], 1),
        ("words that carry their lengths, one token a feed", samples::lengths(), vec![0; 1000], 1),
        ("chain of 47, one token a feed", samples::chain(47, 33, 512), samples::chain_segment(3), 1),
    ];
    println!("\n| segment | tokens | moves | plain Rust, ns a token | proved, ns a token | plain Rust, ns a move | proved, ns a move | proved / plain |");
    println!("|---|---|---|---|---|---|---|---|");
    for (name, table, tokens, piece) in &segments {
        let made = (Cell::new((0, 0)), Cell::new((0, 0)));
        let (a, b) = beside(feeds::<Plain>(table, tokens, *piece, &made.0), feeds::<Proved>(table, tokens, *piece, &made.1));
        assert_eq!(made.0, made.1, "{name}");
        let moves = made.1.get().0;
        let (t, m) = (tokens.len() as f64, moves as f64);
        println!("| {name} | {t} | {m} | {:.1} | {:.1} | {:.1} | {:.1} | {:.2} |", a / t, b / t, a / m, b / m, b / a);
    }
}

/// An inner run of words and tags, its opening, one feed and its finish, over an outer run that has been fed.
fn footnote<'a, E: Engine>(outer: &'a [u8], before: &[u8], tokens: &'a [u8]) -> impl FnMut() -> f64 + 'a + use<'a, E> {
    let (mut engine, inner, carried) = (E::new(), samples::words(), values(tokens.len()));
    engine.open(outer).unwrap();
    engine.feed(outer, before, &values(before.len())).unwrap();
    move || {
        round(outer, || {
            let answer = black_box(engine.footnote(black_box(outer), black_box(&inner), black_box(tokens), &carried)).unwrap();
            assert_eq!(answer.0, tokens.len() as i64);
        })
    }
}

fn footnotes() {
    let (words, chain) = (samples::words(), samples::chain(47, 33, 512));
    let runs = [
        ("no words, over two words", &words, vec![0; 2], vec![]),
        ("10 words, over two words", &words, vec![0; 2], vec![0; 10]),
        ("10 words, over 900 words", &words, vec![0; 900], vec![0; 10]),
        ("10 words, over a chain of 47", &chain, vec![], vec![0; 10]),
    ];
    println!("\n| inner run | plain Rust, ns | proved, ns | proved / plain |");
    println!("|---|---|---|---|");
    for (name, outer, before, tokens) in &runs {
        let (a, b) = beside(footnote::<Plain>(outer, before, tokens), footnote::<Proved>(outer, before, tokens));
        println!("| {name} | {a:.0} | {b:.0} | {:.2} |", b / a);
    }
}

/// House order: the judgement and the writing, into a buffer of the table's length.
fn house_order() {
    let tables = [
        ("words and tags", samples::words()),
        ("512 conditions in one production, in order", samples::conditions(|i| i)),
        ("512 conditions in one production, falling", samples::conditions(|i| 511 - i)),
        ("512 conditions in one production, shuffled", samples::conditions(|i| (i * 197 + 101) % 512)),
        ("512 conditions in one production, all alike", samples::conditions(|_| 0)),
        ("104 rules a production, in order", samples::many_rules(12, false)),
        ("104 rules a production, reversed", samples::many_rules(12, true)),
        ("chain of 47", samples::chain(47, 33, 512)),
    ];
    println!("\n| house order | bytes | of them written | plain Rust, ns | proved, ns | proved / plain |");
    println!("|---|---|---|---|---|---|");
    for (name, table) in &tables {
        let (mut a, mut b) = (vec![0; table.len()], vec![0; table.len()]);
        let written = plain::house::house(table, &mut a).map_err(|r| r.number).unwrap();
        assert_eq!((segment::lent::house(table, &mut b), &a), (Ok(written), &b), "{name}");
        let plain = || {
            round(table, || {
                black_box(plain::house::house(black_box(table), &mut a).is_ok());
            })
        };
        let proved = || {
            round(table, || {
                black_box(segment::lent::house(black_box(table), &mut b).is_ok());
            })
        };
        let (x, y) = beside(plain, proved);
        println!("| {name} | {} | {written} | {x:.0} | {y:.0} | {:.2} |", table.len(), y / x);
    }
}

/// A later call on a window, in nanoseconds: values brought to a window that is full.
fn window_values(size: usize, mut bring: impl FnMut(i64)) -> impl FnMut() -> f64 {
    let values: Vec<i64> = (0..4096u64).map(|i| (i.wrapping_mul(0x9e37_79b9_7f4a_7c15) >> 40) as i64).collect();
    values[..size].iter().for_each(|&v| bring(v));
    move || {
        let start = Instant::now();
        values.iter().for_each(|&v| bring(black_box(v)));
        start.elapsed().as_nanos() as f64 / values.len() as f64
    }
}

fn windows() {
    println!("\n| window | cells | plain Rust, ns a value | proved, ns a value | proved / plain |");
    println!("|---|---|---|---|---|");
    for size in [1, 8, 64] {
        let cells = segment::window::length(size);
        let (mut a, mut b) = (vec![0; cells], vec![0; cells]);
        plain::window::open(size as u64, &mut a).unwrap();
        segment::window::open(size as u64, &mut b).unwrap();
        let plain = window_values(size, |v| assert!(black_box(plain::window::value(v, &mut a)).is_some()));
        let proved = window_values(size, |v| assert!(black_box(segment::window::bring(Ok((v, 0)), &mut b)).is_ok()));
        let (x, y) = beside(plain, proved);
        assert_eq!(a, b, "size {size}");
        println!("| of the last {size} | {cells} | {x:.0} | {y:.0} | {:.2} |", y / x);
    }
}

/// The commands that `bench/listing` gives to both programs: `COMMAND TABLE`, so many times, for the chain of 47.
fn commands(command: &str, times: usize) {
    let hex: String = samples::chain(47, 33, 512).iter().map(|b| format!("{b:02x}")).collect();
    for _ in 0..times {
        println!("{command} {hex}");
    }
}

fn main() {
    let words: Vec<String> = std::env::args().skip(1).collect();
    if let [command, times] = &words[..] {
        return commands(command, times.parse().expect("a number of times"));
    }
    judge_tables();
    judge_fields();
    judge_alternatives();
    call_without_tokens();
    run_segments();
    footnotes();
    previews::previews();
    rankings::rankings();
    sheets::writing();
    sheets::judging();
    house_order();
    windows();
}
