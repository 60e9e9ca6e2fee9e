//! Measures engines beside each other: shared objects with the functions of hosts/c/segment.h, opened by one process and called in turn on
//! the same memory.
mod compare;
mod engine;
mod interface;
mod tables;
mod workloads;

use engine::{Engine, Memory};
use std::hint::black_box;
use std::time::Instant;
use workloads::{Work, Workload};

const USAGE: &str = "usage: bench/side/run [--placements] [--rounds N] [--only TEXT] [[--tokens-alone] NAME=PATH ...]";

/// The rounds of a workload are made in so many passes over all workloads, so that a slow time of the machine does not meet one alone.
const PASSES: usize = 5;

struct Options {
    rounds: usize,
    only: String,
    engines: Vec<Engine>,
}

/// The options; the engine behind `--else` is taken where no other is named beside ours.
fn options() -> Result<Options, String> {
    let (mut rounds, mut only, mut ours, mut otherwise, mut others) = (300, String::new(), None, None, vec![]);
    let load = |text: String, tokens_alone| Engine::load(&text, tokens_alone).map_err(|e| format!("{text}: {e}"));
    let mut words = std::env::args().skip(1);
    while let Some(word) = words.next() {
        let mut next = || words.next().ok_or(USAGE);
        match &word[..] {
            "--rounds" => rounds = next()?.parse().ok().filter(|&n| n > 0).ok_or(USAGE)?,
            "--only" => only = next()?,
            "--ours" => ours = Some(load(next()?, false)?),
            "--else" => otherwise = Some(next()?),
            "--tokens-alone" => others.push(load(next()?, true)?),
            _ if word.starts_with('-') => return Err(USAGE.to_string()),
            _ => others.push(load(word, false)?),
        }
    }
    if others.is_empty() {
        others.push(load(otherwise.ok_or(USAGE)?, false)?);
    }
    others.insert(0, ours.ok_or(USAGE)?);
    Ok(Options { rounds, only, engines: others })
}

/// The clock, and what looking at it costs, in nanoseconds.
struct Clock {
    cost: f64,
}

impl Clock {
    fn new() -> Clock {
        let look = |_| {
            let start = Instant::now();
            start.elapsed().as_nanos() as f64
        };
        Clock { cost: (0..10_000).map(look).fold(f64::MAX, f64::min) }
    }

    /// The nanoseconds of a call, over so many.
    fn time<T>(&self, calls: usize, mut call: impl FnMut() -> T) -> f64 {
        let start = Instant::now();
        for _ in 0..calls {
            black_box(call());
        }
        (start.elapsed().as_nanos() as f64 - self.cost) / calls as f64
    }
}

/// One round of a workload: the time, and the time to be taken off.
fn round(clock: &Clock, e: &Engine, w: &Workload, m: &mut Memory, calls: usize) -> (f64, f64) {
    let t = black_box(&w.table[..]);
    match w.work {
        Work::Judge => (clock.time(calls, || e.check(t)), 0.0),
        Work::Open => (clock.time(calls, || e.open(t, m)), 0.0),
        Work::Build => {
            let time = clock.time(calls, || e.open(t, m));
            (time, clock.time(calls, || e.check(t)))
        }
        _ => {
            e.open(t, m);
            run_round(clock, e, w, m, calls)
        }
    }
}

/// The same on a run that has just been opened.
fn run_round(clock: &Clock, e: &Engine, w: &Workload, m: &mut Memory, calls: usize) -> (f64, f64) {
    let t = black_box(&w.table[..]);
    match w.work {
        Work::Feed => {
            let empty = clock.time(calls, || e.feed(t, m, &[], &[]));
            (clock.time(1, || e.feed(t, m, &w.tokens, &w.values)), empty)
        }
        Work::Short => (clock.time(1, || e.feed(t, m, &w.tokens, &w.values)), 0.0),
        Work::Single => {
            let feeds = || {
                for (tokens, values) in w.tokens.chunks(1).zip(w.values.chunks(1)) {
                    black_box(e.feed(t, m, tokens, values));
                }
            };
            (clock.time(1, feeds), 0.0)
        }
        Work::Finish => {
            e.feed(t, m, &w.tokens, &w.values);
            (clock.time(1, || e.finish(t, m)), 0.0)
        }
        _ => {
            e.feed(t, m, &w.tokens, &w.values);
            (clock.time(calls, || e.feed(t, m, &[], &[])), 0.0)
        }
    }
}

/// The rounds of an engine under a workload: times, and what is to be taken off.
#[derive(Clone, Default)]
struct Rounds(Vec<(f64, f64)>);

impl Rounds {
    /// The least time less the least of what is to be taken off.
    fn least(&self) -> f64 {
        let least = |part: fn(&(f64, f64)) -> f64| self.0.iter().map(part).fold(f64::MAX, f64::min);
        least(|x| x.0) - least(|x| x.1)
    }

    /// The median of the ratios within a round.
    fn median_ratio(&self, other: &Rounds) -> f64 {
        let mut ratios: Vec<f64> = self.0.iter().zip(&other.0).map(|(a, b)| (a.0 - a.1) / (b.0 - b.1)).collect();
        ratios.sort_by(f64::total_cmp);
        ratios[ratios.len() / 2]
    }
}

/// So many more rounds of a workload on those engines that have a place for them. Each round begins with another engine.
fn measure(clock: &Clock, engines: &[Engine], w: &Workload, rounds: usize, made: &mut [Option<Rounds>]) {
    let mut m = Memory::new(w.lent);
    // Once for all, since the first call meets cold caches.
    for (e, _) in engines.iter().zip(&*made).filter(|(_, r)| r.is_some()) {
        round(clock, e, w, &mut m, 1);
    }
    let (first, less) = round(clock, &engines[0], w, &mut m, 1);
    // Some 100 microseconds a round, so that most rounds fall between the time slices of other work.
    let unit = if w.work == Work::Feed { less } else { first };
    let calls = (100_000.0 / unit.max(1.0)).clamp(1.0, 50.0) as usize;
    for i in 0..rounds {
        for k in 0..engines.len() {
            let which = (i + k) % engines.len();
            if let Some(r) = &mut made[which] {
                r.0.push(round(clock, &engines[which], w, &mut m, calls));
            }
        }
    }
}

/// A row: nanoseconds a unit of each engine, and for each but the first how many times as long the first takes.
fn row(name: &str, unit: &str, per: u64, made: &[Option<Rounds>]) {
    let shown = |r: &Rounds| {
        let ns = r.least() / per as f64;
        if ns < 100.0 {
            format!("{ns:.2}")
        } else {
            format!("{ns:.0}")
        }
    };
    let ours = made[0].as_ref().unwrap();
    print!("| {name} | {unit} | {}", shown(ours));
    for theirs in &made[1..] {
        match theirs {
            None => print!(" | - | -"),
            Some(r) => print!(" | {} | {:.2} ({:.2})", shown(r), ours.least() / r.least(), ours.median_ratio(r)),
        }
    }
    println!(" |");
}

/// The moves of a workload's feeds, the engines that it is measured on (those that know its table and answer as the first does), and how
/// many answer in another way.
struct Compared {
    moves: u64,
    taken: Vec<bool>,
    different: usize,
}

fn compared(engines: &[Engine], w: &Workload, programs_alike: &mut [bool], calls: &mut usize) -> Compared {
    let ours = compare::calls(&engines[0], w);
    let number = ours.last().unwrap().answer.0;
    assert_eq!(number, w.number, "{}: the number of the last answer", w.name);
    let mut c = Compared { moves: compare::moves(&ours), taken: vec![true], different: 0 };
    *calls += ours.len();
    for (i, e) in engines.iter().enumerate().skip(1) {
        let known = e.takes_values() || !tables::extended(&w.table);
        let mut found = None;
        if known {
            let (difference, alike) = compare::difference(&ours, &compare::calls(e, w));
            programs_alike[i] &= alike;
            found = difference;
        }
        if let Some(what) = &found {
            eprintln!("DIFFERENT: {}, {}: {what}", e.name, w.name);
            c.different += 1;
        }
        c.taken.push(known && found.is_none());
    }
    c
}

fn rows(w: &Workload, moves: u64, made: &[Option<Rounds>]) {
    match w.work {
        Work::Feed => {
            row(&w.name, "token", w.tokens.len() as u64, made);
            row("", "move", moves, made);
        }
        Work::Single => row(&w.name, "call", w.tokens.len() as u64, made),
        _ => row(&w.name, "call", 1, made),
    }
}

fn main() {
    let o = options().unwrap_or_else(|e| {
        eprintln!("{e}");
        std::process::exit(2)
    });
    let all: Vec<Workload> = workloads::all().into_iter().filter(|w| w.name.contains(&o.only)).collect();
    if all.is_empty() {
        eprintln!("no workload has '{}' in its name", o.only);
        std::process::exit(2);
    }
    for e in &o.engines {
        println!("{}: {}{}", e.name, e.path, if e.takes_values() { "" } else { " (its feed takes tokens alone)" });
    }
    let (mut programs_alike, mut calls) = (vec![true; o.engines.len()], 0);
    let compared: Vec<Compared> = all.iter().map(|w| compared(&o.engines, w, &mut programs_alike, &mut calls)).collect();
    let different: usize = compared.iter().map(|c| c.different).sum();
    println!(
        "{} workloads, {calls} calls compared in answer, record, registers and places: {different} workloads with another answer",
        all.len()
    );
    for (e, alike) in o.engines.iter().zip(&programs_alike).skip(1) {
        println!("program words of {}: {}", e.name, if *alike { "alike" } else { "its own" });
    }
    let (clock, first) = (Clock::new(), &o.engines[0].name);
    println!("{PASSES} passes of {} rounds; looking at the clock takes {} ns, taken off\n", o.rounds.div_ceil(PASSES), clock.cost);
    print!("| workload | unit | {first}, ns");
    o.engines[1..].iter().for_each(|e| print!(" | {0}, ns | {first} / {0}", e.name));
    println!(" |\n|---|---|---{}|", "|---|---".repeat(o.engines.len() - 1));
    let room = |c: &Compared| c.taken.iter().map(|&t| t.then(Rounds::default)).collect();
    let mut made: Vec<Vec<Option<Rounds>>> = compared.iter().map(room).collect();
    for _ in 0..PASSES {
        for (w, made) in all.iter().zip(&mut made) {
            measure(&clock, &o.engines, w, o.rounds.div_ceil(PASSES), made);
        }
    }
    for ((w, c), made) in all.iter().zip(&compared).zip(&made) {
        rows(w, c.moves, made);
    }
    std::process::exit((different > 0) as i32);
}

#[cfg(test)]
mod tests {
    use super::*;

    /// Each workload's table has the verdict that its name says, and the worst cases are within the bounds of a table.
    #[test]
    fn tables_are_what_they_say() {
        for w in workloads::all() {
            let number = plain::check(&w.table).map_or_else(|r| r.number, |_| 0);
            assert_eq!(number, if w.work == Work::Judge { w.number } else { 0 }, "{}", w.name);
        }
    }

    #[test]
    fn extended_tables_are_known() {
        assert!(tables::extended(&plain::samples::lengths()));
        assert!(tables::extended(&plain::samples::alternatives(true)));
        assert!(!tables::extended(&plain::samples::alternatives(false)));
        assert!(!tables::extended(&plain::samples::words()));
    }
}
