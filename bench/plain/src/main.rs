//! Answers the commands of the vectors: see vectors/README.md.
use plain::preview::{may, preview, Scratch, Stopped};
use plain::run::{feed, finish, open, Answer, Kind, Record, Status, MARK};
use plain::{inner, rank, sheet};
use std::io::{BufRead, Write};

fn hex(s: &str) -> Vec<u8> {
    if s == "-" {
        return vec![];
    }
    (0..s.len()).step_by(2).map(|i| u8::from_str_radix(&s[i..i + 2], 16).unwrap()).collect()
}

fn bytes_text(bytes: &[u8]) -> String {
    if bytes.is_empty() {
        return "-".into();
    }
    bytes.iter().map(|b| format!("{b:02x}")).collect()
}

fn list(s: &str) -> impl Iterator<Item = &str> {
    s.split(',').filter(move |_| s != "-")
}

fn joined<T>(items: &[T], text: impl Fn(&T) -> String) -> String {
    if items.is_empty() {
        return "-".into();
    }
    items.iter().map(text).collect::<Vec<_>>().join(",")
}

fn cells_text(cells: &[i64]) -> String {
    joined(cells, |&v| if v == MARK { "m".into() } else { v.to_string() })
}

/// What a call hands back: the record, the inner record where it has one, and the answer.
type Outcome = (Record, Option<Record>, Answer);

fn outer_alone((record, answer): (Record, Answer)) -> Outcome {
    (record, None, answer)
}

fn both((outer, inner, answer): inner::Called) -> Outcome {
    (outer, Some(inner), answer)
}

/// The record at word `k`, and the number of the word after it.
fn record_at(w: &[&str], k: usize) -> (Record, usize) {
    let number = |i: usize| w[k + i].parse().unwrap();
    let status = match w[k] {
        "open" => Status::Running,
        "waiting" => Status::Waiting,
        _ => Status::Closed,
    };
    let is_inner = w.get(k + 5) == Some(&"inner");
    let kind = if is_inner { Kind::Inner(number(6), number(7)) } else { Kind::Outer };
    let record = Record { status, kind, tokens: number(1), moves: number(2), registers: number(3), places: number(4) };
    (record, k + if is_inner { 8 } else { 5 })
}

fn record_text(r: &Record) -> String {
    let state = match r.status {
        Status::Running => "open",
        Status::Waiting => "waiting",
        Status::Closed => "closed",
    };
    let begins = match r.kind {
        Kind::Outer => String::new(),
        Kind::Inner(registers, places) => format!(" inner {registers} {places}"),
    };
    format!("{state} {} {} {} {}{begins}", r.tokens, r.moves, r.registers, r.places)
}

fn answer_text(answer: Answer) -> String {
    match answer {
        Answer::Opened => "opened".into(),
        Answer::More(n) => format!("more {n}"),
        Answer::Value(v, n) => format!("value {v} {n}"),
        Answer::Refused(k, n) => format!("refused {k} {n}"),
    }
}

/// The answer to `rank`.
fn ranked(w: &[&str]) -> String {
    let number = |i: usize| w[i].parse::<usize>().unwrap();
    let (kinds, values): (_, Vec<i32>) = (hex(w[2]), list(w[3]).map(|v| v.parse().unwrap()).collect());
    let lengths: Vec<u32> = list(w[4]).map(|v| v.parse().unwrap()).collect();
    let (mut rs, mut ps, mut cells) = (vec![7; number(5)], vec![9; number(6)], vec![-1; number(8)]);
    let area = &mut vec![0; number(7)];
    let answer = match rank::rank(&hex(w[1]), &mut rs, &mut ps, area, &mut cells, (&kinds, &values), &lengths) {
        Ok(report) => format!("ranked {} {}", report.valued, report.total),
        Err((number, offset)) => format!("refused {number} {offset}"),
    };
    format!("{answer} | {} | {} | {}", cells_text(&cells), cells_text(&rs), joined(&ps, |p| p.to_string()))
}

/// The answer to `preview` or `may`.
fn tried(w: &[&str], stopped: Stopped) -> String {
    let k = w.len() - 1;
    let number = |i: usize| w[i].parse::<usize>().unwrap();
    let (mut rs, mut ps, area) = (vec![7; number(k - 2)], vec![9; number(k - 1)], &mut vec![0; number(k)]);
    let (table, value) = (hex(w[1]), w[k - 3].parse().unwrap());
    let scratch = Scratch { registers: &mut rs, places: &mut ps };
    let text = if w[0] == "preview" {
        let (record, answer) = preview(&table, stopped, scratch, area, hex(w[2])[0], value);
        format!("{} | {}", answer_text(answer), record_text(&record))
    } else {
        let tokens = |set: u64| joined(&(0..63).filter(|t| set >> t & 1 == 1).collect::<Vec<_>>(), |t| t.to_string());
        may(&table, stopped, scratch, area, value).map_or_else(answer_text, |set| format!("tokens {}", tokens(set)))
    };
    format!("{text} | {} | {}", cells_text(&rs), joined(&ps, |p| p.to_string()))
}

fn main() {
    let mut out = std::io::BufWriter::new(std::io::stdout().lock());
    let (mut record, mut inside) = (Record::default(), Record::default());
    let (mut registers, mut places) = (Vec::<i64>::new(), Vec::<u32>::new());
    for line in std::io::stdin().lock().lines() {
        let line = line.unwrap();
        let w: Vec<&str> = line.split(' ').collect();
        let number = |i: usize| w[i].parse::<usize>().unwrap();
        let outcome = match w[0] {
            "check" => {
                match plain::check(&hex(w[1])) {
                    Ok(_) => writeln!(out, "ok"),
                    Err(r) => writeln!(out, "refused {} {}", r.number, r.offset),
                }
                .unwrap();
                continue;
            }
            "stretch" => {
                match plain::stretch(&hex(w[1]), number(2)) {
                    Ok((a, b)) => writeln!(out, "ok {a} {b}"),
                    Err(r) => writeln!(out, "refused {} {}", r.number, r.offset),
                }
                .unwrap();
                continue;
            }
            "list" => {
                let table = hex(w[1]);
                match plain::check(&table) {
                    Ok((o, s)) => write!(out, "{}", plain::listing::listing(&table, &o, &s)),
                    Err(r) => writeln!(out, "refused {} {}", r.number, r.offset),
                }
                .unwrap();
                writeln!(out, ".").unwrap();
                continue;
            }
            "house" => {
                let mut buffer = vec![0xa5; number(2)];
                match plain::house::house(&hex(w[1]), &mut buffer) {
                    Ok(length) => write!(out, "written {length} | "),
                    Err(r) => write!(out, "refused {} {} | ", r.number, r.offset),
                }
                .unwrap();
                writeln!(out, "{}", bytes_text(&buffer)).unwrap();
                continue;
            }
            "rank" => {
                writeln!(out, "{}", ranked(&w)).unwrap();
                continue;
            }
            "show" => {
                let shown = (record_text(&record), cells_text(&registers), joined(&places, |p| p.to_string()));
                writeln!(out, "{} | {} | {}", shown.0, shown.1, shown.2).unwrap();
                continue;
            }
            "preview" | "may" => {
                writeln!(out, "{}", tried(&w, Stopped { record, registers: &registers, places: &places })).unwrap();
                continue;
            }
            "sheet" => {
                let values: Vec<i32> = list(w[3]).map(|v| v.parse().unwrap()).collect();
                let mut buffer = vec![0xa5; number(6)];
                match sheet::sheet(&hex(w[1]), (&hex(w[2]), &values), number(4), number(5), &mut buffer) {
                    Ok((value, moves, length)) => write!(out, "value {value} {moves} {length} | "),
                    Err((number, offset)) => write!(out, "refused {number} {offset} | "),
                }
                .unwrap();
                writeln!(out, "{}", bytes_text(&buffer)).unwrap();
                continue;
            }
            "judge" => {
                let values: Vec<i32> = list(w[3]).map(|v| v.parse().unwrap()).collect();
                match sheet::judge(&hex(w[1]), &hex(w[2]), &values, &hex(w[4])) {
                    Ok(value) => writeln!(out, "value {value}"),
                    Err((number, offset)) => writeln!(out, "refused {number} {offset}"),
                }
                .unwrap();
                continue;
            }
            "set" => {
                let (r, k) = record_at(&w, 1);
                record = r;
                registers = list(w[k + 1]).map(|v| if v == "m" { MARK } else { v.parse().unwrap() }).collect();
                places = list(w[k + 3]).map(|v| v.parse().unwrap()).collect();
                writeln!(out, "ok").unwrap();
                continue;
            }
            "iset" => {
                inside = record_at(&w, 1).0;
                writeln!(out, "ok").unwrap();
                continue;
            }
            "open" => {
                registers = vec![7; number(2)];
                places = vec![9; number(3)];
                outer_alone(open(&hex(w[1]), &mut registers, &mut places, &mut vec![0; number(4)]))
            }
            "feed" | "feedv" | "feedr" => {
                let (kinds, last) = (hex(w[2]), w.len() - 1);
                let values = if w[0] == "feed" { vec![0; kinds.len()] } else { list(w[3]).map(|v| v.parse().unwrap()).collect() };
                outer_alone(feed(&hex(w[1]), record, &mut registers, &mut places, &mut vec![0; number(last)], (&kinds, &values)))
            }
            "finish" => outer_alone(finish(&hex(w[1]), record, &mut registers, &mut places, &mut vec![0; number(2)])),
            "inner" => {
                let (outer, table) = (hex(w[1]), hex(w[2]));
                both(inner::open((&outer, &table), record, &mut registers, &mut places, &mut vec![0; number(3)]))
            }
            "ifeed" | "ifinish" | "giveup" => {
                let fed = w[0] == "ifeed";
                let kinds = if fed { hex(w[2]) } else { vec![] };
                let values: Vec<i32> = if fed { list(w[3]).map(|v| v.parse().unwrap()).collect() } else { vec![] };
                let call = match w[0] {
                    "ifeed" => inner::Call::Feed((&kinds, &values)),
                    "ifinish" => inner::Call::Finish,
                    _ => inner::Call::GiveUp,
                };
                let area = number(w.len() - 1);
                both(inner::call(&hex(w[1]), (record, inside), &mut registers, &mut places, &mut vec![0; area], call))
            }
            _ => {
                writeln!(out, "bad command").unwrap();
                continue;
            }
        };
        record = outcome.0;
        inside = outcome.1.unwrap_or(inside);
        let answer = answer_text(outcome.2);
        let records = match outcome.1 {
            None => record_text(&record),
            Some(inner) => format!("{} | {}", record_text(&record), record_text(&inner)),
        };
        writeln!(out, "{answer} | {records} | {} | {}", cells_text(&registers), joined(&places, |p| p.to_string())).unwrap();
    }
}
