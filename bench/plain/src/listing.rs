//! The listing, from the program's words.
use crate::judge::Sets;
use crate::program::{build, records, AREA};
use crate::table::Outline;
use std::fmt::Write;

const FUNCTIONS: [&str; 9] = ["const", "copy", "sum", "diff", "prod", "max", "min", "addc", "quot"];

fn condition(out: &mut String, p: usize, k: usize, w: &[u32]) {
    let a = w[0] & 127;
    let b = w[0] >> 11 & 127;
    match w[0] >> 7 & 15 {
        0 => writeln!(out, "{p} P{k} range {a} {} {}", w[1] as i32, w[2] as i32),
        1 => writeln!(out, "{p} P{k} atmost {a} {b}"),
        _ => writeln!(out, "{p} P{k} atmost {a} {b} {}", w[1] as i32),
    }
    .unwrap();
}

fn rule(out: &mut String, p: usize, k: usize, w: &[u32]) {
    let f = (w[0] >> 7 & 15) as usize;
    let (a, b, c) = (w[0] >> 11 & 127, w[0] >> 18, w[1] as i32);
    write!(out, "{p} E{k} {} {}", w[0] & 127, FUNCTIONS[f]).unwrap();
    match f {
        0 => writeln!(out, " {c}"),
        1 => writeln!(out, " {a}"),
        2..=6 => writeln!(out, " {a} {b}"),
        _ => writeln!(out, " {a} {c}"),
    }
    .unwrap();
}

pub fn listing(table: &[u8], o: &Outline, sets: &Sets) -> String {
    let mut words = vec![0u32; AREA];
    build(table, o, sets, &mut words);
    let mut out = String::new();
    for p in 0..o.productions {
        let r = records(o) + 8 * p;
        let (entries, mut at, symbols) = (words[r + 5] as usize, words[r + 6] as usize, words[r + 7] as usize);
        for i in 0..entries {
            condition(&mut out, p, 0, &words[at - 3 * entries + 3 * i..]);
        }
        let mut k = 1;
        loop {
            let n = (words[at] >> 3) as usize;
            match words[at] & 7 {
                0 => {
                    writeln!(out, "{p} A{k} {n}").unwrap();
                    at += 1;
                }
                1 => {
                    let position = if k > symbols { 0 } else { k };
                    for i in 0..n {
                        rule(&mut out, p, position, &words[at + 1 + 2 * i..]);
                    }
                    at += 1 + 2 * n;
                }
                2 | 3 => {
                    at += 1;
                    k += 1;
                }
                4 => {
                    for i in 0..n {
                        condition(&mut out, p, k - 1, &words[at + 1 + 3 * i..]);
                    }
                    at += 1 + 3 * n;
                }
                _ => {
                    writeln!(out, "{p} R {n}").unwrap();
                    break;
                }
            }
        }
    }
    out
}
