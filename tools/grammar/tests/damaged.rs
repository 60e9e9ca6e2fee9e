//! Damaged texts and random segments: every answer is told in words, at a place that exists.
mod common;
use common::shipped;
use grammar::{run, to_table, to_text, Built};
use segment::Kind;
use std::collections::BTreeMap;

const NAMES: [&str; 4] = ["words", "lengths", "clause", "sheet"];

const CHARS: [char; 20] = ['a', 'L', 'é', '0', '9', '_', ' ', '\t', '.', ':', '=', '<', '-', '+', '*', '/', '(', ',', '#', '\u{1f600}'];

/// Numbers that look random and are the same in each run.
struct Chance(u64);

impl Chance {
    fn below(&mut self, n: usize) -> usize {
        self.0 = self.0.wrapping_mul(6_364_136_223_846_793_005).wrapping_add(1_442_695_040_888_963_407);
        (self.0 >> 33) as usize % n
    }
}

/// The text with a line dropped, doubled, moved, one of its words put in the place of another, or a character changed.
fn damaged(text: &str, chance: &mut Chance) -> String {
    let mut lines: Vec<String> = text.lines().filter(|l| !l.starts_with('#') && !l.is_empty()).map(String::from).collect();
    let (from, to) = (chance.below(lines.len()), chance.below(lines.len()));
    match chance.below(5) {
        0 => drop(lines.remove(from)),
        1 => lines.insert(to, lines[from].clone()),
        2 => lines.swap(from, to),
        3 => {
            let mut chars: Vec<char> = lines[to].chars().collect();
            let at = chance.below(chars.len());
            chars[at] = CHARS[chance.below(CHARS.len())];
            lines[to] = chars.into_iter().collect();
        }
        _ => {
            let words: Vec<String> = lines[from].split_whitespace().map(String::from).collect();
            let mut changed: Vec<&str> = lines[to].split_whitespace().collect();
            let (i, j) = (chance.below(words.len()), chance.below(changed.len()));
            changed[j] = &words[i];
            lines[to] = changed.join(" ");
        }
    }
    lines.join("\n")
}

#[test]
fn damaged_texts_are_judged_in_words() {
    let mut chance = Chance(1);
    let mut refusals = BTreeMap::new();
    for name in NAMES {
        let text = shipped(name);
        for _ in 0..2000 {
            let text = damaged(&text, &mut chance);
            let fault = match to_table(&text) {
                Err(faults) => faults.first().clone(),
                Ok(built) => {
                    assert_eq!(to_table(&to_text(built.table.bytes()).expect("accepted")).expect(&text).table, built.table);
                    continue;
                }
            };
            let line = text.lines().nth(fault.span.line - 1).expect("the fault's line");
            assert!((1..=line.chars().count() + 1).contains(&fault.span.column), "{}", fault.show(name, &text));
            if let Some((number, words)) = fault.message.strip_prefix("refused ").and_then(|m| m.split_once(": ")) {
                let number: u32 = number.parse().expect("a number");
                assert_ne!(words, Kind::of(number).reason(), "{}", fault.show(name, &text));
                *refusals.entry(number).or_insert(0) += 1;
            }
        }
    }
    assert!(refusals.len() >= 6, "{refusals:?}");
}

#[test]
fn random_segments_are_told_in_words() {
    let mut chance = Chance(2);
    for name in NAMES {
        let built: Built = to_table(&shipped(name)).expect(name);
        for _ in 0..1000 {
            let count = chance.below(12);
            let mut token = || run::Token { kind: chance.below(built.grammar.tokens.len()) as u8, value: chance.below(50) as i32 };
            let tokens: Vec<run::Token> = (0..count).map(|_| token()).collect();
            let outcome = run::run(&built.table, &tokens);
            if let Err(refusal) = outcome.answer {
                let told = run::told(&built, &tokens, &outcome, refusal);
                assert!(told.starts_with(&format!("refused {} after {} token", refusal.number(), refusal.count())), "{told}");
                assert!(!told.ends_with(": ") && !told.ends_with(refusal.reason()), "{tokens:?}: {told}");
            }
        }
    }
}

/// A text that is laid out says the same, and stays as it is when it is laid out again.
#[test]
fn layout_keeps_the_grammar() {
    let mut chance = Chance(3);
    let (mut laid_out, mut refused) = (0, 0);
    for name in NAMES {
        let text = shipped(name);
        for _ in 0..300 {
            let text = damaged(&text, &mut chance).replace(" = ", if chance.below(2) == 0 { "=" } else { "   =\t" });
            let Ok(laid) = grammar::fmt::laid_out(&text) else {
                refused += 1;
                continue;
            };
            assert_eq!(grammar::fmt::laid_out(&laid).expect("laid out"), laid);
            match (to_table(&text), to_table(&laid)) {
                (Ok(a), Ok(b)) => assert_eq!(a.table, b.table, "{text}"),
                (Err(a), Err(b)) => assert_eq!(a.first().message.split_once(" on line"), b.first().message.split_once(" on line")),
                (a, b) => panic!("{a:?}\n{b:?}\n{text}"),
            }
            laid_out += 1;
        }
    }
    assert!(laid_out > 300 && refused > 20, "{laid_out} laid out, {refused} refused");
}
