//! A segment given by names, and its refusal in words.
use crate::model::{Grammar, Item, Occurrence, Symbol};
use crate::stacks::{conditions, holds, result, right, rules, Place, Stacks, LIMIT, WHOLE};
use crate::suggest::hint;
use crate::{print, Built};
use plain::judge::Analysis;
use segment::{Refusal, Run, Table};
use std::collections::HashMap;

/// A token: its kind, and the value that it carries or 0.
#[derive(Clone, Copy, Debug, PartialEq, Eq)]
pub struct Token {
    pub kind: u8,
    pub value: i32,
}

impl Token {
    /// The token's name, with its value where it carries one: `open`, `word=4`.
    pub fn written(self, g: &Grammar) -> String {
        let name = &g.tokens[usize::from(self.kind)];
        match g.carried[usize::from(self.kind)] {
            Some(_) => format!("{name}={}", self.value),
            None => name.clone(),
        }
    }
}

/// The kinds and the values of tokens.
pub fn lists(tokens: &[Token]) -> (Vec<u8>, Vec<i32>) {
    tokens.iter().map(|t| (t.kind, t.value)).unzip()
}

/// The tokens of a grammar by their names.
pub struct Names<'g> {
    grammar: &'g Grammar,
    kinds: HashMap<&'g str, u8>,
}

impl<'g> Names<'g> {
    pub fn new(grammar: &'g Grammar) -> Names<'g> {
        Names { grammar, kinds: grammar.tokens.iter().map(String::as_str).zip(0..).collect() }
    }

    /// The token that a word names, `open` or `word=4`; what is said of another mentions its index.
    pub fn token(&self, index: usize, word: &str) -> Result<Token, String> {
        let (name, value) = word.split_once('=').map_or((word, None), |(name, value)| (name, Some(value)));
        let g = self.grammar;
        let Some(&kind) = self.kinds.get(name) else {
            let hint = hint(name, g.tokens.iter().map(String::as_str));
            let tokens = if hint.is_empty() { format!("; its tokens: {}", g.tokens.join(" ")) } else { hint };
            return Err(format!("token {}, `{name}`, is not in the grammar{tokens}", index + 1));
        };
        let carries = g.carried[usize::from(kind)].is_some();
        match value.map(str::parse) {
            None => Ok(Token { kind, value: 0 }),
            Some(Ok(value)) if carries => Ok(Token { kind, value }),
            Some(_) if carries => Err(format!("token {}, `{word}`: a value is a number from -2147483648 to 2147483647", index + 1)),
            Some(_) => Err(format!("token {}, `{word}`: `{name}` carries no value", index + 1)),
        }
    }
}

/// The tokens given by their names.
pub fn tokens<W: AsRef<str>>(g: &Grammar, words: &[W]) -> Result<Vec<Token>, String> {
    let names = Names::new(g);
    words.iter().enumerate().map(|(i, word)| names.token(i, word.as_ref())).collect()
}

/// How a run ended: the value or the refusal, how many tokens were fed (a refused one counts), whether the finish was called, and the
/// stacks as they stand.
#[derive(Debug)]
pub struct Outcome {
    pub answer: Result<i64, Refusal>,
    pub moves: u64,
    fed: usize,
    finished: bool,
    registers: Vec<Option<i64>>,
    places: Vec<u32>,
}

impl Outcome {
    fn of(run: &Run, answer: Result<i64, Refusal>, fed: usize, finished: bool) -> Outcome {
        let (registers, places) = (run.registers().collect(), run.places().to_vec());
        Outcome { answer, moves: run.moves(), fed, finished, registers, places }
    }
}

/// Runs a segment on full stacks.
pub fn run(table: &Table, tokens: &[Token]) -> Outcome {
    run_on(&mut table.run(), tokens)
}

/// Runs a segment on a run's memory. Where it is refused, the tokens read are fed again, to tell whether the refusal came after the last
/// of them or at the next.
pub fn run_on(run: &mut Run, tokens: &[Token]) -> Outcome {
    let (kinds, values) = lists(tokens);
    let fed = run.restart().and_then(|()| run.feed_values(&kinds, &values));
    let Err(refusal) = fed else {
        let answer = run.finish();
        return Outcome::of(run, answer, tokens.len(), true);
    };
    let read = run.tokens() as usize;
    let outcome = Outcome::of(run, Err(refusal), read + 1, false);
    let again = run.restart().and_then(|()| run.feed_values(&kinds[..read], &values[..read]));
    Outcome { fed: if again.is_err() { read } else { read + 1 }, ..outcome }
}

/// A refusal of a segment in words: number, tokens read, the token's position and name, and what was expected or did not hold.
pub fn told(built: &Built, tokens: &[Token], outcome: &Outcome, refusal: Refusal) -> String {
    let read = refusal.count() as usize;
    let name = |i: usize| format!("token {}, `{}`", i + 1, tokens[i].written(&built.grammar));
    let place = match outcome.fed {
        _ if outcome.finished => "at the end".into(),
        fed if fed > read => format!("at {}", name(read)),
        _ => format!("once {}, was read", name(read - 1)),
    };
    let next = tokens.get(read).map(|t| t.kind).filter(|_| outcome.fed > read);
    let reason = reason(built, outcome, refusal, next);
    let s = if read == 1 { "" } else { "s" };
    format!("refused {} after {read} token{s}, {place}: {reason}", refusal.number())
}

/// What was expected or did not hold.
fn reason(built: &Built, outcome: &Outcome, refusal: Refusal, next: Option<u8>) -> String {
    let stop = Stop::new(built, outcome);
    match (refusal.number(), stop) {
        (21, None) => "the segment is already complete".into(),
        (21, Some(stop)) => format!("expected {}", stop.expected()),
        (22, Some(stop)) => stop.not_met(next),
        (23, Some(stop)) => stop.too_large(),
        (24, Some(stop)) => format!("the segment is over where it expects {}", stop.expected()),
        (31, _) => "it would need more than 4,096 registers".into(),
        (32, _) => "it would need more than 1,024 places".into(),
        _ => refusal.reason().into(),
    }
}

/// Where a run stopped: its stacks, and the place on top.
struct Stop<'a> {
    built: &'a Built,
    stacks: Stacks<'a>,
    top: Place,
}

impl<'a> Stop<'a> {
    /// None once the start symbol is left.
    fn new(built: &'a Built, outcome: &'a Outcome) -> Option<Stop<'a>> {
        let top = Place::of(*outcome.places.last()?);
        if top.production == WHOLE && top.passed > 0 {
            return None;
        }
        Some(Stop { built, stacks: Stacks::new(&built.grammar, &outcome.registers, &outcome.places), top })
    }

    fn grammar(&self) -> &'a Grammar {
        &self.built.grammar
    }

    /// The symbol that the top place waits at; none where all are passed.
    fn awaited(&self) -> Option<Symbol> {
        right(self.grammar(), self.top.production).get(self.top.passed).copied()
    }

    /// FIRST-then-FOLLOW of each production.
    fn starts(&self) -> [u64; 128] {
        let Ok(outline) = plain::table::read(self.built.table.bytes()) else { return [0; 128] };
        let mut analysis = Analysis::new(&outline);
        analysis.find_nullable();
        analysis.starts().starts
    }

    /// The alternatives for the awaited part.
    fn alternatives(&self) -> Vec<usize> {
        let awaited = self.awaited();
        let all = 0..self.grammar().productions.len();
        all.filter(|&p| Some(Symbol::Part(self.grammar().productions[p].left)) == awaited).collect()
    }

    fn expected(&self) -> String {
        let tokens = &self.grammar().tokens;
        if let Some(Symbol::Token(t)) = self.awaited() {
            return format!("`{}`", tokens[t]);
        }
        let starts = self.starts();
        let set = self.alternatives().iter().fold(0, |set, &p| set | starts[p]);
        let mut names: Vec<String> = (0..tokens.len()).filter(|t| set >> t & 1 == 1).map(|t| format!("`{}`", tokens[t])).collect();
        if set >> 63 == 1 {
            names.push("the end".into());
        }
        let last = names.pop().unwrap_or_default();
        if names.is_empty() {
            last
        } else {
            format!("{} or {last}", names.join(", "))
        }
    }

    /// The conditions that do not hold: those of the awaited part once it is done, else the entry conditions of its alternatives.
    fn not_met(&self, next: Option<u8>) -> String {
        let depth = self.stacks.places.len();
        let done = self.top.production != WHOLE && self.is_done();
        let found = if done {
            self.failing(self.top.production, self.top.passed + 1, depth - 1)
        } else {
            let (starts, look) = (self.starts(), next.map_or(63, usize::from));
            let may = self.alternatives().into_iter().filter(|&p| starts[p] >> look & 1 == 1);
            may.flat_map(|p| self.failing(p, 0, depth)).collect()
        };
        found.join("; ")
    }

    /// Whether the awaited part is done: what it takes has no registers any more. One that takes nothing has no entry conditions.
    fn is_done(&self) -> bool {
        let first = Occurrence { position: self.top.passed + 1, attribute: 1 };
        let takes = self.awaited().is_some_and(|s| self.grammar().counts(s).0 > 0);
        !takes || self.stacks.cell(self.stacks.places.len() - 1, first).is_none()
    }

    /// `d is 3`, for each occurrence read.
    fn values(&self, p: usize, item: &Item<Occurrence>, place: usize) -> String {
        let production = &self.grammar().productions[p];
        let value = |o: Occurrence| self.stacks.value(place, o).map_or("not known".into(), |v| v.to_string());
        let all = item.reads().into_iter().map(|o| format!("{} is {}", self.grammar().label(production, *o), value(*o)));
        all.collect::<Vec<_>>().join(", ")
    }

    /// The conditions of a production at a place that belong to a position and are false, in words.
    fn failing(&self, p: usize, position: usize, place: usize) -> Vec<String> {
        let production = &self.grammar().productions[p];
        let fails = |c: &_| holds(c, |o| self.stacks.value(place, o)) == Some(false);
        let false_ones = conditions(production, position).filter(|(_, c)| fails(c));
        let told = false_ones.map(|(i, _)| {
            let item = &production.items[i];
            let (text, line) = (print::item(self.grammar(), production, item), self.built.places.productions[p].items[i].span.line);
            format!("the condition `{text}` on line {line} is false: {}", self.values(p, item, place))
        });
        told.collect()
    }

    /// The rule whose result leaves the limits of values.
    fn too_large(&self) -> String {
        let (p, place) = (self.top.production, self.stacks.places.len() - 1);
        let words = "a value outside -1,000,000,000,000 to 1,000,000,000,000";
        let Some(production) = self.grammar().productions.get(p) else { return words.into() };
        let position = if self.top.passed < production.right.len() { self.top.passed + 1 } else { 0 };
        for (i, item) in rules(production, position) {
            let Item::Rule(_, function) = item else { continue };
            let exact = result(function, |o| self.stacks.value(place, o));
            if let Some(exact) = exact.filter(|v| v.abs() > LIMIT) {
                let (text, line) = (print::item(self.grammar(), production, item), self.built.places.productions[p].items[i].span.line);
                return format!("the rule `{text}` on line {line} gives {exact}, {words}: {}", self.values(p, item, place));
            }
        }
        words.into()
    }
}
