//! A run as text: each move, and what it changed.
use crate::run::{run, told, Token};
use crate::stacks::{Place, Stacks};
use crate::story::{kind_name, Event, Move, Story};
use crate::Built;
use segment::steps::Kind;
use std::io::{self, Write};

/// Which part of a run is told.
#[derive(Clone, Debug, Default)]
pub struct Wanted {
    /// The first token told, counted from 1; 0 for the opening.
    pub from: usize,
    /// The last token told; the end has the number after the last token's.
    pub to: Option<usize>,
    /// The run ends behind the first token of this kind.
    pub stop: Option<u8>,
    /// Whether whole stacks are told, after each move.
    pub full: bool,
}

/// So many registers and places are shown where the whole stacks are not.
const REGISTERS: usize = 12;
const PLACES: usize = 6;

/// Tells a run; whether the segment has a value, where the run was told to its end.
pub fn tell(built: &Built, tokens: &[Token], wanted: &Wanted, out: &mut dyn Write) -> io::Result<bool> {
    let mut story = match Story::open(built, tokens, wanted.from) {
        Ok(story) => story,
        Err(refusal) => {
            writeln!(out, "{refusal}")?;
            return Ok(false);
        }
    };
    let (moves, read) = story.counts();
    let begun = if read == 0 { "opened".into() } else { format!("opened, {} read, {moves} moves made", tokens_words(read as usize)) };
    writeln!(out, "{begun}; registers and places are told from the top, r1 is the topmost, * marks what is new")?;
    let stacks = story.stacks();
    registers(out, &stacks, &[], wanted.full)?;
    places(out, &stacks, wanted.full)?;
    let mut last = stacks.places;
    while let Some(event) = story.next() {
        match event {
            Event::Coming(index) => {
                may_follow(out, built, &mut story, tokens.get(index))?;
                if is_over(tokens, index, wanted) {
                    return Ok(true);
                }
                writeln!(out, "{}", coming(built, tokens, index))?;
            }
            Event::Moved(made) => {
                moved(out, &made, &last, wanted.full)?;
                last = made.stacks.places;
            }
            Event::Value(value) => {
                writeln!(out, "value {value} after {} and {} moves", tokens_words(tokens.len()), story.counts().0)?;
                return Ok(true);
            }
            Event::Refused(_) => return refused(out, built, tokens, story.counts().0),
        }
    }
    Ok(true)
}

fn tokens_words(n: usize) -> String {
    format!("{n} token{}", if n == 1 { "" } else { "s" })
}

/// Whether the trace ends before the token with this index.
fn is_over(tokens: &[Token], index: usize, wanted: &Wanted) -> bool {
    let stopped = wanted.stop.is_some_and(|stop| tokens[..index].iter().skip(wanted.from.max(1) - 1).any(|t| t.kind == stop));
    stopped || wanted.to.is_some_and(|to| index >= to)
}

/// `may be typed now: word open`. Where tokens carry values, the one that comes is tried for all of them, and 0 where none does.
fn may_follow(out: &mut dyn Write, built: &Built, story: &mut Story, coming: Option<&Token>) -> io::Result<()> {
    let g = &built.grammar;
    let value = coming.map_or(0, |t| t.value);
    let names: Vec<String> = story.may_follow(value).iter().map(|kind| Token { kind, value }.written(g)).collect();
    let with = if g.carried.iter().any(Option::is_some) { format!(", with value {value}") } else { String::new() };
    writeln!(out, "        may be typed now{with}: {}", if names.is_empty() { "no token".into() } else { names.join(" ") })
}

/// `token 2 of 4: open`, or `the end`.
pub fn coming(built: &Built, tokens: &[Token], index: usize) -> String {
    match tokens.get(index) {
        Some(t) => format!("token {} of {}: {}", index + 1, tokens.len(), t.written(&built.grammar)),
        None => "the end".into(),
    }
}

fn refused(out: &mut dyn Write, built: &Built, tokens: &[Token], moves: u64) -> io::Result<bool> {
    let outcome = run(&built.table, tokens);
    if let Err(refusal) = outcome.answer {
        writeln!(out, "{}", told(built, tokens, &outcome, refusal))?;
        writeln!(out, "        {moves} moves were made and stand; the one that failed changed nothing")?;
    }
    Ok(false)
}

fn moved(out: &mut dyn Write, made: &Move, before: &[Place], full: bool) -> io::Result<()> {
    let mut words = made.words.iter();
    let first = words.next().map_or("", |w| w);
    writeln!(out, "{:5}  {:8}  {first}", made.number, kind_name(made.kind))?;
    words.try_for_each(|word| writeln!(out, "                 {word}"))?;
    let shrank = made.kind == Kind::Remove;
    if full || shrank || !made.changed.is_empty() {
        registers(out, &made.stacks, &made.changed, full)?;
    }
    if full || made.stacks.places != before {
        places(out, &made.stacks, full)?;
    }
    Ok(())
}

/// What stands below what is shown.
fn rest(all: usize, shown: usize) -> String {
    if all > shown {
        return format!("  | {} more below", all - shown);
    }
    String::new()
}

/// The registers from the top, those of a place together.
fn registers(out: &mut dyn Write, stacks: &Stacks, changed: &[usize], full: bool) -> io::Result<()> {
    let shown = if full { stacks.cells.len() } else { REGISTERS };
    let mut text = String::new();
    let mut place = None;
    for cell in stacks.cells.iter().take(shown) {
        if place.replace(cell.place).is_some_and(|p| p != cell.place) {
            text += "  |";
        }
        let star = if changed.contains(&cell.number) { "*" } else { "" };
        let value = cell.value.map_or("mark".into(), |v| v.to_string());
        text += &format!("  r{} {}={value}{star}", cell.number, stacks.name(cell));
    }
    writeln!(out, "        registers{text}{}", rest(stacks.cells.len(), shown))
}

/// The places from the top.
fn places(out: &mut dyn Write, stacks: &Stacks, full: bool) -> io::Result<()> {
    let shown = if full { stacks.places.len() } else { PLACES };
    let names = stacks.places.iter().rev().take(shown).map(|&p| format!("{} ({})", stacks.place_name(p), p.number()));
    let text = names.collect::<Vec<_>>().join("  |  ");
    writeln!(out, "        places     {text}{}", rest(stacks.places.len(), shown))
}
