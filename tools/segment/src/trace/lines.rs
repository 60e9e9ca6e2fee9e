//! The lines around the stacks: what comes next, the moves, and how the run ends.
use super::grammar::{Grammar, WHOLE};
use super::Tokens;
use engine::steps::{Input, Kind, Move, Run, State};
use engine::Refusal;
use std::io::{self, Write};

/// A number with its noun.
fn counted(n: u64, noun: &str) -> String {
    let ending = if n == 1 { "" } else { "s" };
    format!("{n} {noun}{ending}")
}

/// Where the trace begins: at the opening, or later.
pub fn begun(out: &mut dyn Write, state: &State) -> io::Result<()> {
    if state.record.tokens == 0 {
        return writeln!(out, "opened");
    }
    let (tokens, moves) = (counted(state.record.tokens, "token"), counted(state.record.moves, "move"));
    writeln!(out, "opened, {tokens} read, {moves} made")
}

/// A token's kind, and its value where it carries one.
fn written(grammar: &Grammar, kind: u8, value: i32) -> String {
    if grammar.carries(kind) {
        return format!("{kind}={value}");
    }
    kind.to_string()
}

/// The token with this index, or the end.
pub fn next(grammar: &Grammar, tokens: Tokens, index: usize) -> String {
    match tokens.at(index) {
        Input::Token(kind, value) => format!("token {} of {}: {}", index + 1, tokens.kinds.len(), written(grammar, kind, value)),
        Input::End => "the end of the segment".into(),
    }
}

/// The tokens that may come next, at a stop. Where tokens carry values, the one that comes is tried for all of them, and 0 where none does.
pub fn may_follow(out: &mut dyn Write, grammar: &Grammar, run: &mut Run, coming: Input) -> io::Result<()> {
    let value = match coming {
        Input::Token(kind, value) if grammar.carries(kind) => value,
        _ => 0,
    };
    let with = if grammar.has_carriers() { format!(", with value {value}") } else { String::new() };
    write!(out, "        may be typed now{with}:")?;
    let set = run.may_follow(value);
    if set.is_empty() {
        write!(out, " no token")?;
    }
    set.iter().try_for_each(|kind| write!(out, " {}", written(grammar, kind, value)))?;
    writeln!(out)
}

fn production(p: usize) -> String {
    if p == WHOLE {
        return "segment".into();
    }
    format!("production {p}")
}

/// The position that a move works on, by the place before it: the next symbol's, or the left side where all symbols are passed.
fn position(grammar: &Grammar, place: usize) -> String {
    let passed = place % 256;
    if grammar.size(place / 256) <= passed {
        return "left side".into();
    }
    format!("position {}", passed + 1)
}

/// The line of a move; the run stands after it.
pub fn made(out: &mut dyn Write, grammar: &Grammar, made: &Move, run: &Run) -> io::Result<()> {
    let name = match made.kind {
        Kind::Predict => "predict",
        Kind::Add => "add",
        Kind::Evaluate => "evaluate",
        Kind::Read => "read",
        Kind::Test => "test",
        Kind::Remove => "remove",
    };
    let place = made.place as usize;
    write!(out, "move {}  {name:8}  {}", run.now.record.moves, production(place / 256))?;
    if made.kind != Kind::Remove {
        write!(out, ", {}", position(grammar, place))?;
    }
    match (made.kind, run.input) {
        (Kind::Predict, _) => write!(out, ": {}", production(run.now.top() as usize / 256))?,
        (Kind::Read, Input::Token(kind, value)) => write!(out, ": token {}", written(grammar, kind, value))?,
        _ => {}
    }
    writeln!(out)
}

pub fn value(out: &mut dyn Write, value: i64, state: &State) -> io::Result<()> {
    writeln!(out, "value {value}, {}", counted(state.record.moves, "move"))
}

/// The segment is refused, at the token with this index or at the end.
pub fn refused(out: &mut dyn Write, number: u32, state: &State, next: &str) -> io::Result<()> {
    let (read, made) = (counted(state.record.tokens, "token"), counted(state.record.moves, "move"));
    writeln!(out, "refused {number} after {read} and {made}, at {next}")?;
    writeln!(out, "        {}", engine::Kind::of(number).reason())
}

/// The table is refused, with the offset of its field, or the lent memory is.
pub fn not_opened(out: &mut dyn Write, refusal: Refusal) -> io::Result<()> {
    let at = refusal.offset().map_or("the opening".into(), |offset| format!("byte {offset}"));
    writeln!(out, "refused {} at {at}", refusal.number())?;
    writeln!(out, "        {}", refusal.reason())
}
