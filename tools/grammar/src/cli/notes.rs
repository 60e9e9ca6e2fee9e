//! `run FILE --notes NOTES`: a segment with notes inside it, each a segment of another grammar, between `[` and `]`. A note is an inner run
//! over the segment's own stacks, opened where it stands.
use super::{Outcome, Trouble};
use crate::run::{self, Token};
use crate::suggest::counted;
use crate::Built;
use segment::{Refusal, Run};
use std::io::Write;

/// Tokens of the segment itself, or of a note.
struct Piece {
    is_note: bool,
    tokens: Vec<Token>,
}

fn wrong<T>(words: &str) -> Result<T, Trouble> {
    Err(Trouble::Failed(format!("grammar: {words}")))
}

/// The pieces between brackets: text and notes in turn, the first and the last text.
fn pieces(built: &Built, notes: &Built, words: &[String]) -> Result<Vec<Piece>, Trouble> {
    let mut pieces = vec![];
    let mut rest = words;
    loop {
        let is_note = pieces.len() % 2 == 1;
        let (of, end) = if is_note { (notes, "]") } else { (built, "[") };
        let at = rest.iter().position(|word| word == "[" || word == "]");
        let tokens = run::tokens(&of.grammar, &rest[..at.unwrap_or(rest.len())]).map_err(Trouble::Refused)?;
        pieces.push(Piece { is_note, tokens });
        match at {
            Some(at) if rest[at] == end => rest = &rest[at + 1..],
            Some(_) => return wrong("a note stands between `[` and `]`, and has none of its own"),
            None if is_note => return wrong("a note has no `]` behind it"),
            None => return Ok(pieces),
        }
    }
}

/// A note's value. A refusal ends the note, and the run goes on.
fn note<'t>(run: &mut Run<'t>, notes: &'t Built, tokens: &[Token]) -> Result<i64, Refusal> {
    let (kinds, values) = run::lists(tokens);
    let mut inner = run.open_inner(&notes.table)?;
    inner.feed_values(&kinds, &values)?;
    inner.finish()
}

/// A refusal in words. It is the one of the tokens alone, on stacks of their own, unless it is for want of room.
fn told(built: &Built, tokens: &[Token], refusal: Refusal) -> String {
    let alone = run::run(&built.table, tokens);
    match alone.answer {
        Err(same) if same == refusal => run::told(built, tokens, &alone, refusal),
        _ => refusal.to_string(),
    }
}

pub fn run(built: &Built, notes: &Built, words: &[String], out: &mut dyn Write) -> Outcome {
    let pieces = pieces(built, notes, words)?;
    let own: Vec<Token> = pieces.iter().filter(|p| !p.is_note).flat_map(|p| p.tokens.iter().copied()).collect();
    let refused = |refusal| Trouble::Refused(told(built, &own, refusal));
    let (mut run, mut all) = (built.table.run(), true);
    for Piece { is_note, tokens } in &pieces {
        if !is_note {
            let (kinds, values) = run::lists(tokens);
            run.feed_values(&kinds, &values).map_err(refused)?;
            continue;
        }
        let answer = note(&mut run, notes, tokens);
        all &= answer.is_ok();
        let words = answer.map_or_else(|refusal| told(notes, tokens, refusal), |value| value.to_string());
        writeln!(out, "note after {}: {words}", counted(run.tokens() as usize, "token"))?;
    }
    writeln!(out, "{}", run.finish().map_err(refused)?)?;
    if all {
        return Ok(());
    }
    Err(Trouble::Told)
}
