//! The commands `trace` and `tracev`: the run of a segment, move by move; docs/TRACE.md.
mod grammar;
mod lines;
mod stacks;

use crate::session::{Command, Session};
use crate::words::{Fault, Words, CELLS};
use engine::lent::{PLACES, REGISTERS};
use engine::steps::{Input, Run, Step};
use grammar::Grammar;
use std::io::{self, Write};

pub const COMMANDS: &[(&str, Command)] = &[("trace", trace), ("tracev", tracev)];

/// The tokens of a segment: kinds and values.
#[derive(Clone, Copy)]
pub struct Tokens<'a> {
    kinds: &'a [u8],
    values: &'a [i32],
}

impl Tokens<'_> {
    fn at(self, index: usize) -> Input {
        self.kinds.get(index).map_or(Input::End, |&kind| Input::Token(kind, self.values[index]))
    }
}

/// `trace TABLE TOKENS [NREGS NPLACES [FROM]]`: every value is 0.
fn trace(session: &mut Session, words: Words, out: &mut dyn Write) -> Result<(), Fault> {
    words.at_most(5)?;
    let (table, kinds) = (session.table(words, 1)?, words.tokens(2)?);
    let values = vec![0; kinds.len()];
    traced(&table, Tokens { kinds: &kinds, values: &values }, words, 3, out)
}

/// `tracev TABLE KINDS VALUES [NREGS NPLACES [FROM]]`
fn tracev(session: &mut Session, words: Words, out: &mut dyn Write) -> Result<(), Fault> {
    words.at_most(6)?;
    let (table, kinds, values) = (session.table(words, 1)?, words.tokens(2)?, words.values(3)?);
    if kinds.len() != values.len() {
        return Err(words.bad(3, "bad values").into());
    }
    traced(&table, Tokens { kinds: &kinds, values: &values }, words, 4, out)
}

/// The trace, with the lengths and the first token that the words from word `k` on name.
fn traced(table: &[u8], tokens: Tokens, words: Words, k: usize, out: &mut dyn Write) -> Result<(), Fault> {
    let (mut registers, mut places, mut from) = (REGISTERS, PLACES, 1);
    if !words.after(k).is_empty() {
        (registers, places) = (words.size(k, CELLS)?, words.size(k + 1, CELLS)?);
    }
    if !words.after(k + 2).is_empty() {
        from = words.size(k + 2, tokens.kinds.len() + 1)?;
        if from == 0 {
            return Err(words.bad(k + 2, "bad number").into());
        }
    }
    Ok(tell(table, tokens, registers, places, from, out)?)
}

/// Tells the run from the token with this number on, counted from 1, or from the end.
fn tell(table: &[u8], tokens: Tokens, registers: usize, places: usize, from: usize, out: &mut dyn Write) -> io::Result<()> {
    let mut run = match Run::open(table, registers, places) {
        Ok(run) => run,
        Err(refusal) => return lines::not_opened(out, refusal),
    };
    let grammar = Grammar::of(table);
    let first = run.skip(&tokens.kinds[..from - 1], &tokens.values[..from - 1]);
    lines::begun(out, &run.now)?;
    stacks::lines(out, &grammar, &run.now)?;
    for index in first..=tokens.kinds.len() {
        lines::may_follow(out, &grammar, &mut run, tokens.at(index))?;
        let next = lines::next(&grammar, tokens, index);
        writeln!(out, "{next}")?;
        run.bring(tokens.at(index));
        let answer = moves(&mut run, &grammar, out)?;
        match answer {
            Step::Value(value) => return lines::value(out, value, &run.now),
            Step::Refused(number) => return lines::refused(out, number, &run.now, &next),
            Step::More | Step::Moved(_) => {}
        }
    }
    Ok(())
}

/// Tells the moves for what comes next; gives how it ends.
fn moves(run: &mut Run, grammar: &Grammar, out: &mut dyn Write) -> io::Result<Step> {
    loop {
        match run.step() {
            Step::Moved(made) => {
                lines::made(out, grammar, &made, run)?;
                stacks::lines(out, grammar, &run.now)?;
            }
            ended => return Ok(ended),
        }
    }
}
