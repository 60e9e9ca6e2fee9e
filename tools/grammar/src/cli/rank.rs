//! The command `rank`: candidate segments, a line each, in the order of their values.
use super::files::build;
use super::segments::open;
use super::{Args, Command, Outcome, Trouble};
use crate::run::{self, Token};
use crate::suggest::{counted, grouped};
use crate::Built;
use segment::{Entry, Run};
use std::io::{BufRead, Write};

pub const COMMANDS: &[Command] = &[Command {
    name: "rank",
    options: &[],
    usage: &[("rank FILE LIST", "ranks the segments of a list, a line each, at most 512: the highest value first, the refused last")],
    run: rank,
}];

/// The candidates, an empty line one without tokens.
fn candidates(built: &Built, lines: Box<dyn BufRead>) -> Result<Vec<Vec<Token>>, Trouble> {
    let line = |(i, line): (usize, std::io::Result<Vec<u8>>)| {
        let line = line.map_err(|e| Trouble::Failed(format!("the candidates cannot be read: {e}")))?;
        let text = String::from_utf8_lossy(&line);
        let words: Vec<&str> = text.split_whitespace().collect();
        run::tokens(&built.grammar, &words).map_err(|told| Trouble::Refused(format!("line {}: {}", i + 1, crate::source::plain(&told))))
    };
    lines.split(b'\n').enumerate().map(line).collect()
}

/// The tokens by their names.
fn written(built: &Built, tokens: &[Token]) -> String {
    if tokens.is_empty() {
        return "(no tokens)".into();
    }
    tokens.iter().map(|t| t.written(&built.grammar)).collect::<Vec<_>>().join(" ")
}

/// A refused candidate is run once more, for its words.
fn told(built: &Built, run: &mut Run, tokens: &[Token]) -> String {
    let outcome = run::run_on(run, tokens);
    match outcome.answer {
        Ok(value) => value.to_string(),
        Err(refusal) => run::told(built, tokens, &outcome, refusal),
    }
}

fn rank(mut args: Args, out: &mut dyn Write) -> Outcome {
    let (file, list) = (args.take()?, args.take()?);
    args.end()?;
    if file == "-" && list == "-" {
        return Err(Trouble::Failed("grammar: standard input cannot be both the grammar and the candidates".into()));
    }
    let (_, built) = build(&file)?;
    let candidates = candidates(&built, open(&list)?)?;
    let pairs: Vec<Vec<(u8, i32)>> = candidates.iter().map(|tokens| tokens.iter().map(|t| (t.kind, t.value)).collect()).collect();
    let ranking = built.table.rank_values(&pairs).map_err(|refusal| Trouble::Refused(refusal.to_string()))?;
    let shown = |entry: &Entry| entry.outcome.map_or("-".into(), |value| value.to_string());
    let width = ranking.entries().map(|entry| shown(&entry).len()).max().unwrap_or(0);
    let mut run = built.table.run();
    for entry in ranking.entries() {
        let tokens = &candidates[entry.number];
        writeln!(out, "{:>width$}  line {}: {}", shown(&entry), entry.number + 1, written(&built, tokens))?;
        if entry.outcome.is_err() {
            writeln!(out, "{:width$}    {}", "", told(&built, &mut run, tokens))?;
        }
    }
    let (valued, all) = (grouped(ranking.valued() as u64), counted(candidates.len(), "segment"));
    writeln!(out, "{valued} of {all} valued, total {}", ranking.total())?;
    if ranking.valued() == candidates.len() {
        return Ok(());
    }
    Err(Trouble::Told)
}
