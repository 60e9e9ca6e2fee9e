//! The commands on segments: `run` and `trace`.
use super::batch;
use super::files::{build, shown};
use super::notes;
use super::{Args, Command, Outcome, Trouble};

use crate::run::{self, Token};
use crate::trace::{self, Wanted};
use crate::Built;
use std::ffi::{OsStr, OsString};
use std::io::{BufRead, BufReader, IsTerminal, Write};

pub const COMMANDS: &[Command] = &[
    Command {
        name: "run",
        options: &["--segments=", "--empty", "--notes="],
        usage: &[
            ("run FILE TOKENS...", "runs a segment: its value, or why it is refused"),
            ("run FILE -", "runs a segment a line of standard input, a line of answer each"),
            ("run FILE --segments LIST", "the same for the lines of a file"),
            ("run FILE --empty", "runs the segment without tokens"),
            ("run FILE --notes NOTES TOKENS...", "runs a segment with notes of another grammar in it, between `[` and `]`"),
        ],
        run: run_segments,
    },
    Command {
        name: "trace",
        options: &["--from=", "--to=", "--stop=", "--full", "--empty"],
        usage: &[
            ("trace FILE TOKENS...", "tells a run move by move, with the names of the grammar"),
            ("      [--from N] [--to N]", "only from token N on, or up to token N"),
            ("      [--stop TOKEN] [--full]", "only up to the first such token; whole stacks after each move"),
        ],
        run: trace_segment,
    },
];

/// What is to be run.
pub enum Given {
    Tokens(Vec<String>),
    Lines(Box<dyn BufRead>),
}

pub fn open(file: &OsStr) -> Result<Box<dyn BufRead>, Trouble> {
    if file == "-" {
        return Ok(Box::new(BufReader::new(std::io::stdin())));
    }
    let opened = std::fs::File::open(file).map_err(|e| Trouble::Failed(format!("{}: {e}", shown(file))))?;
    Ok(Box::new(BufReader::with_capacity(1 << 16, opened)))
}

/// The names of tokens as arguments.
pub fn words(given: Vec<OsString>) -> Result<Vec<String>, Trouble> {
    let word = |w: OsString| w.into_string().map_err(|w| Trouble::Failed(format!("grammar: `{}` is not UTF-8", w.to_string_lossy())));
    // One argument may hold several names.
    let words = given.into_iter().map(word).collect::<Result<Vec<String>, _>>()?;
    Ok(words.iter().flat_map(|w| w.split_whitespace()).map(String::from).collect())
}

fn given(args: &mut Args) -> Result<Given, Trouble> {
    let rest = args.rest();
    match (args.value("--segments"), args.has("--empty"), &rest[..]) {
        (Some(file), false, []) => Ok(Given::Lines(open(file)?)),
        (None, true, []) => Ok(Given::Tokens(vec![])),
        (None, false, [dash]) if dash == "-" => Ok(Given::Lines(open(dash)?)),
        (None, false, [_, ..]) => Ok(Given::Tokens(words(rest)?)),
        (None, false, []) => Err(Trouble::Failed(
            "grammar: no tokens are given: name them, or write `-` to read a segment a line from standard input, or `--empty`".into(),
        )),
        _ => Err(Trouble::Failed("grammar: tokens, `--segments` and `--empty` exclude each other".into())),
    }
}

fn run_segments(mut args: Args, out: &mut dyn Write) -> Outcome {
    let file = args.take()?;
    let given = given(&mut args)?;
    if file == "-" && matches!(given, Given::Lines(_)) {
        return Err(Trouble::Failed("grammar: standard input cannot be both the grammar and the segments".into()));
    }
    let (_, built) = build(&file)?;
    match (given, args.value("--notes")) {
        (Given::Tokens(words), Some(notes)) => notes::run(&built, &build(notes)?.1, &words, out),
        (Given::Lines(_), Some(_)) => Err(Trouble::Failed("grammar: `--notes` is for a segment whose tokens are given".into())),
        (Given::Tokens(words), None) => one(&built, &words, out),
        (Given::Lines(lines), None) => many(&built, lines, out),
    }
}

/// The tokens of one segment, by the arguments.
pub fn segment(built: &Built, args: &mut Args) -> Result<Vec<Token>, Trouble> {
    match given(args)? {
        Given::Tokens(words) => run::tokens(&built.grammar, &words).map_err(Trouble::Refused),
        Given::Lines(mut lines) => {
            let mut text = String::new();
            lines.read_to_string(&mut text).map_err(|e| Trouble::Failed(format!("standard input: {e}")))?;
            let words: Vec<&str> = text.split_whitespace().collect();
            run::tokens(&built.grammar, &words).map_err(Trouble::Refused)
        }
    }
}

fn trace_segment(mut args: Args, out: &mut dyn Write) -> Outcome {
    let file = args.take()?;
    let (_, built) = build(&file)?;
    let tokens = segment(&built, &mut args)?;
    let (from, to) = (args.number("--from")?, args.number("--to")?);
    let past = tokens.len() + 1;
    if let Some(n) = from.into_iter().chain(to).find(|n| !(1..=past).contains(n)) {
        return Err(Trouble::Failed(format!("grammar: there is no token {n}: the tokens are 1 to {}, the end is {past}", past - 1)));
    }
    let stop = match args.value("--stop") {
        Some(word) => Some(run::tokens(&built.grammar, &[word.to_string_lossy()]).map_err(Trouble::Failed)?[0].kind),
        None => None,
    };
    let wanted = Wanted { from: from.unwrap_or(0), to, stop, full: args.has("--full") };
    if trace::tell(&built, &tokens, &wanted, out)? {
        return Ok(());
    }
    Err(Trouble::Told)
}

fn one(built: &Built, words: &[String], out: &mut dyn Write) -> Outcome {
    let tokens = run::tokens(&built.grammar, words).map_err(Trouble::Refused)?;
    let outcome = run::run(&built.table, &tokens);
    match outcome.answer {
        Ok(value) => Ok(writeln!(out, "{value}")?),
        Err(refusal) => Err(Trouble::Refused(run::told(built, &tokens, &outcome, refusal))),
    }
}

fn many(built: &Built, lines: Box<dyn BufRead>, out: &mut dyn Write) -> Outcome {
    // Progress is shown where someone looks and the answers go elsewhere.
    let watched = std::io::stderr().is_terminal() && !std::io::stdout().is_terminal();
    let counts = batch::answer(built, lines, out, watched)?;
    if counts.refused > 0 {
        return Err(Trouble::Told);
    }
    Ok(())
}
