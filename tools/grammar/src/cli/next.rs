//! The command `next`: what may be typed after some tokens.
use super::files::build;
use super::segments::segment;
use super::{Args, Command, Outcome, Trouble};
use crate::run::{self, Token};
use crate::Built;
use std::io::Write;

pub const COMMANDS: &[Command] = &[Command {
    name: "next",
    options: &["--value=", "--why", "--empty"],
    usage: &[
        ("next FILE TOKENS... [--value N]", "the tokens that may come next, and whether the segment may end; tokens carry N, or 0"),
        ("     --why", "also why the others may not"),
    ],
    run: next,
}];

const END: &str = "(end)";

/// What the segment comes to with these tokens, where it is refused.
fn refusal(built: &Built, tokens: &[Token]) -> Option<String> {
    let outcome = run::run(&built.table, tokens);
    outcome.answer.err().map(|refusal| run::told(built, tokens, &outcome, refusal))
}

/// The value that `--value` says.
fn value(args: &Args) -> Result<i32, Trouble> {
    let Some(word) = args.value("--value") else { return Ok(0) };
    let number = word.to_str().and_then(|word| word.parse().ok());
    number.ok_or_else(|| Trouble::Failed("grammar: `--value` needs a number from -2147483648 to 2147483647".into()))
}

fn next(mut args: Args, out: &mut dyn Write) -> Outcome {
    let file = args.take()?;
    let (_, built) = build(&file)?;
    let tokens = segment(&built, &mut args)?;
    let value = value(&args)?;
    let (kinds, values) = run::lists(&tokens);
    let mut run = built.table.run();
    let set = match run.feed_values(&kinds, &values).and_then(|_| run.may_follow_value(value)) {
        Ok(set) => set,
        Err(refused) => return Err(Trouble::Refused(refusal(&built, &tokens).unwrap_or_else(|| refused.to_string()))),
    };
    let token = |kind| Token { kind, value };
    let written = |kind| token(kind).written(&built.grammar);
    let end = refusal(&built, &tokens);
    let ends = end.is_none().then(|| END.to_string());
    let names: Vec<String> = set.iter().map(written).chain(ends).collect();
    writeln!(out, "{}", if names.is_empty() { "(nothing)".into() } else { names.join(" ") })?;
    if !args.has("--why") {
        return Ok(());
    }
    for kind in (0..built.grammar.tokens.len() as u8).filter(|&kind| !set.contains(kind)) {
        let longer = [&tokens[..], &[token(kind)]].concat();
        writeln!(out, "{}: {}", written(kind), refusal(&built, &longer).unwrap_or_default())?;
    }
    end.map_or(Ok(()), |told| Ok(writeln!(out, "{END}: {told}")?))
}
