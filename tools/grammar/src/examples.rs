//! Examples in a grammar's comments: tokens, two spaces or more, and what the segment gives.
//!
//! ```text
//! #   word open word close    gives 2
//! #   open                    refused 24 after 1
//! #   (no tokens)             gives 0
//! ```
use crate::{run, Built};

/// An example: its line, its tokens and its answer as they are written.
#[derive(Clone, Debug, PartialEq, Eq)]
pub struct Example {
    pub line: usize,
    pub tokens: Vec<String>,
    pub answer: String,
}

/// The examples in a text: comments that stand alone on their line.
pub fn find(text: &str) -> Vec<Example> {
    text.lines().enumerate().filter_map(|(i, line)| example(i + 1, line)).collect()
}

fn example(line: usize, text: &str) -> Option<Example> {
    let comment = text.trim().strip_prefix('#')?.trim();
    let at = [comment.rfind("  gives "), comment.rfind("  refused ")].into_iter().flatten().max()?;
    let (tokens, answer) = (comment[..at].trim(), comment[at..].trim());
    let numbers = answer.split(' ').skip(1).step_by(2).all(|n| n.parse::<i64>().is_ok());
    if !numbers || tokens.is_empty() {
        return None;
    }
    let tokens = if tokens == "(no tokens)" { vec![] } else { tokens.split_whitespace().map(String::from).collect() };
    Some(Example { line, tokens, answer: answer.into() })
}

/// What the engine says of a segment: `gives V`, or `refused N after K`.
pub fn answer(built: &Built, words: &[String]) -> Result<String, String> {
    let tokens = run::tokens(&built.grammar, words)?;
    Ok(match run::run(&built.table, &tokens).answer {
        Ok(value) => format!("gives {value}"),
        Err(refusal) => format!("refused {} after {}", refusal.number(), refusal.count()),
    })
}

/// What is wrong with an example, with its line: `4: gives 3, not 2`.
pub fn wrong(built: &Built, example: &Example) -> Option<String> {
    let Example { line, tokens, answer: expected } = example;
    let shown = if tokens.is_empty() { "(no tokens)".into() } else { tokens.join(" ") };
    match answer(built, tokens) {
        Ok(found) if found == *expected => None,
        Ok(found) => Some(format!("{line}: {shown}: the example says `{expected}`, the engine `{found}`")),
        Err(words) => Some(format!("{line}: {words}")),
    }
}
