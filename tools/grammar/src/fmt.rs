//! A grammar's text laid out: one form for each statement; comments and the order of lines stay.
use crate::lex::{lexemes, Kind, Lexeme};
use crate::parse::{statement, Statement};
use crate::source::{Fault, Faults};

/// The text laid out. Statements of a production are indented by four; a comment behind a statement stays in its column if it can;
/// blank lines stand singly, and none at the end.
pub fn laid_out(text: &str) -> Result<String, Faults> {
    let mut faults = Vec::new();
    let mut lines: Vec<String> = Vec::new();
    for (i, line) in text.lines().enumerate() {
        match laid_line(line, i + 1) {
            Err(fault) => faults.push(fault),
            Ok(line) if line.is_empty() && lines.last().is_none_or(String::is_empty) => {}
            Ok(line) => lines.push(line),
        }
    }
    while lines.last().is_some_and(String::is_empty) {
        lines.pop();
    }
    match Faults::of(faults) {
        None => Ok(lines.iter().map(|line| format!("{line}\n")).collect()),
        Some(faults) => Err(faults),
    }
}

fn laid_line(line: &str, number: usize) -> Result<String, Fault> {
    let found = lexemes(line, number)?;
    let comment = line.find('#').map(|at| line[at..].trim_end());
    if found.is_empty() {
        let lead: String = line.chars().take_while(|c| c.is_whitespace()).map(|c| if c == '\t' { "    " } else { " " }).collect();
        return Ok(comment.map_or(String::new(), |comment| format!("{lead}{comment}")));
    }
    let indent = if matches!(statement(&found)?, Statement::Item(_)) { "    " } else { "" };
    let laid = format!("{indent}{}", joined(&found));
    let Some(comment) = comment else { return Ok(laid) };
    let column = line[..line.find('#').unwrap_or(0)].chars().map(|c| if c == '\t' { 4 } else { 1 }).sum::<usize>();
    let gap = column.saturating_sub(laid.chars().count()).max(2);
    Ok(format!("{laid}{}{comment}", " ".repeat(gap)))
}

/// A statement's lexemes with the spaces that belong between them.
fn joined(line: &[Lexeme]) -> String {
    let mut text = String::new();
    for (i, lexeme) in line.iter().enumerate() {
        let before = i.checked_sub(1).map(|k| &line[k].kind);
        if before.is_some() && !is_joined(line, i) {
            text.push(' ');
        }
        match &lexeme.kind {
            Kind::Name(name) => text += name,
            Kind::Number(number) => text += &number.to_string(),
            Kind::Mark(mark) => text += mark,
        }
    }
    text
}

/// Whether a lexeme follows the one before without a space.
fn is_joined(line: &[Lexeme], i: usize) -> bool {
    let (before, here) = (&line[i - 1].kind, &line[i].kind);
    let is_value = |kind: &Kind| matches!(kind, Kind::Name(_) | Kind::Number(_) | Kind::Mark(")"));
    // A minus that stands before a number and not behind a value is its sign.
    let sign = *before == Kind::Mark("-") && !(i >= 2 && is_value(&line[i - 2].kind));
    matches!(here, Kind::Mark(":" | "," | "." | "(" | ")")) || matches!(before, Kind::Mark("(" | ".")) || sign
}
