//! A line of text as names, numbers and marks.
use crate::source::{fault, Fault, Span};

#[derive(Clone, Debug, PartialEq, Eq)]
pub enum Kind {
    Name(String),
    Number(i64),
    Mark(&'static str),
}

#[derive(Clone, Debug)]
pub struct Lexeme {
    pub kind: Kind,
    pub span: Span,
}

const MARKS: [&str; 12] = ["->", "<=", "(", ")", ",", ".", ":", "=", "+", "-", "*", "/"];

/// Marks of other languages, and what is written here.
const FOREIGN: [(&str, &str); 10] = [
    ("==", "equal is written with `<=`: `2 <= d <= 2`, or `a <= b` and `b <= a`"),
    ("!=", "there is no `not equal`: give each side of it an alternative of its own, with a range"),
    ("<>", "there is no `not equal`: give each side of it an alternative of its own, with a range"),
    (":=", "a rule is written with `=`"),
    (">=", "write the smaller side first, with `<=`"),
    ("=>", "what a part gives is written with `->`, a production with `:`"),
    ("<", "conditions are written with `<=`; how strictly less is written stands under \"Ways of writing\" in docs/GRAMMARS.md"),
    (">", "write the smaller side first, with `<=`"),
    (";", "a line has one statement and needs no mark at its end"),
    ("|", "each alternative is a production of its own"),
];

/// The names in a line, whatever else stands in it.
pub fn names(text: &str) -> Vec<String> {
    let is_name = |c: char| c.is_alphabetic() || c.is_ascii_digit() || c == '_';
    let line = text.split('#').next().unwrap_or("");
    line.split(|c: char| !is_name(c)).filter(|w| !w.is_empty()).map(String::from).collect()
}

/// The line's lexemes; a `#` and what follows it is a comment.
pub fn lexemes(text: &str, line: usize) -> Result<Vec<Lexeme>, Fault> {
    let chars: Vec<char> = text.chars().take_while(|&c| c != '#').collect();
    let mut found = Vec::new();
    let mut at = 0;
    while at < chars.len() {
        if chars[at].is_whitespace() {
            at += 1;
            continue;
        }
        let (kind, width) = lexeme(&chars[at..], Span { line, column: at + 1, width: 1 })?;
        found.push(Lexeme { kind, span: Span { line, column: at + 1, width } });
        at += width;
    }
    Ok(found)
}

/// The first lexeme and how many characters it has.
fn lexeme(chars: &[char], at: Span) -> Result<(Kind, usize), Fault> {
    let run = |ok: fn(char) -> bool| -> String { chars.iter().copied().take_while(|&c| ok(c)).collect() };
    if chars[0].is_ascii_digit() {
        let digits = run(|c| c.is_ascii_digit());
        let span = Span { width: digits.len(), ..at };
        return match digits.parse() {
            Ok(n) => Ok((Kind::Number(n), digits.len())),
            Err(_) => too_large(&digits, span),
        };
    }
    if chars[0].is_alphabetic() || chars[0] == '_' {
        let name = run(|c| c.is_alphabetic() || c.is_ascii_digit() || c == '_');
        let width = name.chars().count();
        return Ok((Kind::Name(name), width));
    }
    let stands = |m: &str| m.chars().eq(chars.iter().copied().take(m.len()));
    let mark = MARKS.iter().find(|m| stands(m));
    match (FOREIGN.iter().find(|(m, _)| stands(m)), mark) {
        (Some((foreign, words)), mark) if mark.is_none_or(|m| m.len() < foreign.len()) => {
            fault(Span { width: foreign.len(), ..at }, format!("`{foreign}` has no meaning here: {words}"))
        }
        (_, Some(mark)) => Ok((Kind::Mark(mark), mark.len())),
        _ => fault(at, format!("the character `{}` has no meaning here", chars[0])),
    }
}

pub fn too_large<T>(number: &str, span: Span) -> Result<T, Fault> {
    fault(span, format!("the number {number} does not fit: numbers run from -2147483648 to 2147483647"))
}
