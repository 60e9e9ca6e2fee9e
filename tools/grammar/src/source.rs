//! Places in a grammar's text, and faults shown there.

/// A stretch of one line: line and column are counted from 1, in characters.
#[derive(Clone, Copy, Debug, PartialEq, Eq, PartialOrd, Ord)]
pub struct Span {
    pub line: usize,
    pub column: usize,
    pub width: usize,
}

impl Span {
    /// From the start of this stretch to the end of a later one on its line.
    pub fn to(self, last: Span) -> Span {
        Span { width: last.column + last.width - self.column, ..self }
    }

    /// The place directly after this stretch.
    pub fn after(self) -> Span {
        Span { column: self.column + self.width, width: 1, ..self }
    }
}

/// What is wrong with a text, and where.
#[derive(Clone, Debug, PartialEq, Eq)]
pub struct Fault {
    pub span: Span,
    pub message: String,
}

pub fn fault<T>(span: Span, message: impl Into<String>) -> Result<T, Fault> {
    Err(Fault { span, message: message.into() })
}

/// The cells that a character takes on a terminal: two for wide ones, none for those that join the one before.
fn cells(c: char) -> usize {
    match c as u32 {
        0x300..=0x36f | 0x200b..=0x200d | 0xfe00..=0xfe0f => 0,
        0x1100..=0x115f | 0x2e80..=0xa4cf | 0xac00..=0xd7a3 | 0xf900..=0xfaff | 0xfe30..=0xfe6f | 0xff00..=0xff60 => 2,
        0xffe0..=0xffe6 | 0x1f300..=0x1faff | 0x20000..=0x3fffd => 2,
        _ => 1,
    }
}

/// A text without control characters: what is shown cannot move the cursor or change colours.
pub fn plain(text: &str) -> String {
    text.chars().map(|c| if c.is_control() && c != '\t' { '\u{fffd}' } else { c }).collect()
}

impl Fault {
    /// `FILE:LINE:COLUMN: message`, then the line and a caret under the place.
    pub fn show(&self, file: &str, text: &str) -> String {
        let Span { line, column, width } = self.span;
        let source = text.lines().nth(line - 1).unwrap_or("");
        let before = source.chars().take(column - 1);
        let lead: String = before.map(|c| if c == '\t' { "\t".into() } else { " ".repeat(cells(c)) }).collect();
        let under: usize = source.chars().skip(column - 1).take(width).map(cells).sum();
        let (message, source) = (plain(&self.message), plain(source));
        format!("{file}:{line}:{column}: {message}\n  {source}\n  {lead}{}", "^".repeat(under.max(1)))
    }
}

/// What is wrong with a text: one fault or more, in the order of the lines.
#[derive(Clone, Debug, PartialEq, Eq)]
pub struct Faults(Vec<Fault>);

/// So many faults are shown.
const SHOWN: usize = 20;

impl Faults {
    /// The faults found, if there are any. Of faults at one place the first is kept.
    pub fn of(mut found: Vec<Fault>) -> Option<Faults> {
        found.sort_by_key(|f| (f.span.line, f.span.column));
        found.dedup_by_key(|f| (f.span.line, f.span.column));
        (!found.is_empty()).then_some(Faults(found))
    }

    pub fn all(&self) -> &[Fault] {
        &self.0
    }

    pub fn first(&self) -> &Fault {
        &self.0[0]
    }

    /// The first 20, and how many more there are.
    pub fn show(&self, file: &str, text: &str) -> String {
        let mut shown: Vec<String> = self.0.iter().take(SHOWN).map(|f| f.show(file, text)).collect();
        if self.0.len() > SHOWN {
            shown.push(format!("{file}: {} more faults", self.0.len() - SHOWN));
        }
        shown.join("\n")
    }
}

impl From<Fault> for Faults {
    fn from(fault: Fault) -> Faults {
        Faults(vec![fault])
    }
}
