//! A text as a grammar: names are looked up, numbers given, and each line's place kept.
use crate::lex::{lexemes, names};
use crate::model::{Grammar, Item, Occurrence, Part, Production, Symbol};
use crate::parse::{statement, Reference, Statement, Word};
use crate::source::{fault, Fault, Faults, Span};
use crate::suggest::{hint, nearest};
use std::collections::{HashMap, HashSet};

/// Where in the text each part of a grammar stands.
#[derive(Clone, Debug)]
pub struct Places {
    pub tokens: Vec<Span>,
    pub parts: Vec<Span>,
    pub start: Span,
    pub productions: Vec<ProductionPlace>,
    /// The end of the text.
    pub end: Span,
}

#[derive(Clone, Debug)]
pub struct ProductionPlace {
    pub span: Span,
    pub items: Vec<ItemPlace>,
}

/// A rule or condition, and the occurrences in it as they are written.
#[derive(Clone, Debug)]
pub struct ItemPlace {
    pub span: Span,
    pub item: Item<Span>,
}

/// The grammar of a text, with the places of its parts; or every fault that can be told from the lines one by one.
pub fn grammar(text: &str) -> Result<(Grammar, Places), Faults> {
    let mut told = Told::default();
    let mut lines = Vec::new();
    let mut end = Span { line: 1, column: 1, width: 1 };
    for (i, line) in text.lines().enumerate() {
        end = Span { line: i + 1, column: line.chars().count() + 1, width: 1 };
        match read_line(line, i + 1) {
            Ok(None) => {}
            Ok(Some((span, statement))) => lines.push(Line::Whole(span, statement)),
            Err(fault) => {
                lines.push(Line::Broken { production: begins_production(line) });
                told.excused.extend(names(line));
                told.faults.push(fault);
            }
        }
    }
    let names = Names::collect(&lines, end, &mut told);
    let found = names.productions(&lines, end, &mut told);
    match Faults::of(told.faults) {
        None => Ok(found),
        Some(faults) => Err(faults),
    }
}

/// A line of the text: a statement, or something that is none.
enum Line {
    Whole(Span, Statement),
    Broken { production: bool },
}

fn read_line(line: &str, number: usize) -> Result<Option<(Span, Statement)>, Fault> {
    let found = lexemes(line, number)?;
    match (found.first(), found.last()) {
        (Some(first), Some(last)) => Ok(Some((first.span.to(last.span), statement(&found)?))),
        _ => Ok(None),
    }
}

/// Whether a line that is no statement was to be a production: what follows belongs to it.
fn begins_production(line: &str) -> bool {
    let declares = ["token", "part", "start"].iter().any(|word| line.trim_start().starts_with(word));
    let line = line.split('#').next().unwrap_or("");
    !declares && (line.contains(": ") || line.trim_end().ends_with(':') || line.contains("->"))
}

/// The faults found so far, and the names in lines that are no statements: what is said of them may follow from such a line.
#[derive(Default)]
struct Told {
    faults: Vec<Fault>,
    excused: HashSet<String>,
}

impl Told {
    /// Keeps a fault, unless it follows from a line that is told already: then its message is empty.
    fn keep<T>(&mut self, found: Result<T, Fault>) -> Option<T> {
        match found {
            Ok(found) => return Some(found),
            Err(fault) if fault.message.is_empty() => {}
            Err(fault) => self.faults.push(fault),
        }
        None
    }
}

/// What the declarations say.
struct Names {
    tokens: Vec<Word>,
    carried: Vec<Option<String>>,
    parts: Vec<(Word, Part)>,
    symbols: HashMap<String, Symbol>,
    start: (Span, usize, usize),
    excused: HashSet<String>,
}

fn distinct(words: &[Word]) -> Result<(), Fault> {
    for (i, w) in words.iter().enumerate() {
        if words[..i].iter().any(|v| v.text == w.text) {
            return fault(w.span, format!("the attribute `{}` is named twice", w.text));
        }
    }
    Ok(())
}

fn at_most(words: &[Word], limit: usize, what: &str) -> Result<(), Fault> {
    match words.get(limit) {
        Some(w) => fault(w.span, format!("more than {limit} {what} cannot be written into a table")),
        None => Ok(()),
    }
}

fn texts(words: &[Word]) -> Vec<String> {
    words.iter().map(|w| w.text.clone()).collect()
}

fn listed<'a>(names: impl Iterator<Item = &'a String>) -> String {
    let all: Vec<String> = names.map(|n| format!("`{n}`")).collect();
    if all.is_empty() {
        "none".into()
    } else {
        all.join(", ")
    }
}

impl Names {
    fn collect(lines: &[Line], end: Span, told: &mut Told) -> Names {
        let excused = told.excused.clone();
        let mut names = Names { tokens: vec![], carried: vec![], parts: vec![], symbols: HashMap::new(), start: (end, 0, 0), excused };
        let mut starts = Vec::new();
        for line in lines {
            let Line::Whole(span, line) = line else { continue };
            match line {
                Statement::Tokens { names: words, carried } => names.declare_tokens(words, carried.as_ref(), told),
                Statement::Part { name, takes, gives } => {
                    let found = names.declare_part(name, takes, gives);
                    told.keep(found);
                }
                Statement::Start { part, result } => starts.push((*span, part, result)),
                _ => {}
            }
        }
        let start = names.find_start(&starts, end);
        names.start = told.keep(start).unwrap_or((end, 0, 0));
        names
    }

    fn find_start(&self, starts: &[(Span, &Word, &Word)], end: Span) -> Result<(Span, usize, usize), Fault> {
        let Some((span, part, result)) = starts.first() else {
            let meant = self.excused.iter().any(|w| w == "start" || nearest(w, ["start"]).is_some());
            return fault(end, if meant { "" } else { "the text has no line `start PART.ATTRIBUTE`" });
        };
        if let Some((again, _, _)) = starts.get(1) {
            return fault(*again, format!("a second start; the first is on line {}", span.line));
        }
        let n = self.part_number(part)?;
        Ok((*span, n, self.attribute_number(Symbol::Part(n), result)?))
    }

    /// Declares a name; one whose attributes can be read does not end in a digit.
    fn declare(&mut self, name: &Word, symbol: Symbol, whose: Option<&str>) -> Result<(), Fault> {
        if let Some(whose) = whose.filter(|_| name.text.ends_with(|c: char| c.is_ascii_digit())) {
            return fault(name.span, format!("`{}` ends in a digit; at the end of {whose}'s name digits count occurrences", name.text));
        }
        if let Some(&before) = self.symbols.get(&name.text) {
            let line = match before {
                Symbol::Token(t) => self.tokens[t].span.line,
                Symbol::Part(n) => self.parts[n].0.span.line,
            };
            return fault(name.span, format!("`{}` is declared a second time; the first is on line {line}", name.text));
        }
        self.symbols.insert(name.text.clone(), symbol);
        Ok(())
    }

    fn declare_tokens(&mut self, words: &[Word], carried: Option<&Word>, told: &mut Told) {
        for w in words {
            let found = self.declare(w, Symbol::Token(self.tokens.len()), carried.map(|_| "such a token"));
            if told.keep(found).is_some() {
                self.tokens.push(w.clone());
                self.carried.push(carried.map(|attribute| attribute.text.clone()));
            }
        }
        told.keep(at_most(&self.tokens, 255, "tokens"));
    }

    fn declare_part(&mut self, name: &Word, takes: &[Word], gives: &[Word]) -> Result<(), Fault> {
        let all: Vec<Word> = takes.iter().chain(gives).cloned().collect();
        distinct(&all)?;
        at_most(&all, 255, "attributes")?;
        self.declare(name, Symbol::Part(self.parts.len()), Some("a part"))?;
        self.parts.push((name.clone(), Part { name: name.text.clone(), takes: texts(takes), gives: texts(gives) }));
        match self.parts.get(128) {
            Some((w, _)) => fault(w.span, "more than 128 parts cannot be written into a table"),
            None => Ok(()),
        }
    }

    /// Words about a name, or none where the name stands in a line that is told already.
    fn unless_excused(&self, w: &Word, words: String) -> String {
        if self.excused.contains(&w.text) {
            return String::new();
        }
        words
    }

    fn symbol(&self, w: &Word) -> Result<Symbol, Fault> {
        if let Some(&s) = self.symbols.get(&w.text) {
            return Ok(s);
        }
        let hint = hint(&w.text, self.symbols.keys().map(String::as_str));
        fault(w.span, self.unless_excused(w, format!("`{}` is not declared as a token or a part{hint}", w.text)))
    }

    fn part_number(&self, w: &Word) -> Result<usize, Fault> {
        match self.symbol(w)? {
            Symbol::Part(n) => Ok(n),
            Symbol::Token(_) => fault(w.span, format!("`{}` is a token; a part is expected here", w.text)),
        }
    }

    fn attributes(&self, symbol: Symbol) -> Vec<&String> {
        match symbol {
            Symbol::Token(t) => self.carried[t].iter().collect(),
            Symbol::Part(n) => self.parts[n].1.attributes().collect(),
        }
    }

    fn attribute_number(&self, symbol: Symbol, w: &Word) -> Result<usize, Fault> {
        let all = self.attributes(symbol);
        match all.iter().position(|a| **a == w.text) {
            Some(i) => Ok(i + 1),
            None => {
                let (has, hint) = (listed(all.iter().copied()), hint(&w.text, all.iter().map(|a| a.as_str())));
                fault(w.span, format!("`{}` has no attribute `{}`; its attributes: {has}{hint}", self.symbol_name(symbol), w.text))
            }
        }
    }

    fn symbol_name(&self, s: Symbol) -> &str {
        match s {
            Symbol::Token(t) => &self.tokens[t].text,
            Symbol::Part(n) => &self.parts[n].1.name,
        }
    }

    /// Where a symbol with this name stands on the right side.
    fn places(&self, p: &Production, name: &str) -> Vec<usize> {
        (1..=p.right.len()).filter(|&k| self.symbol_name(p.right[k - 1]) == name).collect()
    }

    /// The position on the right side that a name, or a name and a number, stands for.
    fn position(&self, p: &Production, w: &Word) -> Result<usize, Fault> {
        let is_token = matches!(self.symbols.get(&w.text), Some(Symbol::Token(t)) if self.carried[*t].is_none());
        let name = w.text.trim_end_matches(|c: char| c.is_ascii_digit());
        let (exact, found) = (self.places(p, &w.text), self.places(p, name));
        match exact[..] {
            [k] if !is_token => return Ok(k),
            [_, _, ..] if !is_token => {
                return fault(w.span, format!("`{0}` stands several times on the right side: write `{0}1`, `{0}2`", w.text))
            }
            _ => {}
        }
        let number = w.text[name.len()..].parse::<usize>().unwrap_or(0);
        if number >= 1 && number <= found.len() {
            return Ok(found[number - 1]);
        }
        if let Some(&k) = exact.first() {
            return Ok(k);
        }
        fault(w.span, self.unless_excused(w, self.not_there(p, w, name, found.len())))
    }

    /// Why a name does not stand for a symbol on the right side, where `name`, without its number, stands so many times.
    fn not_there(&self, p: &Production, w: &Word, name: &str, times: usize) -> String {
        if times > 0 {
            let times = if times == 1 { "once".into() } else { format!("{times} times") };
            return format!("there is no `{}`: `{name}` stands {times} on the right side", w.text);
        }
        let own = name == self.symbol_name(Symbol::Part(p.left));
        let hint = hint(name, p.right.iter().map(|&s| self.symbol_name(s)));
        let hint = if own { "; the left side's attributes are written without it".into() } else { hint };
        format!("`{}` does not stand on the right side{hint}", w.text)
    }

    fn occurrence(&self, p: &Production, r: &Reference) -> Result<Occurrence, Fault> {
        let position = match &r.symbol {
            None => 0,
            Some(w) => self.position(p, w)?,
        };
        match p.symbol(position) {
            Symbol::Token(t) if self.carried[t].is_none() => {
                let name = &self.tokens[t].text;
                fault(r.span(), format!("`{name}` is a token and carries no value; one that does is declared `token {name} -> ..`"))
            }
            symbol => Ok(Occurrence { position, attribute: self.attribute_number(symbol, &r.attribute)? }),
        }
    }

    fn production(&self, left: &Word, right: &[Word]) -> Result<Production, Fault> {
        at_most(right, 255, "symbols of a right side")?;
        let left = self.part_number(left)?;
        let right = right.iter().map(|w| self.symbol(w)).collect::<Result<_, _>>()?;
        Ok(Production { left, right, items: vec![] })
    }

    fn productions(self, lines: &[Line], end: Span, told: &mut Told) -> (Grammar, Places) {
        let mut found: Vec<(Production, ProductionPlace)> = Vec::new();
        // Whether what comes belongs to the last production, to one that is told already, or to none.
        let (mut open, mut broken) = (false, false);
        for line in lines {
            match line {
                Line::Broken { production: true } => (open, broken) = (false, true),
                Line::Whole(span, Statement::Production { left, right }) => {
                    let production = told.keep(self.production(left, right));
                    (open, broken) = (production.is_some(), production.is_none());
                    found.extend(production.map(|p| (p, ProductionPlace { span: *span, items: vec![] })));
                }
                Line::Whole(span, Statement::Item(item)) if open => {
                    if let Some((p, place)) = found.last_mut() {
                        let found = told.keep(item.map(&mut |r| self.occurrence(p, r)));
                        p.items.extend(found);
                        place.items.extend(item.map(&mut |r| Ok::<_, Fault>(r.span())).map(|item| ItemPlace { span: *span, item }));
                    }
                }
                Line::Whole(span, Statement::Item(_)) if !broken => {
                    told.keep::<()>(fault(*span, "a rule or condition stands after the production it belongs to"));
                }
                _ => {}
            }
        }
        let (productions, places) = found.into_iter().unzip();
        self.gathered(productions, places, end)
    }

    fn gathered(self, productions: Vec<Production>, places: Vec<ProductionPlace>, end: Span) -> (Grammar, Places) {
        let places = Places {
            tokens: self.tokens.iter().map(|w| w.span).collect(),
            parts: self.parts.iter().map(|(w, _)| w.span).collect(),
            start: self.start.0,
            productions: places,
            end,
        };
        let (_, start, result) = self.start;
        let tokens = texts(&self.tokens);
        let parts = self.parts.into_iter().map(|(_, part)| part).collect();
        (Grammar { tokens, carried: self.carried, parts, start, whole: Symbol::Part(start), result, productions }, places)
    }
}
