//! A grammar as a table and back.
use crate::model::{Condition, Function, Grammar, Item, Occurrence, Part, Production, Symbol};

/// What a field of the table says.
#[derive(Clone, Copy, Debug, PartialEq, Eq)]
pub enum What {
    Header,
    Part(usize),
    /// A token carries a value.
    Token(usize),
    Production(usize),
    /// A rule or condition of a production.
    Item(usize, usize),
}

/// Where a field begins and ends.
#[derive(Clone, Copy, Debug)]
pub struct Field {
    pub offset: usize,
    pub end: usize,
    pub what: What,
}

#[derive(Default)]
struct Writer {
    bytes: Vec<u8>,
    fields: Vec<Field>,
}

impl Writer {
    fn field(&mut self, what: What, tag: u8, body: &[u8]) {
        let offset = self.bytes.len();
        self.bytes.push(tag);
        self.bytes.extend((body.len() as u16).to_be_bytes());
        self.bytes.extend(body);
        self.fields.push(Field { offset, end: self.bytes.len(), what });
    }
}

/// The table of a grammar, rules and conditions in the order they stand, and its fields.
pub fn table(g: &Grammar) -> (Vec<u8>, Vec<Field>) {
    let mut w = Writer::default();
    w.field(What::Header, 1, &[g.tokens.len() as u8, g.parts.len() as u8, g.start as u8, g.result as u8]);
    for (i, part) in g.parts.iter().enumerate() {
        w.field(What::Part(i), 2, &[part.takes.len() as u8, part.gives.len() as u8]);
    }
    for t in (0..g.tokens.len()).filter(|&t| g.carried[t].is_some()) {
        w.field(What::Token(t), 6, &[t as u8]);
    }
    for (i, p) in g.productions.iter().enumerate() {
        let mut body = vec![p.left as u8, p.right.len() as u8];
        body.extend(p.right.iter().map(|&s| symbol_byte(s)));
        w.field(What::Production(i), 3, &body);
        for (j, item) in p.items.iter().enumerate() {
            match item {
                Item::Rule(target, function) => w.field(What::Item(i, j), 4, &rule(target, function)),
                Item::Condition(c) => w.field(What::Item(i, j), 5, &condition(c)),
            }
        }
    }
    (w.bytes, w.fields)
}

fn symbol_byte(s: Symbol) -> u8 {
    match s {
        Symbol::Token(t) => t as u8,
        Symbol::Part(n) => 128 + n as u8,
    }
}

fn occurrence(body: &mut Vec<u8>, o: &Occurrence) {
    body.extend([o.position as u8, o.attribute as u8]);
}

fn rule(target: &Occurrence, function: &Function<Occurrence>) -> Vec<u8> {
    let (number, constant) = match function {
        Function::Const(c) => (0, Some(*c)),
        Function::Copy(_) => (1, None),
        Function::Sum(..) => (2, None),
        Function::Diff(..) => (3, None),
        Function::Prod(..) => (4, None),
        Function::Max(..) => (5, None),
        Function::Min(..) => (6, None),
        Function::AddC(_, c) => (7, Some(*c)),
        Function::Quot(_, c) => (8, Some(*c)),
    };
    let mut body = Vec::new();
    occurrence(&mut body, target);
    body.push(number);
    function.operands().into_iter().for_each(|o| occurrence(&mut body, o));
    body.extend(constant.map_or(vec![], |c| c.to_be_bytes().to_vec()));
    body
}

fn condition(c: &Condition<Occurrence>) -> Vec<u8> {
    let mut body = Vec::new();
    match c {
        Condition::Range(a, low, high) => {
            body.push(0);
            occurrence(&mut body, a);
            body.extend(low.to_be_bytes());
            body.extend(high.to_be_bytes());
        }
        Condition::AtMost(a, b, plus) => {
            body.push(1 + plus.is_some() as u8);
            occurrence(&mut body, a);
            occurrence(&mut body, b);
            body.extend(plus.map_or(vec![], |c| c.to_be_bytes().to_vec()));
        }
    }
    body
}

/// The grammar of an accepted table, with made-up names: tokens a, b, .., parts A, B, .., attributes i1, i2, .. and s1, s2, ..,
/// what a token carries v.
pub fn grammar(table: &[u8]) -> Grammar {
    let header = &table[3..7];
    let tokens: Vec<String> = (0..header[0]).map(|t| letters(t, b'a')).collect();
    let carried = vec![None; tokens.len()];
    let (start, result) = (header[2] as usize, header[3] as usize);
    let mut g = Grammar { tokens, carried, parts: vec![], start, whole: Symbol::Part(start), result, productions: vec![] };
    let mut at = 7;
    while at < table.len() {
        let end = at + 3 + u16::from_be_bytes([table[at + 1], table[at + 2]]) as usize;
        let b = &table[at + 3..end];
        match (table[at], g.productions.last_mut()) {
            (2, _) => g.parts.push(Part {
                name: letters(g.parts.len() as u8, b'A'),
                takes: (1..=b[0]).map(|a| format!("i{a}")).collect(),
                gives: (1..=b[1]).map(|a| format!("s{a}")).collect(),
            }),
            (6, _) => g.carried[b[0] as usize] = Some("v".into()),
            (4, Some(p)) => p.items.push(Item::Rule(occurrence_at(b, 0), function_of(b))),
            (5, Some(p)) => p.items.push(Item::Condition(condition_of(b))),
            _ => {
                g.productions.push(Production { left: b[0] as usize, right: b[2..].iter().map(|&s| symbol_of(s)).collect(), items: vec![] })
            }
        }
        at = end;
    }
    g
}

/// a to z (or A to Z), then aa, ab, ...
fn letters(n: u8, first: u8) -> String {
    let last = (first + n % 26) as char;
    if n < 26 {
        last.to_string()
    } else {
        format!("{}{last}", (first + n / 26 - 1) as char)
    }
}

fn symbol_of(byte: u8) -> Symbol {
    if byte < 128 {
        Symbol::Token(byte as usize)
    } else {
        Symbol::Part(byte as usize - 128)
    }
}

fn occurrence_at(b: &[u8], at: usize) -> Occurrence {
    Occurrence { position: b[at] as usize, attribute: b[at + 1] as usize }
}

fn constant_at(b: &[u8], at: usize) -> i32 {
    i32::from_be_bytes([b[at], b[at + 1], b[at + 2], b[at + 3]])
}

fn function_of(b: &[u8]) -> Function<Occurrence> {
    let a = || occurrence_at(b, 3);
    let c = || occurrence_at(b, 5);
    match b[2] {
        0 => Function::Const(constant_at(b, 3)),
        1 => Function::Copy(a()),
        2 => Function::Sum(a(), c()),
        3 => Function::Diff(a(), c()),
        4 => Function::Prod(a(), c()),
        5 => Function::Max(a(), c()),
        6 => Function::Min(a(), c()),
        7 => Function::AddC(a(), constant_at(b, 5)),
        _ => Function::Quot(a(), constant_at(b, 5)),
    }
}

fn condition_of(b: &[u8]) -> Condition<Occurrence> {
    if b[0] == 0 {
        return Condition::Range(occurrence_at(b, 1), constant_at(b, 3), constant_at(b, 7));
    }
    Condition::AtMost(occurrence_at(b, 1), occurrence_at(b, 3), (b[0] == 2).then(|| constant_at(b, 5)))
}
