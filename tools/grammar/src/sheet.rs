//! Tree sheets: a record for each node of a segment's tree, read with the names of a grammar.
use crate::model::{Item, Occurrence, Production, Symbol};
use crate::run::Token;
use crate::stacks::{holds, result, LIMIT};
use crate::suggest::{counted, grouped};
use crate::{print, Built};
use segment::lent::SHEET_STACK;

/// The most nodes on a way down from the root, which counts.
const DEPTH: usize = 1023;

/// A node: its production, tokens before and covered, the values of its part, and what is below it.
#[derive(Clone, Debug, PartialEq, Eq)]
pub struct Node {
    pub production: usize,
    pub before: usize,
    pub covered: usize,
    pub values: Vec<i64>,
    pub children: Vec<Child>,
}

#[derive(Clone, Debug, PartialEq, Eq)]
pub enum Child {
    /// A token of the segment, by its number.
    Token(usize),
    /// A node, by the number of its record.
    Node(usize),
}

/// The nodes of a sheet, in the order of their records; the first is the root.
pub type Tree = Vec<Node>;

/// A sheet as a tree, or the first thing in it that is wrong, in words.
pub fn read(built: &Built, tokens: &[Token], sheet: &[u8]) -> Result<Tree, String> {
    let mut reader = Reader { built, tokens, sheet, at: 0, tree: vec![] };
    let end = reader.node(built.grammar.start, 0, 1)?;
    if end < tokens.len() {
        return Err(format!("the tree ends before token {}, `{}`", end + 1, tokens[end].written(&built.grammar)));
    }
    if reader.at < sheet.len() {
        return Err(format!("{} after the tree", counted(sheet.len() - reader.at, "byte")));
    }
    Ok(reader.tree)
}

/// Does something on a thread with the stack that sheets need.
pub fn deep<T: Send>(work: impl FnOnce() -> T + Send) -> T {
    std::thread::scope(|scope| {
        let thread = std::thread::Builder::new().stack_size(SHEET_STACK).spawn_scoped(scope, work).expect("a thread");
        thread.join().unwrap_or_else(|panic| std::panic::resume_unwind(panic))
    })
}

struct Reader<'a> {
    built: &'a Built,
    tokens: &'a [Token],
    sheet: &'a [u8],
    at: usize,
    tree: Tree,
}

impl Reader<'_> {
    fn word(&mut self) -> Option<usize> {
        let bytes = self.sheet.get(self.at..self.at + 4)?;
        self.at += 4;
        Some(u32::from_be_bytes(bytes.try_into().ok()?) as usize)
    }

    fn long(&mut self) -> Option<i64> {
        let bytes = self.sheet.get(self.at..self.at + 8)?;
        self.at += 8;
        Some(i64::from_be_bytes(bytes.try_into().ok()?))
    }

    /// The next record, of a part whose tokens begin at one: its number.
    fn record(&mut self, part: usize, from: usize) -> Result<usize, String> {
        let (number, begins) = (self.tree.len(), self.at);
        let g = &self.built.grammar;
        let wrong = |words: String| format!("record {}, at byte {begins}: {words}", number + 1);
        let name = &g.parts[part].name;
        let cut = || wrong(format!("the sheet is over in the record of `{name}`"));
        let [production, before, covered] = [self.word(), self.word(), self.word()].map(|word| word.ok_or_else(cut));
        let (production, before, covered) = (production?, before?, covered?);
        match g.productions.get(production) {
            None => return Err(wrong(format!("there is no production {production}"))),
            Some(p) if p.left != part => {
                return Err(wrong(format!("production {production} is `{}`, and a `{name}` stands here", g.heading(p))))
            }
            Some(_) if before != from => return Err(wrong(format!("{} before it, not {before}", counted(from, "token")))),
            Some(_) => {}
        }
        let values = (0..g.parts[part].attributes().count()).map(|_| self.long()).collect::<Option<Vec<i64>>>().ok_or_else(cut)?;
        let outside = g.parts[part].attributes().zip(&values).find(|(_, &v)| i128::from(v).abs() > LIMIT);
        if let Some((attribute, v)) = outside {
            return Err(wrong(format!("{attribute} is {v}, outside -1,000,000,000,000 to 1,000,000,000,000")));
        }
        self.tree.push(Node { production, before, covered, values, children: vec![] });
        Ok(number)
    }

    /// A node of a part, whose tokens begin at one: the token after it.
    fn node(&mut self, part: usize, from: usize, depth: usize) -> Result<usize, String> {
        let number = self.record(part, from)?;
        if depth > DEPTH {
            return Err(format!("record {} is more than {} nodes deep", number + 1, grouped(DEPTH as u64)));
        }
        let mut end = from;
        for k in 0..self.production(number).right.len() {
            let child = match self.production(number).right[k] {
                Symbol::Token(kind) => {
                    self.token(number, kind, end)?;
                    end += 1;
                    Child::Token(end - 1)
                }
                Symbol::Part(below) => {
                    let child = self.tree.len();
                    end = self.node(below, end, depth + 1)?;
                    Child::Node(child)
                }
            };
            self.tree[number].children.push(child);
        }
        self.left(number, end - from)?;
        Ok(end)
    }

    fn production(&self, node: usize) -> &Production {
        &self.built.grammar.productions[self.tree[node].production]
    }

    fn wrong(&self, node: usize, words: String) -> String {
        format!("record {}, `{}`: {words}", node + 1, self.built.grammar.heading(self.production(node)))
    }

    fn token(&self, node: usize, kind: usize, at: usize) -> Result<(), String> {
        let g = &self.built.grammar;
        match self.tokens.get(at) {
            Some(token) if usize::from(token.kind) == kind => Ok(()),
            Some(token) => Err(self.wrong(node, format!("token {} is `{}`, not `{}`", at + 1, token.written(g), g.tokens[kind]))),
            None => Err(self.wrong(node, format!("the segment is over where `{}` stands", g.tokens[kind]))),
        }
    }

    /// The value of an occurrence in a node's production.
    fn value(&self, node: usize, o: Occurrence) -> Option<i64> {
        let node = &self.tree[node];
        match o.position {
            0 => node.values.get(o.attribute - 1).copied(),
            k => match node.children.get(k - 1)? {
                Child::Token(t) => Some(self.tokens.get(*t)?.value.into()),
                Child::Node(n) => self.tree[*n].values.get(o.attribute - 1).copied(),
            },
        }
    }

    /// What is to hold of a node once all below it is read: the tokens covered, its rules and its conditions.
    fn left(&self, node: usize, covered: usize) -> Result<(), String> {
        let said = self.tree[node].covered;
        if said != covered {
            return Err(self.wrong(node, format!("{} covered, not {said}", counted(covered, "token"))));
        }
        let (g, p) = (&self.built.grammar, self.production(node));
        let value = |o: Occurrence| self.value(node, o);
        for (i, item) in p.items.iter().enumerate() {
            let line = self.built.places.productions[self.tree[node].production].items[i].span.line;
            let told =
                |kind: &str, words: String| self.wrong(node, format!("the {kind} `{}` on line {line} {words}", print::item(g, p, item)));
            match item {
                Item::Rule(target, f) => match (result(f, value), value(*target)) {
                    (Some(exact), Some(found)) if exact == i128::from(found) => {}
                    (exact, found) => {
                        let (exact, found) = (exact.unwrap_or_default(), found.unwrap_or_default());
                        return Err(told("rule", format!("gives {exact}, and {} is {found}", g.label(p, *target))));
                    }
                },
                Item::Condition(c) if holds(c, value) == Some(true) => {}
                Item::Condition(_) => {
                    let reads = item.reads().into_iter().map(|&o| format!("{} is {}", g.label(p, o), value(o).unwrap_or_default()));
                    return Err(told("condition", format!("is false: {}", reads.collect::<Vec<_>>().join(", "))));
                }
            }
        }
        Ok(())
    }
}
