//! Whether two grammars are one for the engine: one table in house order. Names do not count.
use crate::model::Grammar;
use crate::print;
use crate::suggest::counted;
use crate::table::{self, Field, What};
use crate::Built;
use segment::{Refusal, Table};

/// A table in house order, and the names of what it says.
#[derive(Debug)]
pub struct House {
    pub table: Table,
    grammar: Grammar,
    fields: Vec<Field>,
}

impl House {
    /// Of a text, with its names.
    pub fn of_text(built: &Built) -> House {
        House::new(built.table.house_order(), Some(&built.grammar))
    }

    /// Of a table, with names that are made up.
    ///
    /// # Errors
    /// The table is refused.
    pub fn of_table(bytes: &[u8]) -> Result<House, Refusal> {
        Ok(House::new(Table::new(bytes)?.house_order(), None))
    }

    fn new(table: Table, named: Option<&Grammar>) -> House {
        let mut grammar = table::grammar(table.bytes());
        if let Some(named) = named {
            let productions = grammar.productions;
            grammar = Grammar { productions, ..named.clone() };
        }
        let (bytes, fields) = table::table(&grammar);
        assert_eq!(bytes, table.bytes(), "a table's text gives its bytes again");
        House { table, grammar, fields }
    }

    /// What a field says, as it is written in a text.
    fn words(&self, what: What) -> String {
        let g = &self.grammar;
        match what {
            What::Header => {
                let start = &g.parts[g.start];
                let result = start.attributes().nth(g.result - 1).map_or("?", |a| a);
                format!("{}, {}, start {}.{result}", counted(g.tokens.len(), "token"), counted(g.parts.len(), "part"), start.name)
            }
            What::Part(n) => print::part(&g.parts[n]),
            What::Token(t) => print::token(&g.tokens[t], &g.carried[t]),
            What::Production(p) => g.heading(&g.productions[p]),
            What::Item(p, i) => print::item(g, &g.productions[p], &g.productions[p].items[i]),
        }
    }

    /// The field with a number, and its bytes.
    fn field(&self, i: usize) -> Option<(What, &[u8])> {
        self.fields.get(i).map(|f| (f.what, &self.table.bytes()[f.offset..f.end]))
    }
}

/// Where two grammars differ first, and what each says there.
#[derive(Debug, PartialEq, Eq)]
pub struct Difference {
    pub place: String,
    pub one: String,
    pub other: String,
}

/// Fields in the order of a table: which comes first.
fn rank(what: What) -> (usize, usize) {
    match what {
        What::Header => (0, 0),
        What::Part(n) => (1, n),
        What::Token(t) => (2, t),
        What::Production(p) => (3 + p, 0),
        What::Item(p, _) => (3 + p, 1),
    }
}

/// The place of a field; a production by its number and its heading.
fn place(house: &House, what: What) -> String {
    match what {
        What::Header => "the header".into(),
        What::Part(n) => format!("part {n}"),
        What::Token(t) => format!("token {t}"),
        What::Production(p) => format!("production {p}"),
        What::Item(p, _) => format!("production {p}, `{}`", house.words(What::Production(p))),
    }
}

/// What a grammar says where another has a field that it has not.
fn without(house: &House, what: What) -> String {
    match what {
        What::Token(t) => print::token(&house.grammar.tokens[t], &None),
        What::Item(..) => "nothing more".into(),
        _ => format!("no {}", place(house, what)),
    }
}

/// The first field in which the tables differ; none where they are one.
pub fn difference(a: &House, b: &House) -> Option<Difference> {
    let i = (0..).find(|&i| a.field(i).map(|f| f.1) != b.field(i).map(|f| f.1) || a.field(i).is_none())?;
    let (x, y) = (a.field(i).map(|f| f.0), b.field(i).map(|f| f.0));
    let at = |what: Option<What>| what.map_or((usize::MAX, 0), rank);
    let first = if at(x) <= at(y) { (a, x?) } else { (b, y?) };
    let said = |house: &House, what: Option<What>| match what {
        Some(what) if rank(what) == rank(first.1) => house.words(what),
        _ => without(house, first.1),
    };
    Some(Difference { place: place(first.0, first.1), one: said(a, x), other: said(b, y) })
}
