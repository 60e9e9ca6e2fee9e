//! Grammars in a readable text form, turned into tables of the segment engine and back. docs/GRAMMARS.md describes the form.
pub mod cli;
pub mod cost;
pub mod draw;
pub mod examples;
pub mod exercises;
pub mod explain;
pub mod fmt;
pub mod header;
mod lex;
pub mod list;
pub mod model;
pub mod page;
mod parse;
pub mod print;
pub mod resolve;
pub mod run;
pub mod same;
pub mod sheet;
pub mod slips;
pub mod source;
pub mod stacks;
pub mod story;
pub mod suggest;
pub mod table;
pub mod trace;

use explain::Judged;
use model::Grammar;
use resolve::Places;
use segment::{Refusal, Table};
use source::Faults;

/// A grammar, where it stands in its text, and its table.
#[derive(Debug)]
pub struct Built {
    pub grammar: Grammar,
    pub places: Places,
    pub table: Table,
}

/// The grammar of a text and its table, which the proved engine accepts; or what is wrong, and where.
pub fn to_table(text: &str) -> Result<Built, Faults> {
    let (grammar, places) = resolve::grammar(text)?;
    let (bytes, fields) = table::table(&grammar);
    match Table::new(bytes.clone()) {
        Ok(table) => Ok(Built { grammar, places, table }),
        Err(refusal) => {
            let judged = Judged { grammar: &grammar, places: &places, table: &bytes, fields: &fields };
            Err(judged.explain(refusal))
        }
    }
}

/// The text of a table that the proved engine accepts, with made-up names.
pub fn to_text(table: &[u8]) -> Result<String, Refusal> {
    segment::check(table)?;
    Ok(print::text(&table::grammar(table)))
}
