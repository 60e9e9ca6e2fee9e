//! A grammar's names and their numbers, for programs: in C, in Rust and as JSON.
use crate::model::{Grammar, Symbol};
use crate::Built;
use std::fmt::Write;

/// The names in a language; none where the language is not known.
pub fn text(built: &Built, language: &str, name: &str, from: &str) -> Option<String> {
    let header = Header { g: &built.grammar, bytes: built.table.bytes(), sum: built.table.sum(), name, from };
    match language {
        "c" => Some(header.c()),
        "rust" => Some(header.rust()),
        "json" => Some(header.json()),
        _ => None,
    }
}

struct Header<'a> {
    g: &'a Grammar,
    bytes: &'a [u8],
    sum: u64,
    name: &'a str,
    from: &'a str,
}

/// A name in ASCII: other letters become `u` and their number.
fn ascii(name: &str) -> String {
    let mut text = String::new();
    for c in name.chars() {
        match c {
            'a'..='z' | 'A'..='Z' | '0'..='9' | '_' => text.push(c),
            c if c.is_alphanumeric() => text += &format!("u{:04X}", c as u32),
            _ => text.push('_'),
        }
    }
    if text.starts_with(|c: char| c.is_ascii_digit()) || text.is_empty() {
        text.insert(0, '_');
    }
    text
}

/// Names in capitals; those that capitals alone tell apart stay as they are written.
fn capitals(names: &[String]) -> Vec<String> {
    let all: Vec<String> = names.iter().map(|n| ascii(n).to_uppercase()).collect();
    let single = |i: usize| all.iter().filter(|n| **n == all[i]).count() == 1;
    (0..names.len()).map(|i| if single(i) { all[i].clone() } else { ascii(&names[i]) }).collect()
}

/// A text in quotation marks, as C, Rust and JSON read it.
fn quoted(text: &str) -> String {
    let mut quoted = String::from("\"");
    for c in text.chars() {
        match c {
            '"' | '\\' => quoted.extend(['\\', c]),
            c if c.is_control() => quoted.push(' '),
            c => quoted.push(c),
        }
    }
    quoted + "\""
}

impl Header<'_> {
    fn tokens(&self) -> Vec<(String, usize)> {
        capitals(&self.g.tokens).into_iter().zip(0..).collect()
    }

    fn parts(&self) -> Vec<(String, usize)> {
        let names: Vec<String> = self.g.parts.iter().map(|p| p.name.clone()).collect();
        capitals(&names).into_iter().zip(0..).collect()
    }

    /// Each part's attributes, numbered from 1, then those of the tokens that carry a value.
    fn attributes(&self) -> Vec<(String, usize)> {
        let parts = self.g.parts.iter();
        let of_parts = parts.clone().flat_map(|p| p.attributes().map(|a| format!("{}_{a}", p.name)));
        let of_tokens = self.carried().map(|(token, a)| format!("{token}_{a}"));
        let names: Vec<String> = of_parts.chain(of_tokens).collect();
        let numbers = parts.flat_map(|p| 1..=p.attributes().count()).chain(std::iter::repeat(1));
        capitals(&names).into_iter().zip(numbers).collect()
    }

    /// The tokens that carry a value, with their attributes.
    fn carried(&self) -> impl Iterator<Item = (&String, &String)> {
        self.g.tokens.iter().zip(&self.g.carried).filter_map(|(token, carried)| Some((token, carried.as_ref()?)))
    }

    fn c(&self) -> String {
        let (upper, lower) = (ascii(self.name).to_uppercase(), ascii(self.name).to_lowercase());
        let mut text =
            format!("/* The names of {} and their numbers, written by `grammar header --lang c`. */\n", self.from.replace("*/", "* /"));
        let _ = write!(text, "#ifndef {upper}_NAMES_H\n#define {upper}_NAMES_H\n\n#include \"segment.h\"\n\n");
        let _ = writeln!(text, "#define {upper}_TABLE_LENGTH {}", self.bytes.len());
        let _ = writeln!(text, "#define {upper}_TABLE_SUM UINT64_C(0x{:016x})\n", self.sum);
        for (kind, names) in [("TOKEN", self.tokens()), ("PART", self.parts()), ("ATTRIBUTE", self.attributes())] {
            let rows: Vec<String> = names.iter().map(|(name, n)| format!("    {upper}_{kind}_{name} = {n}")).collect();
            let _ = writeln!(text, "enum {lower}_{} {{\n{}\n}};\n", kind.to_lowercase(), rows.join(",\n"));
        }
        let names: Vec<String> = self.g.tokens.iter().map(|n| format!("    {}", quoted(n))).collect();
        let _ = writeln!(text, "/* The tokens by number, as the grammar writes them. */");
        let _ = writeln!(text, "#define {upper}_TOKENS {}", names.len());
        let _ = writeln!(text, "#define {upper}_TOKEN_NAMES \\\n    {{ \\\n    {} \\\n    }}\n", names.join(", \\\n    "));
        let _ = writeln!(text, "/* Whether a table is the one that these names belong to: ask before a run is opened. */");
        let _ = writeln!(text, "SEGMENT_INLINE int {lower}_is_table(const uint8_t *table, size_t table_length) {{");
        let _ = writeln!(text, "    return table_length == {upper}_TABLE_LENGTH && segment_sum(table, table_length) == {upper}_TABLE_SUM;");
        text + "}\n\n#endif\n"
    }

    fn rust(&self) -> String {
        let mut text = format!("//! The names of {} and their numbers, written by `grammar header --lang rust`.\n", self.from);
        text += "#![allow(dead_code, non_upper_case_globals)]\n\n";
        let _ = writeln!(text, "/// The sum of the table that these names belong to: `segment::Table::with_sum` asks for it.");
        let _ = writeln!(text, "pub const TABLE_SUM: u64 = 0x{:016x};\n", self.sum);
        let _ = writeln!(text, "/// The tokens by number, as the grammar writes them.");
        let names: Vec<String> = self.g.tokens.iter().map(|n| quoted(n)).collect();
        let _ = writeln!(text, "pub const TOKENS: [&str; {}] = [{}];\n", names.len(), names.join(", "));
        for (module, words, names) in [
            ("token", "Tokens.", self.tokens()),
            ("part", "Parts (nonterminals).", self.parts()),
            ("attribute", "The attributes of each part, counted from 1, and of the tokens that carry a value.", self.attributes()),
        ] {
            let rows: Vec<String> = names.iter().map(|(name, n)| format!("    pub const {name}: u8 = {n};\n")).collect();
            let _ = writeln!(text, "/// {words}\npub mod {module} {{\n{}}}\n", rows.concat());
        }
        text.trim_end().to_string() + "\n"
    }

    fn json(&self) -> String {
        let list = |names: &mut dyn Iterator<Item = String>| names.collect::<Vec<_>>().join(", ");
        let (g, quote) = (self.g, |n: &String| quoted(n));
        let parts = g.parts.iter().map(|p| {
            let (takes, gives) = (list(&mut p.takes.iter().map(quote)), list(&mut p.gives.iter().map(quote)));
            format!("    {{\"name\": {}, \"takes\": [{takes}], \"gives\": [{gives}]}}", quoted(&p.name))
        });
        let productions = g.productions.iter().map(|p| {
            let right = list(&mut p.right.iter().map(|&s| quoted(g.name(s))));
            format!("    {{\"left\": {}, \"right\": [{right}]}}", quoted(g.name(Symbol::Part(p.left))))
        });
        let result = quoted(g.attribute(g.whole, g.result));
        format!(
            "{{\n  \"grammar\": {},\n  \"table\": {{\"length\": {}, \"sum\": \"{:016x}\"}},\n  \"start\": {},\n  \"result\": {result},\n  \
             \"tokens\": [{}],\n  \"carried\": {{{}}},\n  \"parts\": [\n{}\n  ],\n  \"productions\": [\n{}\n  ]\n}}\n",
            quoted(self.from),
            self.bytes.len(),
            self.sum,
            quoted(g.name(g.whole)),
            list(&mut g.tokens.iter().map(quote)),
            list(&mut self.carried().map(|(token, a)| format!("{}: {}", quoted(token), quoted(a)))),
            parts.collect::<Vec<_>>().join(",\n"),
            productions.collect::<Vec<_>>().join(",\n"),
        )
    }
}
