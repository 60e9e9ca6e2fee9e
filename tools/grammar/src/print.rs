//! A grammar as text.
use crate::model::{Condition, Function, Grammar, Item, Part, Production};

/// The text of a grammar: reading it gives the grammar again.
pub fn text(g: &Grammar) -> String {
    let mut lines: Vec<String> = g.tokens.iter().zip(&g.carried).map(|(t, carried)| token(t, carried)).collect();
    lines.push(String::new());
    lines.extend(g.parts.iter().map(part));
    let start = &g.parts[g.start];
    let result = start.attributes().nth(g.result - 1).map_or("?", |a| a);
    lines.push(format!("\nstart {}.{result}", start.name));
    for p in &g.productions {
        lines.push(format!("\n{}", g.heading(p)));
        lines.extend(p.items.iter().map(|i| format!("    {}", item(g, p, i))));
    }
    lines.join("\n") + "\n"
}

/// A token's line.
pub fn token(name: &str, carried: &Option<String>) -> String {
    let carried = carried.as_ref().map_or(String::new(), |attribute| format!(" -> {attribute}"));
    format!("token {name}{carried}")
}

/// A part's line.
pub fn part(p: &Part) -> String {
    let takes = if p.takes.is_empty() { String::new() } else { format!("({})", p.takes.join(", ")) };
    let gives = if p.gives.is_empty() { String::new() } else { format!(" -> {}", p.gives.join(", ")) };
    format!("part {}{takes}{gives}", p.name)
}

/// A rule or condition as it is written.
pub fn item(g: &Grammar, p: &Production, item: &Item<crate::model::Occurrence>) -> String {
    let item = item.map(&mut |&o| Ok::<_, std::convert::Infallible>(g.label(p, o)));
    match item.unwrap_or_else(|never| match never {}) {
        Item::Rule(target, f) => format!("{target} = {}", function(&f)),
        Item::Condition(c) => condition(&c),
    }
}

/// A condition with its operands as they are given.
pub fn condition(c: &Condition<String>) -> String {
    match c {
        Condition::Range(a, low, high) => format!("{low} <= {a} <= {high}"),
        Condition::AtMost(a, b, None) => format!("{a} <= {b}"),
        Condition::AtMost(a, b, Some(c)) => format!("{a} <= {}", function(&Function::AddC(b.clone(), *c))),
    }
}

/// A function with its operands as they are given.
pub fn function(f: &Function<String>) -> String {
    match f {
        Function::Const(c) => c.to_string(),
        Function::Copy(a) => a.clone(),
        Function::Sum(a, b) => format!("{a} + {b}"),
        Function::Diff(a, b) => format!("{a} - {b}"),
        Function::Prod(a, b) => format!("{a} * {b}"),
        Function::Max(a, b) => format!("max({a}, {b})"),
        Function::Min(a, b) => format!("min({a}, {b})"),
        Function::AddC(a, c) if *c < 0 => format!("{a} - {}", c.unsigned_abs()),
        Function::AddC(a, c) => format!("{a} + {c}"),
        Function::Quot(a, c) => format!("{a} / {c}"),
    }
}
