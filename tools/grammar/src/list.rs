//! The engine's listing of a grammar beside its rules and conditions.
use crate::print;
use crate::stacks::{conditions, rules};
use crate::Built;
use std::collections::HashMap;

/// The listing, production by production: each instruction, and the rule or condition that it comes from.
pub fn text(built: &Built) -> String {
    let g = &built.grammar;
    let mut text =
        String::from("Registers are counted from the top: r1 is the topmost. A adds registers for a symbol, E evaluates a rule,\n");
    text += "P tests a condition, R removes a production and its registers.\n";
    let mut seen: HashMap<(usize, String), usize> = HashMap::new();
    let mut last = None;
    for line in built.table.listing().lines() {
        let Some((p, rest)) = line.split_once(' ') else { continue };
        let p: usize = p.parse().unwrap_or(0);
        if last.replace(p) != Some(p) {
            let line = built.places.productions[p].span.line;
            text += &format!("\n{p}  {}   (line {line})\n", g.heading(&g.productions[p]));
        }
        let action = rest.split(' ').next().unwrap_or("").to_string();
        let count = seen.entry((p, action.clone())).or_insert(0);
        let source = source(built, p, &action, *count);
        *count += 1;
        text += format!("    {rest:24}{source}").trim_end();
        text.push('\n');
    }
    text
}

/// The rule, condition or symbol of an instruction: the so-manieth with its letter and position.
fn source(built: &Built, p: usize, action: &str, count: usize) -> String {
    let g = &built.grammar;
    let production = &g.productions[p];
    let (letter, position) = action.split_at(1);
    let position: usize = position.parse().unwrap_or(0);
    let item = |i: usize| print::item(g, production, &production.items[i]);
    match letter {
        "A" => g.name(production.symbol(position)).into(),
        "E" => rules(production, position).nth(count).map_or(String::new(), |(i, _)| item(i)),
        "P" => conditions(production, position).nth(count).map_or(String::new(), |(i, _)| item(i)),
        _ => String::new(),
    }
}
