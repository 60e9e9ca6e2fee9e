//! The stacks of a run as text: each register with the occurrence that it belongs to.
use super::grammar::{Grammar, WHOLE};
use engine::lent::MARK;
use engine::steps::State;
use std::io::{self, Write};
use std::ops::Range;

/// The lines of both stacks.
pub fn lines(out: &mut dyn Write, grammar: &Grammar, state: &State) -> io::Result<()> {
    write!(out, "        registers")?;
    let mut left = state.registers();
    let shown = shown(grammar, state);
    for (&place, awaited) in state.places().iter().zip(shown).rev() {
        left = place_registers(out, grammar, left, place as usize, awaited)?;
    }
    write!(out, "\n        places    ")?;
    state.places().iter().try_for_each(|place| write!(out, " {place}"))?;
    writeln!(out)
}

/// The synthesized attributes of the symbols that a place has passed.
fn passed(grammar: &Grammar, place: usize) -> usize {
    (1..=place % 256).map(|position| grammar.attributes(place / 256, position).synthesized).sum()
}

/// The attributes of the symbol that a place waits at.
fn awaited(grammar: &Grammar, place: usize) -> Range<usize> {
    if place % 256 < grammar.size(place / 256) {
        return 0..grammar.attributes(place / 256, place % 256 + 1).all();
    }
    0..0
}

/// Which attributes of the symbol at hand have registers, for each place. The places below the top wait and have all of them. At the
/// top the height tells: none before an add, the synthesized ones before a test, else all.
fn shown(grammar: &Grammar, state: &State) -> Vec<Range<usize>> {
    let mut shown: Vec<_> = state.places().iter().map(|&place| awaited(grammar, place as usize)).collect();
    let passed: usize = state.places().iter().map(|&place| passed(grammar, place as usize)).sum();
    if let Some((top, below)) = shown.split_last_mut() {
        let below: usize = below.iter().map(Range::len).sum();
        let held = state.registers().len().saturating_sub(passed + below);
        *top = if held == 0 { 0..0 } else { top.end.saturating_sub(held)..top.end };
    }
    shown
}

/// The registers of a place, from the top: the symbol at hand, then the symbols passed, the last first. Gives those below.
fn place_registers<'a>(
    out: &mut dyn Write,
    grammar: &Grammar,
    registers: &'a [i64],
    place: usize,
    awaited: Range<usize>,
) -> io::Result<&'a [i64]> {
    let (production, symbols) = (place / 256, place % 256);
    let at_hand = awaited.map(|attribute| (symbols + 1, attribute));
    let left = (1..=symbols).rev().flat_map(|position| {
        let attributes = grammar.attributes(production, position);
        (attributes.inherited..attributes.all()).map(move |attribute| (position, attribute))
    });
    let mut rest = registers;
    for (position, attribute) in at_hand.chain(left) {
        let Some((&value, below)) = rest.split_last() else { break };
        if rest.len() == registers.len() {
            write!(out, "  [{}]", name(production))?;
        }
        write!(out, " {position}.{}={}", attribute + 1, held(value))?;
        rest = below;
    }
    Ok(rest)
}

fn name(production: usize) -> String {
    if production == WHOLE {
        return "segment".into();
    }
    production.to_string()
}

fn held(value: i64) -> String {
    if value == MARK {
        return "mark".into();
    }
    value.to_string()
}
