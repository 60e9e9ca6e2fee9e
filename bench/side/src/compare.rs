//! The answers of the engines beside each other, before anything is measured.
use crate::engine::{Answer, Engine, Memory};
use crate::workloads::{Work, Workload};

/// What a call leaves: its answer and all cells.
pub struct Left {
    call: String,
    pub answer: Answer,
    memory: Memory,
}

/// The calls of a workload on memory that is the same for each engine.
pub fn calls(engine: &Engine, w: &Workload) -> Vec<Left> {
    let (t, mut m) = (&w.table, Memory::new(w.lent));
    let mut made = Vec::new();
    let mut keep = |call: &str, answer, m: &Memory| made.push(Left { call: call.to_string(), answer, memory: m.clone() });
    keep("check", engine.check(t), &m);
    if w.work == Work::Judge {
        return made;
    }
    keep("open", engine.open(t, &mut m), &m);
    if w.work == Work::Build {
        return made;
    }
    let piece = if w.work == Work::Single { 1 } else { w.tokens.len().max(1) };
    keep("empty feed", engine.feed(t, &mut m, &[], &[]), &m);
    for (tokens, values) in w.tokens.chunks(piece).zip(w.values.chunks(piece)) {
        keep("feed", engine.feed(t, &mut m, tokens, values), &m);
    }
    keep("empty feed behind it", engine.feed(t, &mut m, &[], &[]), &m);
    if w.work == Work::Finish || w.work == Work::Feed {
        keep("finish", engine.finish(t, &mut m), &m);
    }
    made
}

/// The first difference but for program words, and whether these are alike.
pub fn difference(ours: &[Left], theirs: &[Left]) -> (Option<String>, bool) {
    let mut programs_alike = true;
    for (a, b) in ours.iter().zip(theirs) {
        let (x, y) = (&a.memory, &b.memory);
        let parts = [
            ("answer", a.answer == b.answer),
            ("record", x.record == y.record),
            ("registers", x.registers == y.registers),
            ("places", x.places == y.places),
        ];
        if let Some((part, _)) = parts.iter().find(|(_, alike)| !alike) {
            return (Some(format!("{}: another {part}, answers {:?} and {:?}", a.call, a.answer, b.answer)), programs_alike);
        }
        programs_alike &= x.program == y.program;
    }
    (None, programs_alike)
}

/// The moves of a workload's feeds: what its last feed counts, less what the empty one before them counts.
pub fn moves(made: &[Left]) -> u64 {
    let count = |call: &str| made.iter().rfind(|l| l.call == call).map_or(0, |l| l.answer.2);
    count("feed") - count("empty feed").min(count("feed"))
}
