//! A teaching model of the machine, which can be run with a slip that is seen in class. Without a slip it makes the engine's moves (the
//! tests compare); with one it shows what would happen. It decides nothing: what really happens is told by the engine.
use crate::model::{Condition, Grammar, Item, Occurrence, Symbol};
use crate::run::Token;
use crate::stacks::{conditions, holds, result, right, rules, Place, Stacks, LIMIT, WHOLE};
use crate::story::kind_name;
use crate::Built;
use plain::judge::Analysis;
use segment::steps::Kind;

/// The five slips of docs/CLASSROOM.md.
#[derive(Clone, Copy, Debug, PartialEq, Eq)]
pub enum Slip {
    /// Registers are counted from the bottom.
    BottomFirst,
    /// After a false condition another alternative is tried.
    TriesAnother,
    /// What may follow an empty part matters only at the end.
    FollowAtEnd,
    /// A long clause is only slower.
    NoLimits,
    /// A value is written before the height is tested.
    WritesFirst,
}

/// A move of the model, and the stacks after it, both from the bottom.
#[derive(Clone, Debug, PartialEq, Eq)]
pub struct Frame {
    pub kind: Kind,
    pub words: String,
    pub registers: Vec<Option<i64>>,
    pub places: Vec<u32>,
    /// The token that the move is made for.
    pub token: usize,
}

/// How the model ends: the value, or a number, 0 for a mark that is read, and words.
pub type End = Result<i64, (u32, String)>;

/// How far the top place is with the symbol that it waits at.
#[derive(Clone, Copy, Debug, PartialEq, Eq)]
enum Phase {
    /// Nothing is done for it.
    Fresh,
    /// Its registers are added.
    Added,
    /// They are evaluated, or there is nothing to evaluate.
    Ready,
    /// It is over; its conditions are not tested yet.
    Done,
    /// All symbols are passed, and the left side is evaluated.
    Left,
}

/// What is kept for another try: the stacks as they were, and the alternatives not taken.
#[derive(Clone)]
struct Choice {
    registers: Vec<Option<i64>>,
    places: Vec<Place>,
    index: usize,
    others: Vec<usize>,
}

struct Model<'b> {
    built: &'b Built,
    tokens: &'b [Token],
    slip: Option<Slip>,
    /// The registers and places lent.
    room: (usize, usize),
    starts: Vec<u64>,
    registers: Vec<Option<i64>>,
    places: Vec<Place>,
    phase: Phase,
    index: usize,
    token: usize,
    choices: Vec<Choice>,
    /// A refusal that the slip finds too late.
    late: Option<(u32, String)>,
    frames: Vec<Frame>,
}

/// So many moves are made at most.
const MOVES: usize = 20_000;

/// The moves of the model and how it ends.
pub fn run(built: &Built, tokens: &[Token], slip: Option<Slip>, room: (usize, usize)) -> (Vec<Frame>, End) {
    let g = &built.grammar;
    let mut model = Model {
        built,
        tokens,
        slip,
        room,
        starts: starts(built, slip),
        registers: vec![None; g.counts(g.whole).1],
        places: vec![Place { production: WHOLE, passed: 0 }],
        phase: Phase::Ready,
        index: 0,
        token: 0,
        choices: vec![],
        late: None,
        frames: vec![],
    };
    loop {
        if let Some(end) = model.step() {
            return (model.frames, end);
        }
    }
}

/// FIRST-then-FOLLOW of each production; with the slip an empty right side has only the end for what may follow.
fn starts(built: &Built, slip: Option<Slip>) -> Vec<u64> {
    let Ok(outline) = plain::table::read(built.table.bytes()) else { return vec![] };
    let mut analysis = Analysis::new(&outline);
    analysis.find_nullable();
    let right = analysis.starts().starts.to_vec();
    if slip != Some(Slip::FollowAtEnd) {
        return right;
    }
    let g = &built.grammar;
    let empty = g.productions.iter().map(|p| p.right.is_empty());
    right.into_iter().zip(empty).map(|(set, empty)| if empty { 1 << 63 } else { set }).collect()
}

fn refused(number: u32, words: impl Into<String>) -> Option<End> {
    Some(Err((number, words.into())))
}

impl<'b> Model<'b> {
    fn grammar(&self) -> &'b Grammar {
        &self.built.grammar
    }

    fn top(&self) -> Place {
        self.places[self.places.len() - 1]
    }

    fn numbers(&self) -> Vec<u32> {
        self.places.iter().map(|p| p.number() as u32).collect()
    }

    fn moved(&mut self, kind: Kind, words: String) {
        if matches!(kind, Kind::Predict | Kind::Read) {
            self.token = self.index;
        }
        let (registers, places) = (self.registers.clone(), self.numbers());
        self.frames.push(Frame { kind, words: format!("{}  {words}", kind_name(kind)), registers, places, token: self.token });
    }

    /// One move, or how it ends.
    fn step(&mut self) -> Option<End> {
        let (top, g) = (self.top(), self.grammar());
        if self.frames.len() > MOVES {
            return refused(35, "the model stops here");
        }
        if let Some((number, words)) = self.late.take_if(|_| self.phase == Phase::Ready) {
            return refused(number, words);
        }
        match right(g, top.production).get(top.passed) {
            None if top.production == WHOLE => self.value(),
            None => self.leave(top),
            Some(Symbol::Token(_)) if self.phase == Phase::Done => self.test(top),
            Some(Symbol::Token(t)) => self.read(*t),
            Some(Symbol::Part(n)) => self.part(*n, top),
        }
    }

    fn value(&self) -> Option<End> {
        if self.index < self.tokens.len() {
            return refused(21, "the segment is already complete");
        }
        let g = self.grammar();
        let result = Occurrence { position: 1, attribute: g.result };
        Some(self.get(0, result).ok_or((0, "the result is still the mark".into())))
    }

    /// Reads the expected token; one that carries a value adds its register.
    fn read(&mut self, expected: usize) -> Option<End> {
        let g = self.grammar();
        let token = match self.tokens.get(self.index) {
            None => return refused(24, format!("expected `{}`", g.tokens[expected])),
            Some(t) if usize::from(t.kind) != expected => return refused(21, format!("expected `{}`", g.tokens[expected])),
            Some(t) => *t,
        };
        if g.carried[expected].is_some() {
            if let Some(end) = self.lacks_registers(1) {
                return Some(end);
            }
            self.registers.push(Some(token.value.into()));
        }
        self.leave_symbol();
        self.moved(Kind::Read, token.written(g));
        self.index += 1;
        None
    }

    /// The symbol that the top place waits at is over: it is passed, unless conditions are to be tested.
    fn leave_symbol(&mut self) {
        let (g, top) = (self.grammar(), self.top());
        if g.productions.get(top.production).is_some_and(|p| conditions(p, top.passed + 1).next().is_some()) {
            self.phase = Phase::Done;
        } else {
            self.pass();
        }
        if self.late.is_some() {
            self.phase = Phase::Ready;
        }
    }

    /// The top place goes past its symbol.
    fn pass(&mut self) {
        let last = self.places.len() - 1;
        self.places[last].passed += 1;
        self.phase = Phase::Fresh;
    }

    fn part(&mut self, n: usize, top: Place) -> Option<End> {
        let (takes, gives) = self.grammar().counts(Symbol::Part(n));
        match self.phase {
            Phase::Fresh if takes + gives > 0 => self.add(takes + gives),
            Phase::Fresh => self.set_phase(Phase::Ready),
            Phase::Added if takes > 0 => self.evaluate(top.passed + 1, Phase::Ready),
            Phase::Added => self.set_phase(Phase::Ready),
            Phase::Done => self.test(top),
            Phase::Ready | Phase::Left => self.predict(n),
        }
    }

    fn set_phase(&mut self, phase: Phase) -> Option<End> {
        self.phase = phase;
        None
    }

    /// How it ends where so many registers more are not lent; a slip goes on, or finds it late.
    fn lacks_registers(&mut self, n: usize) -> Option<End> {
        if self.registers.len() + n > self.room.0 && self.slip != Some(Slip::NoLimits) {
            let words = format!("only {} registers are lent", self.room.0);
            if self.slip != Some(Slip::WritesFirst) {
                return refused(31, words);
            }
            self.late = Some((31, format!("{words}, and what is above them is written over")));
        }
        None
    }

    fn add(&mut self, n: usize) -> Option<End> {
        if let Some(end) = self.lacks_registers(n) {
            return Some(end);
        }
        self.registers.extend(std::iter::repeat_n(None, n));
        self.phase = Phase::Added;
        self.moved(Kind::Add, format!("{n} registers"));
        None
    }

    /// The cell that holds an occurrence of the production at a place, counted from the bottom.
    fn cell(&self, place: usize, o: Occurrence) -> Option<usize> {
        let stacks = Stacks::new(self.grammar(), &self.registers, &self.numbers());
        let number = stacks.cell(place, o)?.number;
        match self.slip {
            Some(Slip::BottomFirst) => Some(number - 1),
            _ => Some(self.registers.len() - number),
        }
    }

    fn get(&self, place: usize, o: Occurrence) -> Option<i64> {
        self.registers[self.cell(place, o)?]
    }

    fn evaluate(&mut self, position: usize, then: Phase) -> Option<End> {
        let (top, place) = (self.top(), self.places.len() - 1);
        let production = &self.grammar().productions[top.production];
        let (mut cells, mut words) = (Vec::new(), Vec::new());
        for (_, item) in rules(production, position) {
            let Item::Rule(target, function) = item else { continue };
            let text = crate::print::item(self.grammar(), production, item);
            match (result(function, |o| self.get(place, o)), self.cell(place, *target)) {
                (Some(v), _) if v.abs() > LIMIT => return refused(23, format!("{text} gives {v}")),
                (Some(v), Some(cell)) => cells.push((cell, v as i64)),
                _ => return refused(0, format!("{text} reads a mark, which is no number")),
            }
            words.push(format!("{text}: {}", cells[cells.len() - 1].1));
        }
        self.phase = then;
        if cells.is_empty() {
            return None;
        }
        cells.into_iter().for_each(|(cell, value)| self.registers[cell] = Some(value));
        self.moved(Kind::Evaluate, words.join("; "));
        None
    }

    fn all_hold(&self, p: usize, position: usize, place: usize) -> bool {
        let check = |c: &Condition<Occurrence>| holds(c, |o| self.get(place, o)) == Some(true);
        conditions(&self.grammar().productions[p], position).all(|(_, c)| check(c))
    }

    fn test(&mut self, top: Place) -> Option<End> {
        if !self.all_hold(top.production, top.passed + 1, self.places.len() - 1) {
            return self.again("a condition is false");
        }
        self.pass();
        self.moved(Kind::Test, "the conditions hold".into());
        None
    }

    /// Where a condition is false the run is over; with the slip the last choice is made anew.
    fn again(&mut self, words: &str) -> Option<End> {
        let choice = self.choices.last_mut().filter(|_| self.slip == Some(Slip::TriesAnother));
        let Some(choice) = choice else { return refused(22, words) };
        let (p, back) = (choice.others.remove(0), choice.clone());
        if choice.others.is_empty() {
            self.choices.pop();
        }
        (self.registers, self.places, self.index) = (back.registers, back.places, back.index);
        self.push(p, "back, and another alternative: ")
    }

    fn predict(&mut self, n: usize) -> Option<End> {
        let look = self.tokens.get(self.index).map_or(63, |t| usize::from(t.kind));
        let all = (0..self.grammar().productions.len()).filter(|&p| self.grammar().productions[p].left == n);
        let may: Vec<usize> = all.filter(|&p| self.starts[p] >> look & 1 == 1).collect();
        if may.is_empty() {
            return refused(if look == 63 { 24 } else { 21 }, "no alternative's set holds it");
        }
        let Some(&p) = may.iter().find(|&&p| self.all_hold(p, 0, self.places.len())) else {
            return self.again("no alternative has its entry conditions met");
        };
        let others: Vec<usize> = may.into_iter().filter(|&q| q != p).collect();
        if !others.is_empty() {
            let (registers, places) = (self.registers.clone(), self.places.clone());
            self.choices.push(Choice { registers, places, index: self.index, others });
        }
        self.push(p, "")
    }

    fn push(&mut self, p: usize, lead: &str) -> Option<End> {
        if self.places.len() == self.room.1 && self.slip != Some(Slip::NoLimits) {
            let words = format!("only {} places are lent", self.room.1);
            if self.slip != Some(Slip::WritesFirst) {
                return refused(32, words);
            }
            self.late = Some((32, format!("{words}, and what is above them is written over")));
        }
        self.places.push(Place { production: p, passed: 0 });
        self.phase = if self.late.is_some() { Phase::Ready } else { Phase::Fresh };
        self.moved(Kind::Predict, format!("{lead}{}", self.grammar().heading(&self.grammar().productions[p])));
        None
    }

    /// All symbols are passed: the left side is evaluated, then the production removed, with what its part takes.
    fn leave(&mut self, top: Place) -> Option<End> {
        let g = self.grammar();
        let production = &g.productions[top.production];
        if self.phase != Phase::Left {
            return self.evaluate(0, Phase::Left);
        }
        let own: usize = production.right.iter().map(|&s| g.counts(s).1).sum();
        let takes = g.counts(Symbol::Part(production.left)).0;
        self.registers.truncate(self.registers.len() - own - takes);
        self.places.pop();
        self.leave_symbol();
        self.moved(Kind::Remove, g.heading(production));
        None
    }
}
