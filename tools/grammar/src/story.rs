//! A run told move by move with a grammar's names. The moves are the proved engine's: `segment::steps`.
use crate::model::{Condition, Function, Item, Occurrence, Production};
use crate::print;
use crate::run::{lists, Token};
use crate::stacks::{conditions, holds, rules, Place, Stacks};
use crate::Built;
use segment::lent::{MARK, PLACES, REGISTERS};
use segment::steps::{self, Input, Kind, State};
use segment::{Refusal, TokenSet};

/// A move, with the stacks after it.
#[derive(Clone, Debug)]
pub struct Move<'b> {
    pub number: u64,
    pub kind: Kind,
    /// The place that it works on: the top before the move, or the one that it pushed.
    pub place: Place,
    /// What it does, in words: the production, the registers added, each rule or condition with its registers, values and result.
    pub words: Vec<String>,
    pub stacks: Stacks<'b>,
    /// The numbers of the registers that it changed or added.
    pub changed: Vec<usize>,
}

/// What comes next in a run.
#[derive(Clone, Debug)]
pub enum Event<'b> {
    /// The token with this index comes, or the end.
    Coming(usize),
    Moved(Box<Move<'b>>),
    Value(i64),
    Refused(u32),
}

/// A run on its way.
pub struct Story<'b> {
    built: &'b Built,
    tokens: &'b [Token],
    run: steps::Run<'b>,
    index: usize,
    brought: bool,
    over: bool,
}

/// The name of a kind of moves.
pub fn kind_name(kind: Kind) -> &'static str {
    match kind {
        Kind::Predict => "predict",
        Kind::Add => "add",
        Kind::Evaluate => "evaluate",
        Kind::Read => "read",
        Kind::Test => "test",
        Kind::Remove => "remove",
    }
}

impl<'b> Story<'b> {
    /// Opens a run and feeds the tokens before the one with this number, counted from 1. Where one of them is refused, the story begins
    /// at the last that was read.
    pub fn open(built: &'b Built, tokens: &'b [Token], from: usize) -> Result<Story<'b>, Refusal> {
        Story::open_in(built, tokens, from, (REGISTERS, PLACES))
    }

    /// The same with so many registers and places.
    pub fn open_in(built: &'b Built, tokens: &'b [Token], from: usize, room: (usize, usize)) -> Result<Story<'b>, Refusal> {
        let mut run = steps::Run::open(built.table.bytes(), room.0, room.1)?;
        let (kinds, values) = lists(&tokens[..from.clamp(1, tokens.len() + 1) - 1]);
        let index = run.skip(&kinds, &values);
        Ok(Story { built, tokens, run, index, brought: false, over: false })
    }

    /// The stacks as they stand.
    pub fn stacks(&self) -> Stacks<'b> {
        stacks(self.built, &self.run.now)
    }

    /// The moves made so far, and the tokens read.
    pub fn counts(&self) -> (u64, u64) {
        (self.run.now.record.moves, self.run.now.record.tokens)
    }

    /// The tokens that may come next, with this value to try for each of them; it is asked where one is coming.
    pub fn may_follow(&mut self, value: i32) -> TokenSet {
        self.run.may_follow(value)
    }

    fn made(&self, made: steps::Move, before: &Stacks<'b>) -> Move<'b> {
        let stacks = self.stacks();
        let place = if made.kind == Kind::Predict { *stacks.places.last().unwrap_or(&Place::of(0)) } else { Place::of(made.place) };
        let changed = changed(before, &stacks);
        let words = Words { built: self.built, stacks: &stacks, place }.of(made.kind, &changed, self.run.input);
        Move { number: self.run.now.record.moves, kind: made.kind, place, words, stacks, changed }
    }
}

impl<'b> Iterator for Story<'b> {
    type Item = Event<'b>;

    fn next(&mut self) -> Option<Event<'b>> {
        if self.over || self.index > self.tokens.len() {
            return None;
        }
        if !self.brought {
            self.brought = true;
            self.run.bring(self.tokens.get(self.index).map_or(Input::End, |t| Input::Token(t.kind, t.value)));
            return Some(Event::Coming(self.index));
        }
        let before = self.stacks();
        match self.run.step() {
            steps::Step::Moved(made) => Some(Event::Moved(Box::new(self.made(made, &before)))),
            steps::Step::More => {
                (self.brought, self.index) = (false, self.index + 1);
                self.next()
            }
            steps::Step::Value(value) => {
                self.over = true;
                Some(Event::Value(value))
            }
            steps::Step::Refused(number) => {
                self.over = true;
                Some(Event::Refused(number))
            }
        }
    }
}

fn stacks<'b>(built: &'b Built, state: &State) -> Stacks<'b> {
    let registers: Vec<Option<i64>> = state.registers().iter().map(|&v| (v != MARK).then_some(v)).collect();
    Stacks::new(&built.grammar, &registers, state.places())
}

/// The registers, by their numbers after a move, that differ from those before: counted from the bottom the cells are the same.
fn changed(before: &Stacks, after: &Stacks) -> Vec<usize> {
    let old = |number: usize| {
        let from_bottom = after.cells.len() - number;
        before.cells.len().checked_sub(from_bottom + 1).map(|i| before.cells[i].value)
    };
    after.cells.iter().filter(|c| old(c.number) != Some(c.value)).map(|c| c.number).collect()
}

/// What a move does, in words, by the stacks after it.
struct Words<'a> {
    built: &'a Built,
    stacks: &'a Stacks<'a>,
    place: Place,
}

impl Words<'_> {
    fn of(&self, kind: Kind, changed: &[usize], input: Input) -> Vec<String> {
        let depth = self.stacks.places.len();
        let Some(production) = self.built.grammar.productions.get(self.place.production) else { return vec![self.whole(kind, changed)] };
        match kind {
            Kind::Predict => {
                let entry = conditions(production, 0).map(|(_, c)| self.condition(production, c, depth - 1));
                std::iter::once(self.built.grammar.heading(production)).chain(entry).collect()
            }
            Kind::Add => vec![self.added(changed)],
            Kind::Evaluate => {
                let position = if self.place.passed < production.right.len() { self.place.passed + 1 } else { 0 };
                rules(production, position).map(|(_, item)| self.rule(production, item)).collect()
            }
            Kind::Read => vec![self.token(input)],
            Kind::Test => {
                let tested = conditions(production, self.place.passed + 1);
                tested.map(|(_, c)| self.condition(production, c, depth - 1)).collect()
            }
            Kind::Remove => vec![self.built.grammar.heading(production)],
        }
    }

    /// A move of the whole segment, which has no rules.
    fn whole(&self, kind: Kind, changed: &[usize]) -> String {
        if kind == Kind::Add {
            return self.added(changed);
        }
        "the whole segment".into()
    }

    fn token(&self, input: Input) -> String {
        match input {
            Input::Token(kind, value) => Token { kind, value }.written(&self.built.grammar),
            Input::End => "the end".into(),
        }
    }

    fn added(&self, changed: &[usize]) -> String {
        let cells = self.stacks.cells.iter().filter(|c| changed.contains(&c.number));
        let names: Vec<String> = cells.map(|c| format!("r{} for {}", c.number, self.stacks.name(c))).collect();
        names.join(", ")
    }

    /// A register's number and value, as text.
    fn cell(&self, place: usize, o: Occurrence) -> (String, String) {
        match self.stacks.cell(place, o) {
            Some(cell) => (format!("r{}", cell.number), cell.value.map_or("mark".into(), |v| v.to_string())),
            None => ("?".into(), "?".into()),
        }
    }

    /// `L.d = d + 1: r1 = r3 + 1 = 0 + 1 = 1`
    fn rule(&self, production: &Production, item: &Item<Occurrence>) -> String {
        let place = self.stacks.places.len() - 1;
        let Item::Rule(target, function) = item else { return String::new() };
        let text = print::item(&self.built.grammar, production, item);
        let (register, result) = self.cell(place, *target);
        let mut steps = vec![register];
        steps.push(print::function(&function.each(&mut |o| self.cell(place, *o).0)));
        if !matches!(function, Function::Const(_) | Function::Copy(_)) {
            steps.push(print::function(&function.each(&mut |o| self.cell(place, *o).1)));
        }
        if !matches!(function, Function::Const(_)) {
            steps.push(result);
        }
        format!("{text}: {}", steps.join(" = "))
    }

    /// `0 <= d <= 2: 0 <= r1 <= 2: 0 <= 1 <= 2 holds`
    fn condition(&self, production: &Production, c: &Condition<Occurrence>, place: usize) -> String {
        condition(self.built, self.stacks, production, c, place)
    }
}

/// A condition of the production at a place, with its registers, its values and whether it holds.
pub fn condition(built: &Built, stacks: &Stacks, production: &Production, c: &Condition<Occurrence>, place: usize) -> String {
    let text = print::item(&built.grammar, production, &Item::Condition(c.clone()));
    let register = |o: &Occurrence| stacks.cell(place, *o).map_or("?".into(), |c| format!("r{}", c.number));
    let value = |o: &Occurrence| stacks.value(place, *o).map_or("?".into(), |v| v.to_string());
    let verdict = match holds(c, |o| stacks.value(place, o)) {
        Some(true) => "holds",
        Some(false) => "is false",
        None => "is not known",
    };
    let (registers, values) = (print::condition(&c.each(&mut |o| register(o))), print::condition(&c.each(&mut |o| value(o))));
    format!("{text}: {registers}: {values} {verdict}")
}
