//! A run made one move at a time, by the engine's own calls.
//!
//! 01: "35 a token after 65,535, or a move after 4,294,967,295". A call that is brought a record with so many moves that m are left
//! makes its first m moves and then refuses with 35, "earlier ones stand": its stacks are those after m moves. So the call for a token,
//! or for the end, is made with one move left, then from the same beginning with two left, and so on.
use crate::lent::{self, Memory, Record, Stopped, MARK, PROGRAM};
use crate::{Refusal, TokenSet, MOVES};
use alloc::vec;
use alloc::vec::Vec;

/// A record and its stacks.
#[derive(Clone)]
pub struct State {
    /// The record; its moves are all those since the opening.
    pub record: Record,
    registers: Vec<i64>,
    places: Vec<u32>,
}

impl State {
    /// The registers in use, from the bottom.
    #[must_use]
    pub fn registers(&self) -> &[i64] {
        &self.registers[..self.record.registers as usize]
    }

    /// The places in use, from the bottom.
    #[must_use]
    pub fn places(&self) -> &[u32] {
        &self.places[..self.record.places as usize]
    }

    /// The top place.
    #[must_use]
    pub fn top(&self) -> u32 {
        self.places().last().copied().unwrap_or(0)
    }
}

/// What is brought to a call.
#[derive(Clone, Copy, Debug, PartialEq, Eq)]
pub enum Input {
    /// A token: its kind and its value.
    Token(u8, i32),
    /// The end of the segment.
    End,
}

/// The kinds of moves.
#[derive(Clone, Copy, Debug, PartialEq, Eq)]
pub enum Kind {
    /// A production is chosen; its place is pushed.
    Predict,
    /// The registers of the symbol at hand are added.
    Add,
    /// The rules of a position are evaluated.
    Evaluate,
    /// A token is read; one that carries a value adds its register.
    Read,
    /// The conditions of a position are tested, and hold.
    Test,
    /// A production is done; its place and registers are removed.
    Remove,
}

/// A move: what it was, and the top place before it.
#[derive(Clone, Copy, Debug, PartialEq, Eq)]
pub struct Move {
    /// What was done.
    pub kind: Kind,
    /// The top place before the move.
    pub place: u32,
}

/// What a step comes to: another move, or how the call ends.
#[derive(Clone, Copy, Debug, PartialEq, Eq)]
pub enum Step {
    /// A move was made.
    Moved(Move),
    /// The token was read, and no move is left.
    More,
    /// The segment's value.
    Value(i64),
    /// The call is refused, with this number.
    Refused(u32),
}

/// A run on its way.
pub struct Run<'a> {
    table: &'a [u8],
    program: Vec<u32>,
    /// What is brought.
    pub input: Input,
    /// A state that calls can start from, and the moves made since.
    start: State,
    made: u64,
    /// The state after these moves; its record counts all moves since the opening.
    pub now: State,
}

impl Run<'_> {
    /// Opens a run with room for so many registers and places.
    ///
    /// # Errors
    /// 1 to 13: the table is refused. 31, 32: an opening needs more room.
    pub fn open(table: &[u8], registers: usize, places: usize) -> Result<Run<'_>, Refusal> {
        let start = State { record: Record::default(), registers: vec![MARK; registers], places: vec![0; places] };
        let mut run = Run { table, program: vec![0; PROGRAM], input: Input::End, start: start.clone(), made: 0, now: start };
        run.reopen()?;
        Ok(run)
    }

    fn reopen(&mut self) -> Result<(), Refusal> {
        let State { record, registers, places } = &mut self.now;
        lent::open(self.table, record, &mut Memory { registers, places, program: &mut self.program })?;
        Ok(())
    }

    /// Feeds tokens at once, and gives how many. Where one of them is refused, the last that was read is left to be told, and what
    /// comes after it.
    pub fn skip(&mut self, kinds: &[u8], values: &[i32]) -> usize {
        let refused = feed(self.table, &mut self.now, &mut self.program, kinds, values).is_err();
        if !refused {
            return kinds.len();
        }
        let read = (self.now.record.tokens as usize).saturating_sub(1);
        // What was opened and fed once is opened and fed again.
        let _ = self.reopen();
        let _ = feed(self.table, &mut self.now, &mut self.program, &kinds[..read], &values[..read]);
        read
    }

    /// Brings a token or the end, on the state as it stands.
    pub fn bring(&mut self, input: Input) {
        self.input = input;
        self.start = self.now.clone();
        self.made = 0;
    }

    /// The tokens that may come next, on the state as it stands, with this value to try for each of them. It is asked at a stop: at the
    /// opening, and where a step has come to [`Step::More`].
    #[must_use]
    pub fn may_follow(&mut self, value: i32) -> TokenSet {
        let State { record, registers, places } = &self.now;
        let (mut cells, mut stack) = (vec![MARK; registers.len()], vec![0; places.len()]);
        let mut scratch = Memory { registers: &mut cells, places: &mut stack, program: &mut self.program };
        let set = lent::may_follow(self.table, Stopped { record, registers, places }, &mut scratch, value);
        set.map_or_else(|_| TokenSet::default(), TokenSet::of)
    }

    /// The next move for what is brought. Where there is none, the answer of the call.
    pub fn step(&mut self) -> Step {
        let wanted = self.made + 1;
        let before = self.start.record.moves;
        let brought = before.max(MOVES - wanted);
        let mut next = self.start.clone();
        next.record.moves = brought;
        let answer = self.call(&mut next);
        let made = next.record.moves - brought;
        next.record.moves = before + made;
        let last = core::mem::replace(&mut self.now, next);
        if made < wanted {
            return answer;
        }
        self.made = made;
        self.now.record.status = lent::RUNNING;
        let kind = kind(&last, &self.now);
        self.start_here(kind);
        Step::Moved(Move { kind, place: last.top() })
    }

    fn call(&mut self, state: &mut State) -> Step {
        match self.input {
            Input::Token(kind, value) => feed(self.table, state, &mut self.program, &[kind], &[value]).map_or_else(refused, |_| Step::More),
            Input::End => finish(self.table, state, &mut self.program).map_or_else(refused, |(value, _)| Step::Value(value)),
        }
    }

    /// Makes the calls start from here, if they can: no token was read since, no test is to come, and the engine takes the stacks, as an
    /// empty feed shows. So the moves made again stay few.
    fn start_here(&mut self, last: Kind) {
        let untested = matches!(last, Kind::Predict | Kind::Add | Kind::Evaluate);
        if !untested || self.now.record.tokens != self.start.record.tokens {
            return;
        }
        if feed(self.table, &mut self.now, &mut self.program, &[], &[]).is_ok() {
            self.start = self.now.clone();
            self.made = 0;
        }
    }
}

fn refused(refusal: Refusal) -> Step {
    Step::Refused(refusal.number())
}

fn feed(table: &[u8], state: &mut State, program: &mut [u32], kinds: &[u8], values: &[i32]) -> Result<u64, Refusal> {
    let State { record, registers, places } = state;
    lent::feed(table, record, &mut Memory { registers, places, program }, kinds, values)
}

fn finish(table: &[u8], state: &mut State, program: &mut [u32]) -> Result<(i64, u64), Refusal> {
    let State { record, registers, places } = state;
    lent::finish(table, record, &mut Memory { registers, places, program })
}

/// Which move leads from a state to the next: each changes something that those after it leave.
fn kind(before: &State, after: &State) -> Kind {
    let (old, new) = (&before.record, &after.record);
    match () {
        () if new.places > old.places => Kind::Predict,
        () if new.places < old.places => Kind::Remove,
        () if new.tokens > old.tokens => Kind::Read,
        () if new.registers > old.registers => Kind::Add,
        () if after.top() != before.top() => Kind::Test,
        () => Kind::Evaluate,
    }
}
