//! Runs: one segment at a time, under a table.
use crate::inner::{Inner, InnerRun};
use crate::lent::{self, Memory, Record};
use crate::{Refusal, Table};
use alloc::vec;
use alloc::vec::Vec;
use core::fmt;

/// The moves that a run makes at most: the next is refused by 35.
pub const MOVES: u64 = 4_294_967_295;

/// A run over one segment, and the memory that it needs.
///
/// A run is opened, fed any number of times and finished; [`Run::restart`] opens it again for the next segment. Each call judges the
/// table anew, since the library keeps nothing: feed in large pieces (`docs/HOSTING.md` has the figures).
#[derive(Clone)]
pub struct Run<'t> {
    pub(crate) table: &'t Table,
    pub(crate) registers: Vec<i64>,
    pub(crate) places: Vec<u32>,
    pub(crate) program: Vec<u32>,
    pub(crate) record: Record,
    value: Option<i64>,
    /// The moves that the record counts before the first: the limit less the budget.
    pub(crate) spent: u64,
    /// The inner run, open or ended; none before the first.
    pub(crate) inner: Option<Inner<'t>>,
    /// Registers and places for previews, as many as the run has; none before the first.
    pub(crate) scratch: (Vec<i64>, Vec<u32>),
}

impl<'t> Run<'t> {
    /// Opens a run with as much room as a run can use. Such an opening is never refused.
    #[must_use]
    pub fn new(table: &'t Table) -> Run<'t> {
        let mut run = Run::closed(table, lent::REGISTERS, lent::PLACES);
        let opened = run.restart();
        debug_assert_eq!(opened, Ok(()));
        run
    }

    /// Opens a run with room for so many registers and places; more than 4,096 and 1,024 are not used, and not made.
    ///
    /// # Errors
    /// 31, 32: an opening needs more.
    pub fn with_room(table: &'t Table, registers: usize, places: usize) -> Result<Run<'t>, Refusal> {
        let mut run = Run::closed(table, registers, places);
        run.restart()?;
        Ok(run)
    }

    fn closed(table: &'t Table, registers: usize, places: usize) -> Run<'t> {
        let registers = vec![lent::MARK; registers.min(lent::REGISTERS)];
        let places = vec![0; places.min(lent::PLACES)];
        let (program, record, scratch) = (vec![0; lent::PROGRAM], Record::default(), (vec![], vec![]));
        Run { table, registers, places, program, record, value: None, spent: 0, inner: None, scratch }
    }

    /// Gives each segment a budget of moves: the move after it is refused by 35. Counts are reported as if it were not there. The run is
    /// opened anew.
    #[must_use]
    pub fn with_budget(mut self, moves: u64) -> Run<'t> {
        self.spent = MOVES - moves.min(MOVES);
        let opened = self.restart();
        debug_assert_eq!(opened, Ok(()));
        self
    }

    /// Opens the run for another segment under the same table. An inner run is forgotten.
    ///
    /// # Errors
    /// None once the run was made: what could be opened can be opened again.
    pub fn restart(&mut self) -> Result<(), Refusal> {
        self.value = None;
        self.inner = None;
        self.call(lent::open)?;
        self.record.moves = self.spent;
        Ok(())
    }

    /// Feeds the next tokens of the segment; answers the moves made since opening. A refusal ends the run. Where tokens carry values,
    /// each is 0: see [`Run::feed_values`].
    ///
    /// # Errors
    /// 20 to 23, 31, 32, 35: the segment is refused, and the run closed. 33: the run was closed already. 40: it waits for its inner run.
    pub fn feed(&mut self, tokens: &[u8]) -> Result<u64, Refusal> {
        self.feed_values(tokens, &vec![0; tokens.len()])
    }

    /// Feeds the next tokens of the segment, each a kind and a value. The value of a kind that carries none is ignored.
    ///
    /// # Errors
    /// As for [`Run::feed`]. 38: the lists are of unequal length; the run stays as it was.
    pub fn feed_values(&mut self, kinds: &[u8], values: &[i32]) -> Result<u64, Refusal> {
        self.call(|table, record, memory| lent::feed(table, record, memory, kinds, values))?;
        Ok(self.moves())
    }

    /// Ends the segment; answers its value, and closes the run.
    ///
    /// # Errors
    /// 22 to 24, 31, 32, 35: the segment is refused. 33: the run was closed already. 40: it waits for its inner run.
    pub fn finish(&mut self) -> Result<i64, Refusal> {
        let (value, _) = self.call(lent::finish)?;
        self.value = Some(value);
        Ok(value)
    }

    /// Opens the run, feeds the whole segment and finishes it.
    ///
    /// # Errors
    /// As for [`Run::feed`] and [`Run::finish`].
    pub fn evaluate(&mut self, tokens: &[u8]) -> Result<i64, Refusal> {
        self.evaluate_values(tokens, &vec![0; tokens.len()])
    }

    /// Opens the run, feeds the whole segment, each token a kind and a value, and finishes it.
    ///
    /// # Errors
    /// As for [`Run::feed_values`] and [`Run::finish`].
    pub fn evaluate_values(&mut self, kinds: &[u8], values: &[i32]) -> Result<i64, Refusal> {
        self.restart()?;
        self.feed_values(kinds, values)?;
        self.finish()
    }

    /// Opens an inner run, say for a footnote, under a table of its own and over the same memory, above what this run has in use. This
    /// run waits until the inner one ends; then it stands as before. The inner segment has a budget of as many moves as this one.
    ///
    /// ```
    /// # let bytes = include_bytes!(concat!(env!("CARGO_MANIFEST_DIR"), "/../../grammars/words.table"));
    /// let table = segment::Table::new(*bytes)?;
    /// let mut run = table.run();
    /// run.feed(&[0, 1])?;
    /// let mut note = run.open_inner(&table)?;
    /// note.feed(&[0, 0, 0])?;
    /// assert_eq!(note.finish()?, 3);
    /// run.feed(&[0, 2])?;
    /// assert_eq!(run.finish()?, 2);
    /// # Ok::<(), segment::Refusal>(())
    /// ```
    ///
    /// # Errors
    /// 31, 32: an opening needs more room than is left. 33: the run is closed. 40: it waits for an inner run already.
    pub fn open_inner(&mut self, table: &'t Table) -> Result<InnerRun<'_, 't>, Refusal> {
        let mut record = Record::default();
        self.call(|outer_table, outer, memory| lent::open_inner(outer_table, table.bytes(), (outer, &mut record), memory))?;
        record.moves = self.spent;
        self.inner = Some(Inner { table, record, value: None });
        Ok(InnerRun::of(self))
    }

    /// The inner run that this one waits for.
    #[must_use]
    pub fn inner(&mut self) -> Option<InnerRun<'_, 't>> {
        self.is_waiting().then(|| InnerRun::of(self))
    }

    /// The segment's value, once the run is finished.
    #[must_use]
    pub fn value(&self) -> Option<i64> {
        self.value
    }

    /// The moves made since opening.
    #[must_use]
    pub fn moves(&self) -> u64 {
        self.record.moves.saturating_sub(self.spent)
    }

    /// The moves that a segment may make.
    #[must_use]
    pub fn budget(&self) -> u64 {
        MOVES - self.spent
    }

    /// The tokens read since opening.
    #[must_use]
    pub fn tokens(&self) -> u64 {
        self.record.tokens
    }

    /// Whether the run goes on: it is neither finished nor refused. It takes more tokens unless it waits.
    #[must_use]
    pub fn is_open(&self) -> bool {
        self.record.status != lent::CLOSED
    }

    /// Whether the run waits for its inner run: calls on it are then refused by 40.
    #[must_use]
    pub fn is_waiting(&self) -> bool {
        self.record.status == lent::WAITING
    }

    /// The registers in use, from the bottom; `None` where one has no value yet.
    pub fn registers(&self) -> impl DoubleEndedIterator<Item = Option<i64>> + ExactSizeIterator + '_ {
        let used = &self.registers[..self.record.registers as usize];
        used.iter().map(|&v| (v != lent::MARK).then_some(v))
    }

    /// The register with this number, as the listing counts them: 1 is the top. `None` past the last, and where there is no value yet.
    #[must_use]
    pub fn register(&self, number: usize) -> Option<i64> {
        self.registers().rev().nth(number.checked_sub(1)?).flatten()
    }

    /// The places in use, from the bottom: 256 times the production plus the number of its symbols already passed.
    #[must_use]
    pub fn places(&self) -> &[u32] {
        &self.places[..self.record.places as usize]
    }

    /// The table that the run is under.
    #[must_use]
    pub fn table(&self) -> &'t Table {
        self.table
    }

    fn call<A>(&mut self, call: impl FnOnce(&[u8], &mut Record, &mut Memory) -> A) -> A {
        let mut memory = Memory { registers: &mut self.registers, places: &mut self.places, program: &mut self.program };
        call(self.table.bytes(), &mut self.record, &mut memory)
    }
}

impl fmt::Debug for Run<'_> {
    fn fmt(&self, f: &mut fmt::Formatter) -> fmt::Result {
        let state = match self.record.status {
            lent::CLOSED => "closed",
            lent::WAITING => "waiting",
            _ => "open",
        };
        let (tokens, moves) = (self.tokens(), self.moves());
        let (registers, places) = (self.record.registers, self.record.places);
        write!(f, "Run({state}, {tokens} tokens, {moves} moves, {registers} registers, {places} places, {:?})", self.table)
    }
}
