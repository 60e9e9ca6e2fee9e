//! Inner runs: a segment inside an unfinished one, over the same memory.
use crate::lent::{self, Both, Memory, Record};
use crate::{Refusal, Run, Table};
use alloc::vec;
use core::fmt;

/// What a run keeps of its inner run.
#[derive(Clone)]
pub(crate) struct Inner<'t> {
    pub(crate) table: &'t Table,
    pub(crate) record: Record,
    pub(crate) value: Option<i64>,
}

/// The inner run of a [`Run`]: see [`Run::open_inner`].
///
/// It ends by a finish, by a refusal that closes it, or by giving up; then its part of the memory is clear, and the outer run goes on as
/// if it had not been there. It is a view of the outer run: where it is dropped before its end the outer run still waits, and
/// [`Run::inner`] has it again.
pub struct InnerRun<'r, 't> {
    run: &'r mut Run<'t>,
}

impl<'r, 't> InnerRun<'r, 't> {
    pub(crate) fn of(run: &'r mut Run<'t>) -> InnerRun<'r, 't> {
        InnerRun { run }
    }

    /// Feeds the next tokens; answers the moves made since the inner run was opened. Where tokens carry values, each is 0.
    ///
    /// # Errors
    /// 20 to 23, 31, 32, 35: the segment is refused, and the inner run ended. 33: it had ended already.
    pub fn feed(&mut self, tokens: &[u8]) -> Result<u64, Refusal> {
        self.feed_values(tokens, &vec![0; tokens.len()])
    }

    /// Feeds the next tokens, each a kind and a value. The value of a kind that carries none is ignored.
    ///
    /// # Errors
    /// As for [`InnerRun::feed`]. 38: the lists are of unequal length; the run stays as it was.
    pub fn feed_values(&mut self, kinds: &[u8], values: &[i32]) -> Result<u64, Refusal> {
        self.call(|table, both, memory| lent::feed_inner(table, both, memory, kinds, values))?;
        Ok(self.moves())
    }

    /// Ends the segment and with it the inner run; answers its value.
    ///
    /// # Errors
    /// 22 to 24, 31, 32, 35: the segment is refused; the inner run has ended all the same. 33: it had ended already.
    pub fn finish(&mut self) -> Result<i64, Refusal> {
        let (value, _) = self.call(lent::finish_inner)?;
        self.state_mut().value = Some(value);
        Ok(value)
    }

    /// Ends the inner run as it stands; answers the moves it has made.
    ///
    /// # Errors
    /// 33: it had ended already.
    pub fn give_up(&mut self) -> Result<u64, Refusal> {
        self.call(lent::give_up_inner)?;
        Ok(self.moves())
    }

    /// The segment's value, once the inner run is finished.
    #[must_use]
    pub fn value(&self) -> Option<i64> {
        self.state().value
    }

    /// The moves made since the inner run was opened.
    #[must_use]
    pub fn moves(&self) -> u64 {
        self.state().record.moves.saturating_sub(self.run.spent)
    }

    /// The tokens read since the inner run was opened.
    #[must_use]
    pub fn tokens(&self) -> u64 {
        self.state().record.tokens
    }

    /// Whether the inner run takes more tokens: it has not ended.
    #[must_use]
    pub fn is_open(&self) -> bool {
        self.state().record.status != lent::CLOSED
    }

    /// The inner run's registers in use, from the bottom; `None` where one has no value yet. None are in use after its end.
    pub fn registers(&self) -> impl DoubleEndedIterator<Item = Option<i64>> + ExactSizeIterator + '_ {
        self.cells().0.iter().map(|&v| (v != lent::MARK).then_some(v))
    }

    /// The inner run's places in use, from the bottom. None are in use after its end.
    #[must_use]
    pub fn places(&self) -> &[u32] {
        self.cells().1
    }

    /// The table that the inner run is under.
    #[must_use]
    pub fn table(&self) -> &'t Table {
        self.state().table
    }

    fn state(&self) -> &Inner<'t> {
        self.run.inner.as_ref().expect("made by an opening")
    }

    fn state_mut(&mut self) -> &mut Inner<'t> {
        self.run.inner.as_mut().expect("made by an opening")
    }

    /// The inner run's part of both stacks that is in use.
    fn cells(&self) -> (&[i64], &[u32]) {
        if !self.is_open() {
            return (&[], &[]);
        }
        let r = self.state().record;
        let (a, b) = (r.register_base as usize, r.place_base as usize);
        (&self.run.registers[a..a + r.registers as usize], &self.run.places[b..b + r.places as usize])
    }

    fn call<A>(&mut self, call: impl FnOnce(&[u8], Both, &mut Memory) -> A) -> A {
        let Run { registers, places, program, record, inner, .. } = &mut *self.run;
        let inner = inner.as_mut().expect("made by an opening");
        call(inner.table.bytes(), (record, &mut inner.record), &mut Memory { registers, places, program })
    }
}

impl fmt::Debug for InnerRun<'_, '_> {
    fn fmt(&self, f: &mut fmt::Formatter) -> fmt::Result {
        let state = if self.is_open() { "open" } else { "closed" };
        let (tokens, moves, inside) = (self.tokens(), self.moves(), &*self.run);
        write!(f, "InnerRun({state}, {tokens} tokens, {moves} moves, {:?}, inside {inside:?})", self.table())
    }
}
