//! What may be typed now: one more token tried on a run that is stopped, and the set of those that may come.
use crate::lent::{self, Memory, Record, Stopped};
use crate::{Refusal, Run};

/// What feeding a token would give: see [`Run::preview`].
#[derive(Clone, Copy, Debug, PartialEq, Eq)]
pub struct Preview {
    answer: Result<u64, Refusal>,
    record: Record,
    spent: u64,
}

impl Preview {
    /// The moves made since opening, or the refusal.
    ///
    /// # Errors
    /// As for [`Run::feed`].
    pub fn answer(&self) -> Result<u64, Refusal> {
        self.answer.map(|_| self.moves())
    }

    /// Whether the run would go on.
    #[must_use]
    pub fn is_open(&self) -> bool {
        self.record.status != lent::CLOSED
    }

    /// The tokens read then.
    #[must_use]
    pub fn tokens(&self) -> u64 {
        self.record.tokens
    }

    /// The moves made then.
    #[must_use]
    pub fn moves(&self) -> u64 {
        self.record.moves.saturating_sub(self.spent)
    }

    /// How many registers would be in use.
    #[must_use]
    pub fn registers(&self) -> usize {
        self.record.registers as usize
    }

    /// How many places would be in use.
    #[must_use]
    pub fn places(&self) -> usize {
        self.record.places as usize
    }
}

/// A set of tokens.
#[derive(Clone, Copy, Debug, Default, PartialEq, Eq, Hash)]
pub struct TokenSet(u64);

impl TokenSet {
    pub(crate) fn of(bits: u64) -> TokenSet {
        TokenSet(bits)
    }

    /// Whether it holds this token.
    #[must_use]
    pub fn contains(self, kind: u8) -> bool {
        kind < 64 && self.0 >> kind & 1 == 1
    }

    /// How many tokens it holds.
    #[must_use]
    pub fn len(self) -> usize {
        self.0.count_ones() as usize
    }

    /// Whether it holds none.
    #[must_use]
    pub fn is_empty(self) -> bool {
        self.0 == 0
    }

    /// The tokens, rising.
    pub fn iter(self) -> impl Iterator<Item = u8> {
        (0..64).filter(move |&kind| self.contains(kind))
    }

    /// Token `k` as bit `k`.
    #[must_use]
    pub fn bits(self) -> u64 {
        self.0
    }
}

impl Run<'_> {
    /// What feeding this token would give; the run stays as it is. Where tokens carry values, its value is 0.
    ///
    /// ```
    /// # let bytes = include_bytes!(concat!(env!("CARGO_MANIFEST_DIR"), "/../../grammars/words.table"));
    /// let table = segment::Table::new(*bytes)?;
    /// let mut run = table.run();
    /// run.feed(&[0])?;
    /// assert_eq!(run.preview(2).answer().unwrap_err().kind(), segment::Kind::UnexpectedToken);
    /// assert_eq!(run.preview(1).answer(), Ok(11));
    /// assert_eq!(run.may_follow()?.iter().collect::<Vec<u8>>(), [0, 1]);
    /// assert_eq!((run.feed(&[1])?, run.may_follow()?.contains(2)), (11, true));
    /// # Ok::<(), segment::Refusal>(())
    /// ```
    #[must_use]
    pub fn preview(&mut self, kind: u8) -> Preview {
        self.preview_value(kind, 0)
    }

    /// The same for a token that carries a value.
    #[must_use]
    pub fn preview_value(&mut self, kind: u8, value: i32) -> Preview {
        let spent = self.spent;
        let (record, answer) = self.tried(|table, run, scratch| lent::preview(table, run, scratch, kind, value));
        Preview { answer, record, spent }
    }

    /// The tokens that may come next: those whose preview is no refusal. Whether the segment may end here is not among them.
    ///
    /// # Errors
    /// 33: the run is closed. 40: it waits for its inner run.
    pub fn may_follow(&mut self) -> Result<TokenSet, Refusal> {
        self.may_follow_value(0)
    }

    /// The same where tokens carry values: this value is tried for each of them.
    ///
    /// # Errors
    /// As for [`Run::may_follow`].
    pub fn may_follow_value(&mut self, value: i32) -> Result<TokenSet, Refusal> {
        self.tried(|table, run, scratch| lent::may_follow(table, run, scratch, value)).map(TokenSet)
    }

    /// A call on the run as it stands, with scratch that is made with the first such call.
    fn tried<A>(&mut self, call: impl FnOnce(&[u8], Stopped, &mut Memory) -> A) -> A {
        self.scratch.0.resize(self.registers.len(), lent::MARK);
        self.scratch.1.resize(self.places.len(), 0);
        let run = Stopped { record: &self.record, registers: &self.registers, places: &self.places };
        let mut scratch = Memory { registers: &mut self.scratch.0, places: &mut self.scratch.1, program: &mut self.program };
        call(self.table.bytes(), run, &mut scratch)
    }
}
