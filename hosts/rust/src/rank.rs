//! Ranked suggestions: candidate segments listed by their values.
use crate::lent::{self, Candidates, Memory, Report};
use crate::{Kind, Refusal, Table};
use alloc::vec;
use alloc::vec::Vec;

/// A candidate in a ranking.
#[derive(Clone, Copy, Debug, PartialEq, Eq)]
pub struct Entry {
    /// The candidate's number, counted from 0.
    pub number: usize,
    /// Its value, or why it has none: 20 to 24, 31, 32 or 35.
    pub outcome: Result<i64, Kind>,
}

/// Candidates in order: those with a value first, the highest first and equal ones by number; then the refused ones by number.
#[derive(Clone, Debug, PartialEq, Eq)]
pub struct Ranking {
    list: Vec<i64>,
    report: Report,
}

impl Ranking {
    /// The candidates, each once.
    pub fn entries(&self) -> impl DoubleEndedIterator<Item = Entry> + ExactSizeIterator + '_ {
        self.list.chunks_exact(lent::ENTRY).map(|cells| {
            let outcome = if cells[2] == 0 { Ok(cells[1]) } else { Err(Kind::of(cells[2] as u32)) };
            Entry { number: cells[0] as usize, outcome }
        })
    }

    /// How many candidates have a value: so many entries stand before the refused ones.
    #[must_use]
    pub fn valued(&self) -> usize {
        self.report.valued
    }

    /// The exact total of the values.
    #[must_use]
    pub fn total(&self) -> i64 {
        self.report.total
    }
}

impl Table {
    /// Evaluates up to 512 candidate segments and ranks them by their values. Where tokens carry values, each is 0: see
    /// [`Table::rank_values`].
    ///
    /// ```
    /// # let bytes = include_bytes!(concat!(env!("CARGO_MANIFEST_DIR"), "/../../grammars/words.table"));
    /// let table = segment::Table::new(*bytes)?;
    /// let ranking = table.rank(&[&[0][..], &[0, 2], &[0, 1, 0, 2], &[0, 0]])?;
    /// let order: Vec<usize> = ranking.entries().map(|entry| entry.number).collect();
    /// assert_eq!((order, ranking.valued(), ranking.total()), (vec![2, 3, 0, 1], 3, 5));
    /// assert_eq!(ranking.entries().last().unwrap().outcome, Err(segment::Kind::UnexpectedToken));
    /// # Ok::<(), segment::Refusal>(())
    /// ```
    ///
    /// # Errors
    /// 37: there are more than 512.
    pub fn rank<C: AsRef<[u8]>>(&self, candidates: &[C]) -> Result<Ranking, Refusal> {
        let kinds: Vec<u8> = candidates.iter().flat_map(|c| c.as_ref()).copied().collect();
        let lengths = candidates.iter().map(|c| c.as_ref().len()).collect();
        self.ranked(&kinds, &vec![0; kinds.len()], lengths)
    }

    /// The same for candidates whose tokens are kinds and values. The value of a kind that carries none is ignored.
    ///
    /// # Errors
    /// As for [`Table::rank`].
    pub fn rank_values<C: AsRef<[(u8, i32)]>>(&self, candidates: &[C]) -> Result<Ranking, Refusal> {
        let (kinds, values): (Vec<u8>, Vec<i32>) = candidates.iter().flat_map(|c| c.as_ref()).copied().unzip();
        let lengths = candidates.iter().map(|c| c.as_ref().len()).collect();
        self.ranked(&kinds, &values, lengths)
    }

    fn ranked(&self, kinds: &[u8], values: &[i32], lengths: Vec<usize>) -> Result<Ranking, Refusal> {
        // One longer than 32 bits can say would make the sum wrong, and so be refused by 37.
        let lengths: Vec<u32> = lengths.into_iter().map(|n| u32::try_from(n).unwrap_or(u32::MAX)).collect();
        let mut list = vec![0; lent::ENTRY * lengths.len()];
        let (mut registers, mut places, mut program) = (vec![0; lent::REGISTERS], vec![0; lent::PLACES], vec![0; lent::PROGRAM]);
        let mut memory = Memory { registers: &mut registers, places: &mut places, program: &mut program };
        let report = lent::rank(self.bytes(), Candidates { kinds, values, lengths: &lengths }, &mut memory, &mut list)?;
        Ok(Ranking { list, report })
    }
}
