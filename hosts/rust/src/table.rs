//! Tables: accepted once, used by any number of runs.
use crate::{lent, Refusal, Run};
use alloc::string::String;
use alloc::vec;
use alloc::vec::Vec;
use core::fmt;

/// A table that the engine accepts: the bytes that describe a grammar.
///
/// ```
/// # let bytes = include_bytes!(concat!(env!("CARGO_MANIFEST_DIR"), "/../../grammars/words.table"));
/// let table = segment::Table::new(*bytes)?;
/// assert_eq!(table.productions(), 4);
/// # Ok::<(), segment::Refusal>(())
/// ```
#[derive(Clone, PartialEq, Eq, Hash)]
pub struct Table {
    bytes: Vec<u8>,
}

impl Table {
    /// Judges a table.
    ///
    /// # Errors
    /// 1 to 13: the table is refused, with the offset of its field.
    pub fn new(bytes: impl Into<Vec<u8>>) -> Result<Table, Refusal> {
        let bytes = bytes.into();
        lent::check(&bytes)?;
        Ok(Table { bytes })
    }

    /// Judges a table, and asks whether it is the one with this sum: the table that the names of `grammar header` belong to.
    ///
    /// # Errors
    /// The table is refused, or has another sum.
    pub fn with_sum(bytes: impl Into<Vec<u8>>, sum: u64) -> Result<Table, NotTable> {
        let table = Table::new(bytes).map_err(NotTable::Refused)?;
        match table.sum() {
            found if found == sum => Ok(table),
            found => Err(NotTable::Other { found, wanted: sum }),
        }
    }

    /// The bytes.
    #[must_use]
    pub fn bytes(&self) -> &[u8] {
        &self.bytes
    }

    /// How many productions the table has.
    #[must_use]
    pub fn productions(&self) -> usize {
        (0..128).take_while(|&p| lent::stretch(&self.bytes, p).is_ok()).count()
    }

    /// A production's stretch of the table: from its own field to the next production, or to the end.
    ///
    /// # Errors
    /// 14: there is no such production.
    pub fn stretch(&self, production: usize) -> Result<&[u8], Refusal> {
        stretch(&self.bytes, production)
    }

    /// What the listing program prints for the table.
    #[must_use]
    pub fn listing(&self) -> String {
        listing(&self.bytes)
    }

    /// The table in house order: productions as they stand, each followed by its rules by the occurrence they set, then its conditions by
    /// their bytes, each once. Tables that differ only in that come out alike, and every segment keeps its value or refusal.
    ///
    /// ```
    /// # let bytes = include_bytes!(concat!(env!("CARGO_MANIFEST_DIR"), "/../../grammars/words.table"));
    /// let table = segment::Table::new(*bytes)?;
    /// let house = table.house_order();
    /// assert_eq!(house.house_order(), house);
    /// assert_eq!(house.run().evaluate(&[0, 1, 0, 2]), table.run().evaluate(&[0, 1, 0, 2]));
    /// # Ok::<(), segment::Refusal>(())
    /// ```
    #[must_use]
    pub fn house_order(&self) -> Table {
        let bytes = house_order(&self.bytes).expect("the table is accepted");
        Table { bytes }
    }

    /// Judges a tree sheet that another tool has made of a segment: the segment's value where the sheet describes its tree. The sheet may be
    /// any bytes. See [`lent::SHEET_STACK`] for the stack that the thread needs.
    ///
    /// ```
    /// # let bytes = include_bytes!(concat!(env!("CARGO_MANIFEST_DIR"), "/../../grammars/words.table"));
    /// let table = segment::Table::new(*bytes)?;
    /// // The segment without tokens: production 0 with its result 0, and in it production 3, which takes a depth of 0 and gives 0.
    /// let mut sheet = [0; 20 + 28];
    /// sheet[23] = 3;
    /// assert_eq!(table.judge(&[], &[], &sheet)?, 0);
    /// sheet[19] = 1;
    /// assert_eq!(table.judge(&[], &[], &sheet).unwrap_err().kind(), segment::Kind::SheetWrong);
    /// # Ok::<(), segment::Refusal>(())
    /// ```
    ///
    /// # Errors
    /// 38: kinds and values are not equally many. 43: the sheet does not describe the segment's tree, or there is none.
    pub fn judge(&self, kinds: &[u8], values: &[i32], sheet: &[u8]) -> Result<i64, Refusal> {
        lent::judge(&self.bytes, kinds, values, sheet)
    }

    /// The table's sum: 64 bits that a changed table has only by a rare chance (FNV-1a). `grammar header` writes it beside the names of a
    /// grammar, so that a host can see that names and table belong together.
    #[must_use]
    pub fn sum(&self) -> u64 {
        sum(&self.bytes)
    }

    /// Opens a run with as much room as a run can use.
    #[must_use]
    pub fn run(&self) -> Run<'_> {
        Run::new(self)
    }
}

impl fmt::Debug for Table {
    fn fmt(&self, f: &mut fmt::Formatter) -> fmt::Result {
        write!(f, "Table({} bytes, sum {:016x})", self.bytes.len(), self.sum())
    }
}

/// Why some bytes are not the table that was asked for.
#[derive(Clone, Copy, Debug, PartialEq, Eq)]
#[non_exhaustive]
pub enum NotTable {
    /// The engine refuses them.
    Refused(Refusal),
    /// They are another table.
    Other {
        /// The sum of the table.
        found: u64,
        /// The sum that was asked for.
        wanted: u64,
    },
}

impl fmt::Display for NotTable {
    fn fmt(&self, f: &mut fmt::Formatter) -> fmt::Result {
        match self {
            NotTable::Refused(refusal) => refusal.fmt(f),
            NotTable::Other { found, wanted } => write!(f, "another table: its sum is {found:016x}, not {wanted:016x}"),
        }
    }
}

impl core::error::Error for NotTable {}

/// The sum of a table's bytes, accepted or not: see [`Table::sum`].
#[must_use]
pub const fn sum(table: &[u8]) -> u64 {
    let mut sum = 0xcbf2_9ce4_8422_2325;
    let mut i = 0;
    while i < table.len() {
        sum = (sum ^ table[i] as u64).wrapping_mul(0x0000_0100_0000_01b3);
        i += 1;
    }
    sum
}

/// An accepted table in house order: see [`Table::house_order`].
///
/// # Errors
/// 1 to 13: the table is refused.
pub fn house_order(table: &[u8]) -> Result<Vec<u8>, Refusal> {
    let mut out = vec![0; table.len()];
    let length = lent::house(table, &mut out)?;
    out.truncate(length);
    Ok(out)
}

/// A production's stretch of an accepted table: from its own field to the next production, or to the end.
///
/// # Errors
/// 1 to 13: the table is refused. 14: there is no such production.
pub fn stretch(table: &[u8], production: usize) -> Result<&[u8], Refusal> {
    lent::stretch(table, production).map(|(start, length)| &table[start..start + length])
}

/// What the listing program prints for a table: its listing, or the line of its refusal.
#[must_use]
pub fn listing(table: &[u8]) -> String {
    let mut program = vec![0; lent::PROGRAM];
    let mut out = vec![0; 64 * lent::LINE];
    loop {
        let (length, over) = lent::list(table, &mut program, &mut out);
        if over {
            return String::from_utf8_lossy(&out[..length]).into_owned();
        }
        out.resize(2 * out.len(), 0);
    }
}
