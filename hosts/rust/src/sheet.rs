//! Tree sheets: a segment's tree as bytes.
use crate::lent::{self, Written};
use crate::{Kind, Refusal, Table};
use alloc::vec;
use alloc::vec::Vec;

/// The longest sheet that [`Table::sheet`] makes, in bytes.
pub const SHEET: usize = 1 << 26;

/// A segment's tree: a record for each node, in the order of entering.
#[derive(Clone, Debug, PartialEq, Eq)]
pub struct Sheet {
    bytes: Vec<u8>,
    value: i64,
    moves: u64,
}

impl Sheet {
    /// The records one after the other.
    #[must_use]
    pub fn bytes(&self) -> &[u8] {
        &self.bytes
    }

    /// The segment's value.
    #[must_use]
    pub fn value(&self) -> i64 {
        self.value
    }

    /// The moves that a run makes.
    #[must_use]
    pub fn moves(&self) -> u64 {
        self.moves
    }
}

impl Table {
    /// The tree sheet of a segment, written on a thread of its own, with [`lent::SHEET_STACK`]. Without the feature `std` it is written where it
    /// is called, and that thread needs as much; so does [`lent::sheet`], which never makes one.
    ///
    /// ```
    /// # let bytes = include_bytes!(concat!(env!("CARGO_MANIFEST_DIR"), "/../../grammars/words.table"));
    /// let table = segment::Table::new(*bytes)?;
    /// let sheet = table.sheet(&[0, 1, 0, 2], &[0; 4])?;
    /// assert_eq!((sheet.value(), sheet.moves(), sheet.bytes().len()), (2, 32, 160));
    /// assert_eq!(table.judge(&[0, 1, 0, 2], &[0; 4], sheet.bytes())?, 2);
    /// # Ok::<(), segment::Refusal>(())
    /// ```
    ///
    /// # Errors
    /// 20 to 24, 31, 32, 35: the segment is refused, as by a run on full stacks. 38: kinds and values are not equally many. 41: the sheet
    /// would be longer than [`SHEET`].
    ///
    /// # Panics
    /// Where no thread can be made.
    pub fn sheet(&self, kinds: &[u8], values: &[i32]) -> Result<Sheet, Refusal> {
        deep(|| self.sheet_here(kinds, values))
    }

    fn sheet_here(&self, kinds: &[u8], values: &[i32]) -> Result<Sheet, Refusal> {
        let mut bytes = vec![0; 128 * (kinds.len() + 8)];
        loop {
            let written = lent::sheet(self.bytes(), kinds, values, (lent::REGISTERS, lent::PLACES), &mut bytes);
            match written {
                Ok(Written { value, moves, length }) => {
                    bytes.truncate(length);
                    return Ok(Sheet { bytes, value, moves });
                }
                Err(refusal) if refusal.kind() == Kind::SheetShort && bytes.len() < SHEET => bytes.resize((4 * bytes.len()).min(SHEET), 0),
                Err(refusal) => return Err(refusal),
            }
        }
    }
}

/// Does something on a thread with the stack that sheets need.
#[cfg(feature = "std")]
fn deep<T: Send>(work: impl FnOnce() -> T + Send) -> T {
    std::thread::scope(|scope| {
        let thread = std::thread::Builder::new().stack_size(lent::SHEET_STACK).spawn_scoped(scope, work).expect("a thread for the sheet");
        thread.join().unwrap_or_else(|panic| std::panic::resume_unwind(panic))
    })
}

/// The same where there are no threads.
#[cfg(not(feature = "std"))]
fn deep<T>(work: impl FnOnce() -> T) -> T {
    work()
}
