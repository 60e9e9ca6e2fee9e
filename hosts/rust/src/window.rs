//! A window over the values of the last finished segments: their total and the largest.
//!
//! [`open`] and [`value`] are the library's calls as they are, on a buffer that the caller lends; [`Window`] keeps its own.
use crate::Refusal;
use alloc::vec;
use alloc::vec::Vec;

/// The largest size of a window.
pub const SIZE: usize = 64;

/// How many cells the buffer of a window of this size has: five numbers, the values, and the leaders' slots.
#[must_use]
pub const fn length(size: usize) -> usize {
    5 + 2 * size
}

/// What stands in a window. Before the first value the total is 0 and there is no largest.
#[derive(Clone, Copy, Debug, PartialEq, Eq)]
pub struct Standing {
    /// The exact total of the window's values.
    pub total: i64,
    /// The largest of them.
    pub largest: Option<i64>,
}

extern "C" {
    fn segment_window_open(
        size: u64,
        buffer: *mut i64,
        buffer_length: usize,
        number: &mut u32,
        total: &mut i64,
        largest: &mut i64,
        has_largest: &mut u32,
    );

    fn segment_window_value(
        finish_number: u32,
        finish_value: i64,
        finish_count: u64,
        buffer: *mut i64,
        buffer_length: usize,
        number: &mut u32,
        total: &mut i64,
        largest: &mut i64,
        has_largest: &mut u32,
    );
}

/// The four numbers that both calls hand out.
#[derive(Default)]
struct Numbers {
    number: u32,
    total: i64,
    largest: i64,
    has_largest: u32,
}

impl Numbers {
    fn answer(self) -> Result<Standing, Refusal> {
        match self.number {
            0 => Ok(Standing { total: self.total, largest: (self.has_largest != 0).then_some(self.largest) }),
            number => Err(Refusal::new(number, 0)),
        }
    }
}

/// Opens a window of a size from 1 to 64 in the first cells of the buffer.
///
/// # Errors
/// 42: another size, or a buffer that is too short, which is left as it was.
pub fn open(size: u64, buffer: &mut [i64]) -> Result<Standing, Refusal> {
    let mut n = Numbers::default();
    let (cells, long) = (buffer.as_mut_ptr(), buffer.len());
    // SAFETY: the pointers are those of a slice that is lent exclusively and of four numbers, all alive during the call.
    unsafe { segment_window_open(size, cells, long, &mut n.number, &mut n.total, &mut n.largest, &mut n.has_largest) };
    n.answer()
}

/// Brings the three numbers of a finish's answer. With the number 0 the value enters, and the oldest leaves where the window is full; any
/// other number is a refusal's: nothing changes, and total and largest are told as they stand.
///
/// # Errors
/// 42: a value outside the limits, or a buffer that no opening and values after it can leave; the buffer is left as it was.
pub fn value(number: u32, value: i64, count: u64, buffer: &mut [i64]) -> Result<Standing, Refusal> {
    let mut n = Numbers::default();
    let (cells, long) = (buffer.as_mut_ptr(), buffer.len());
    // SAFETY: as in `open`.
    unsafe { segment_window_value(number, value, count, cells, long, &mut n.number, &mut n.total, &mut n.largest, &mut n.has_largest) };
    n.answer()
}

/// [`value`] with what [`finish`](crate::lent::finish) answered.
///
/// # Errors
/// As for [`value`].
pub fn bring(finished: Result<(i64, u64), Refusal>, buffer: &mut [i64]) -> Result<Standing, Refusal> {
    match finished {
        Ok((brought, moves)) => value(0, brought, moves, buffer),
        Err(refusal) => value(refusal.number(), 0, refusal.count(), buffer),
    }
}

/// A window with its buffer.
///
/// ```
/// # let bytes = include_bytes!(concat!(env!("CARGO_MANIFEST_DIR"), "/../../grammars/words.table"));
/// let table = segment::Table::new(*bytes)?;
/// let mut run = table.run();
/// let mut window = segment::Window::new(2)?;
/// for words in [&[0, 0, 0][..], &[0], &[2], &[0, 0]] {
///     window.bring(run.evaluate(words))?;
/// }
/// assert_eq!((window.standing().total, window.standing().largest), (3, Some(2)));
/// # Ok::<(), segment::Refusal>(())
/// ```
#[derive(Clone, Debug)]
pub struct Window {
    buffer: Vec<i64>,
    standing: Standing,
}

impl Window {
    /// Opens a window of a size from 1 to 64.
    ///
    /// # Errors
    /// 42: another size.
    pub fn new(size: usize) -> Result<Window, Refusal> {
        let mut buffer = vec![0; length(size.min(SIZE))];
        let standing = open(size as u64, &mut buffer)?;
        Ok(Window { buffer, standing })
    }

    /// Brings what a finish answered: only a value enters.
    ///
    /// # Errors
    /// 42: a value outside the limits, which no finish answers.
    pub fn bring(&mut self, finished: Result<i64, Refusal>) -> Result<Standing, Refusal> {
        self.standing = bring(finished.map(|value| (value, 0)), &mut self.buffer)?;
        Ok(self.standing)
    }

    /// Total and largest as they stand.
    #[must_use]
    pub fn standing(&self) -> Standing {
        self.standing
    }

    /// The size that the window was opened with.
    #[must_use]
    pub fn size(&self) -> usize {
        self.buffer[0] as usize
    }

    /// The values, from the oldest.
    pub fn values(&self) -> impl ExactSizeIterator<Item = i64> + '_ {
        let (size, held, next) = (self.size(), self.buffer[1] as usize, self.buffer[2] as usize);
        (0..held).map(move |i| self.buffer[5 + (next + size - held + i) % size])
    }

    /// The cells, as docs/WINDOW.md states them.
    #[must_use]
    pub fn cells(&self) -> &[i64] {
        &self.buffer
    }
}
