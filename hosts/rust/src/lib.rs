//! The segment engine for Rust programs.
//!
//! A [`Table`] describes a conditional L-attributed grammar; a [`Run`] evaluates one segment, a list of one-byte tokens, under it and
//! gives the segment's value. All judging and computing is done by the proved library; this crate makes the memory that the library
//! wants lent and turns its numbers into ordinary Rust. Without its feature `std` it needs no standard library, only an allocator.
//!
//! ```
//! # let bytes = include_bytes!(concat!(env!("CARGO_MANIFEST_DIR"), "/../../grammars/words.table"));
//! let table = segment::Table::new(*bytes)?;
//! let mut run = table.run();
//! run.feed(&[0, 1])?;
//! run.feed(&[0, 2])?;
//! assert_eq!(run.finish()?, 2);
//! assert_eq!(run.evaluate(&[0, 0, 0])?, 3);
//! assert_eq!(run.evaluate(&[1]).unwrap_err().kind(), segment::Kind::SegmentOver);
//! # Ok::<(), segment::Refusal>(())
//! ```
#![no_std]
#![warn(missing_docs)]

extern crate alloc;
#[cfg(feature = "std")]
extern crate std;

mod inner;
pub mod lent;
mod preview;
mod rank;
mod refusal;
mod run;
mod sheet;
pub mod steps;
mod table;
pub mod window;

pub use inner::InnerRun;
pub use lent::check;
pub use preview::{Preview, TokenSet};
pub use rank::{Entry, Ranking};
pub use refusal::{Kind, Refusal};
pub use run::{Run, MOVES};
pub use sheet::{Sheet, SHEET};
pub use table::{house_order, listing, stretch, sum, NotTable, Table};
pub use window::{Standing, Window};
