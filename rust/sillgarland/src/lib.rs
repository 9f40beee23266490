//! Golden files of a spreadsheet harness hold marshalled Python values: formulas compiled to code objects, and the results
//! that are expected of them. This crate reads them through the proved port (`sillgarland-sys` links it), owns the stores
//! that the port asks for, and lets a caller walk what was read without copying anything.
//!
//! ```
//! use sillgarland::{Content, Reader};
//!
//! let mut reader = Reader::new();
//! let golden = reader.read(b")\x02i\x05\0\0\0T")?;
//! assert_eq!(golden.consumed(), 8);
//!
//! let mut children = golden.root().children();
//! assert!(matches!(children.next().unwrap().content(), Content::Whole(5)));
//! assert!(matches!(children.next().unwrap().content(), Content::Truth(true)));
//! # Ok::<(), sillgarland::Refused>(())
//! ```
//!
//! What cannot be read is refused, with the number, name and place that document 01 gives:
//!
//! ```
//! use sillgarland::{Place, Reader, Refusal};
//!
//! let refused = Reader::new().read(b"u\x02\0\0\0a").unwrap_err();
//! assert_eq!(refused.refusal, Refusal::DataTooShort);
//! assert_eq!(refused.place, Place::Byte(5));
//! assert_eq!(refused.to_string(), "2 DataTooShort at byte 5: the field that starts here is cut: the input ends inside it");
//! ```
//!
//! A line table that is cut is not an error: it is an answer that cannot be overlooked. [`Code::lines`] gives [`Lines`],
//! whose locations are reached only by saying which of the two it is, and each location says whether an entry of the
//! table placed it.
//!
//! Values back to back are an iterator ([`values`]); [`Value::walk`] meets everything in a value once, however it is shared;
//! [`OwnedValue`] outlives its input; a [`Session`] keeps a part of a value and reads more behind it; a [`Block`] is a line table
//! without a code object. docs/RUST.md begins with a cut table.
#![warn(missing_docs)]

mod code;
mod equal;
mod forms;
mod golden;
mod handlers;
mod join;
mod lines;
mod owned;
mod pieces;
mod reader;
mod refusal;
mod salvage;
mod same;
mod session;
mod settings;
mod span;
mod split;
mod starts;
mod tables;
mod totals;
mod value;
mod values;
mod varint;
mod walk;
mod write;

pub use code::{Code, NUMBERS, PARTS};
pub use forms::{Form, GoldenParts};
pub use golden::Golden;
pub use handlers::{Handler, exception_table, handlers};
pub use join::{Block, Joined, LineAfter, join, line_after};
pub use lines::{Counts, Lines, Located, Location, Locations, Records, Source};
pub use owned::OwnedValue;
pub use pieces::{Ended, Pieces};
pub use reader::Reader;
pub use refusal::{Place, Refusal, Refused};
pub use salvage::{Salvaged, salvage};
pub use same::{Difference, Path, Step, What, differences_at, each_difference, first_difference};
pub use session::{Held, Kept, Session};
pub use settings::{
    EDITION, FromFile, MOST_CONTENTS, Setting, edition, rewrite_settings, save_edition, setting, settings_field,
    settings_fields,
};
pub use span::{NotAlone, Span};
pub use split::{Split, split};
pub use starts::Starts;
pub use totals::{NotTotals, Totals};
pub use value::{Children, Content, Text, Value, Wide};
pub use values::{ValueAt, Values, values};
pub use varint::{read_varint, read_varint_with_start, signed_varint, varint, varint_be, varint_with_start};
pub use walk::Walk;

/// The longest input that is read, in bytes.
pub const MOST_BYTES: usize = sillgarland_sys::refusals::MOST_BYTES as usize;
/// The most nodes, entries or slots that a value may need.
pub const MOST_RECORDS: usize = sillgarland_sys::refusals::MOST_RECORDS as usize;
/// The deepest nesting that is read; a container takes one level and a code object two.
pub const MOST_NESTING: u32 = sillgarland_sys::refusals::MOST_NESTING;
