//! A position table for a sampling profiler's collector: code address and inlining depth lead to a function and a place.
//!
//! The table stands in 64-bit words that are lent to it, in ordinary memory or in a mapped file, and is made for memory that keeps its
//! words when power fails. Every change is an ordered list of at most ten word stores, and power may fail after any of them.
//!
//! The work is done by the static library `collector`, written in Rattle and proved to answer as its rules say on every input; this
//! crate is thin over its seventeen functions and has no other dependency. What is proved ends at the library: that stores are made in order
//! is this crate's own part, and is tested.
//!
//! From the bottom up:
//! - [`raw`]: the seventeen functions, unsafe;
//! - [`calls`]: the same over slices, safe;
//! - [`Key`], [`Record`], [`Lookup`] with [`Found`], [`Slot`] and [`Level`], [`Chain`], [`Creation`] with [`Form`], [`Refusal`],
//!   [`Unconverted`]: what goes in and comes out;
//! - [`StoreList`], [`Platform`]: stores, and what a platform does after each;
//! - [`Table`]: a table that makes its own stores, grows and shrinks in small parts ([`Part`], by hand [`Step`]; [`Phase`] tells which is
//!   under way), tells the inlined frames at an address ([`Frames`]) and is converted to its other form ([`Table::convert`]);
//! - [`Overlay`]: two tables asked as one, such as a shipped build's and one for code that was reloaded since ([`Source`] tells which answers,
//!   in an [`OverlayLookup`] with [`OverlayFound`], an [`OverlayRefusal`] or, of [`calls`], [`Asked`]);
//! - [`MappedFile`]: words in a file, made by [`NewFile`]; [`ReadOnlyFile`], and [`words_of`] and [`bytes_of`], for a file that is only
//!   read;
//! - [`program`]: for programs that a user calls.
//!
//! ```
//! use ragansils::{Creation, Key, MappedFile, OrdinaryMemory, Record, Table};
//!
//! # let folder = std::env::temp_dir().join(format!("ragansils-doc-{}", std::process::id()));
//! # std::fs::create_dir_all(&folder)?;
//! # let path = folder.join("positions.table");
//! // Once:
//! MappedFile::create(&path, &Creation::new(8, 1))?;
//!
//! // At each start of the collector; what a cut left is mended here:
//! let mut table = Table::open(MappedFile::open(&path)?, OrdinaryMemory)?;
//! let key = Key::new(0x5555_0000_1040, 1).ok_or("no key")?;
//! table.insert(key, Record { function: 7, place: 120 })?;
//! assert_eq!(table.query(key)?.record(), Some(Record { function: 7, place: 120 }));
//! # drop(table);
//! # std::fs::remove_dir_all(&folder)?;
//! # Ok::<(), Box<dyn std::error::Error>>(())
//! ```
#![deny(missing_docs)]

mod ahead;
mod bytes;
pub mod calls;
mod conversion;
mod creation;
mod form;
mod frames;
#[cfg(all(target_os = "linux", target_pointer_width = "64"))]
mod mapped;
mod overlay;
mod phase;
mod position;
pub mod program;
pub mod raw;
mod refusal;
mod resizing;
mod stores;
mod table;

pub use bytes::{bytes_of, length_of_plain_file, words_of};
pub use conversion::Unconverted;
pub use creation::{Creation, MULTIPLIER_1, MULTIPLIER_2};
pub use form::Form;
pub use frames::Frames;
#[cfg(all(target_os = "linux", target_pointer_width = "64"))]
pub use mapped::{FileError, MappedFile, NewFile, ReadOnlyFile};
pub use overlay::{Asked, Overlay, OverlayFound, OverlayLookup, OverlayRefusal, Source};
pub use phase::Phase;
pub use position::{Chain, Found, Key, Level, Lookup, Record, Slot};
pub use refusal::{Refusal, UnknownNumber};
pub use resizing::{Part, Step};
pub use stores::{OrdinaryMemory, Platform, Store, StoreList};
pub use table::Table;
