//! Counts what the library does, which needs no clock and is the same on every machine: loads at the first
//! refusal 6, moves, stores, buckets that a query looks at. The driver of host/bench measures with the keys
//! and tables of this crate, and writes these counts beside its times.
//!
//! From the bottom up:
//! - `middle`: what is said of many numbers; `markdown`: how tables are written;
//! - `keys`, `level`, `half_way`: the keys, the tables that take them, and tables in a growth or a shrink;
//! - `plan`: how much is counted;
//! - `stores`: the stores of calls; `fillings`, `growths`, `shrinks`, `probes`, `forms`: what is counted;
//! - `counts`: all of it; `article`, `sections`: what is written of it.

mod article;
mod counts;
mod fillings;
mod forms;
mod growths;
mod half_way;
mod keys;
mod level;
pub mod markdown;
mod middle;
pub mod plan;
mod probes;
mod sections;
mod shrinks;
mod stores;

pub use counts::Counts;
pub use fillings::{Bin, Fillings, BINS};
pub use forms::{Source, Spread};
pub use growths::Growth;
pub use half_way::{half_way, last_growth};
pub use keys::{draw, sampled_addresses, shuffle, Keys, Kind};
pub use level::{full_size, items_at, record_of, slots_of, LevelTable, Record, NEW_FORM, OLD_FORM};
pub use middle::Middle;
pub use probes::Probes;
pub use sections::spread_table;
pub use shrinks::{Shrinks, SHRINK_LOADS};
pub use stores::Stores;
