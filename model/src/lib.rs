//! An independent model of the level hashing table of document 01, the paper that fixes the table and its calls,
//! with eight requests of document 02: a), the inlined callers of an address, b), the growth step that passes
//! over items without a place, d), the sample ledger, e), where the answer stood, f), shrinking and turning back,
//! g), form 2, with a better spread and a tag for each slot, h), the conversion of a table to the other form, and i), a
//! newer table that is asked before an older one; and with a request of its own that comes after b), the step that goes
//! on from a bucket.
//!
//! From the bottom up:
//! - `layout`: where words, buckets, slots and levels stand;
//! - `refusal`: the refusal numbers;
//! - `form`: the two forms of a table;
//! - `hashing`: what a key hashes to;
//! - `token`: what a token word is;
//! - `state`: the state word, and how it goes on when a table is resized;
//! - `table`: reading a table whose header is good;
//! - `placing`: where a new item would go;
//! - `recovery`: which of the three kinds a table is, and what is unsound;
//! - `calls`: the fourteen calls on one table, over raw words;
//! - `event`: the changing calls and recovery, as values;
//! - `converting`: the call that converts one table into another;
//! - `overlay`: the two calls that ask a newer table and an older one;
//! - `script_stop`: why a program ends before its time;
//! - `script_lines`: reading the lines of a script;
//! - `script_events`: a script's header and events, read and performed;
//! - `script`: the script program;
//! - `ledger`: the sample ledger;
//! - `convert_program`: the program that converts the table of a script, and back.
//!
//! NOTES.md tells how the documents were read where they leave a doubt.

#![forbid(unsafe_code)]

mod calls;
mod convert_program;
mod converting;
mod event;
mod form;
mod hashing;
mod layout;
mod ledger;
mod overlay;
mod placing;
mod recovery;
mod refusal;
mod script;
mod script_events;
mod script_lines;
mod script_stop;
mod state;
mod table;
mod token;

pub use calls::{
    back, begin, chain, create, delete, end, insert, make, query, recover, shrink, step, step_from, update,
};
pub use convert_program::{run as run_convert, LARGEST_CONVERT_CAPACITY};
pub use converting::convert;
pub use event::Event;
pub use layout::{table_words, word, Level, Slot, LEAST_LIST_WORDS, SLOTS_PER_BUCKET};
pub use ledger::{run as run_ledger, MOST_COUNTED_FUNCTIONS};
pub use overlay::{asked, part, Asked};
pub use recovery::{keys_in_several_slots, misplaced_items, untidy_buckets, update_target};
pub use refusal::{Refusal, SUCCESS};
pub use script::run as run_script;
pub use script_events::LARGEST_PROGRAM_CAPACITY;
pub use script_lines::{LONGEST_LEDGER_LINE, LONGEST_LINE};
pub use state::{Phase, State, PHASE_UNIT};
pub use table::Table;
