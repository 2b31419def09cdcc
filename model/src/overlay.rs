//! Request i) of document 02: a newer table over an older one. "Ask both: a key in the newer table hides the same key in
//! the older."

use crate::calls::read_for_lookup;
use crate::refusal::{Refusal, SUCCESS};

/// The names of the two tables, as an answer tells them.
const NEWER: u64 = 0;
const OLDER: u64 = 1;

/// "the refusal number, the table's name and the buckets looked at".
#[derive(Clone, Copy, Debug, PartialEq, Eq)]
pub struct Asked {
    pub number: u64,
    /// 0 for the newer table, 1 for the older one.
    pub name: u64,
    pub buckets: u64,
}

/// What was asked of two tables, without the record.
pub fn asked(newer: &[u64], older: &[u64], key: u64) -> Asked {
    let (asked, _part) = ask_both(newer, older, key);
    asked
}

/// "The answer is the part of whichever table holds the key, three words of that table and no copy; an empty part with a
/// refusal." The empty part starts where the table that `asked` names starts.
pub fn part<'a>(newer: &'a [u64], older: &'a [u64], key: u64) -> &'a [u64] {
    let (_asked, part) = ask_both(newer, older, key);
    part
}

/// Both answers come from here, so that they are always about the same table.
fn ask_both<'a>(newer: &'a [u64], older: &'a [u64], key: u64) -> (Asked, &'a [u64]) {
    // "Refusals 1 and 3 are tested on both tables before any lookup, both of the newer first": a bad older table is told
    // even where the newer one has the key. "With 1 or 3 name that table, count 0".
    let (newer_table, older_table) = match (read_for_lookup(newer), read_for_lookup(older)) {
        (Err(refusal), _) => return refused(refusal, NEWER, newer, 0),
        (Ok(_), Err(refusal)) => return refused(refusal, OLDER, older, 0),
        (Ok(newer_table), Ok(older_table)) => (newer_table, older_table),
    };
    let in_newer = newer_table.search(key);
    if let Some(found) = in_newer.found {
        // The key is hidden in the older table, where no bucket is looked at.
        let asked = Asked { number: SUCCESS, name: NEWER, buckets: in_newer.probes };
        return (asked, newer_table.part(found.slot));
    }
    let in_older = older_table.search(key);
    let buckets = in_newer.probes + in_older.probes;
    match in_older.found {
        Some(found) => (Asked { number: SUCCESS, name: OLDER, buckets }, older_table.part(found.slot)),
        // "5 when neither has the key", and "with 5 the older".
        None => refused(Refusal::KeyAbsent, OLDER, older, buckets),
    }
}

/// The part is of the table that is named, as with a success.
fn refused(refusal: Refusal, name: u64, named: &[u64], buckets: u64) -> (Asked, &[u64]) {
    (Asked { number: refusal.number(), name, buckets }, &named[..0])
}
