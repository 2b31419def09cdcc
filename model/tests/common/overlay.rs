//! What the two calls on a newer and an older table answer, and what they have to answer.

use super::*;

/// The names of the two tables.
pub const NEWER: u64 = 0;
pub const OLDER: u64 = 1;

/// What both calls tell of a key.
#[derive(Clone, Copy, Debug, PartialEq, Eq)]
pub struct Answer {
    pub number: u64,
    pub name: u64,
    pub buckets: u64,
    /// The word of the named table at which the part starts.
    pub start: usize,
    /// How many words the part has.
    pub length: usize,
}

impl Answer {
    pub fn found(name: u64, buckets: u64, key_word: usize) -> Answer {
        Answer { number: 0, name, buckets, start: key_word, length: 3 }
    }

    /// "an empty part with a refusal", at word 0 of the table that is named.
    pub fn refused(number: u64, name: u64, buckets: u64) -> Answer {
        Answer { number, name, buckets, start: 0, length: 0 }
    }
}

/// Asks both calls. The part must be memory of the table that is named, "and no copy".
pub fn ask(newer: &[u64], older: &[u64], key: u64) -> Answer {
    let Asked { number, name, buckets } = asked(newer, older, key);
    let named = [newer, older][name as usize];
    let part = part(newer, older, key);
    let start = word_of(named, part.as_ptr());
    assert!(start + part.len() <= named.len());
    Answer { number, name, buckets, start, length: part.len() }
}

/// The word of a table that stands at this address; it must be one, or the first word of an empty table.
fn word_of(table: &[u64], address: *const u64) -> usize {
    let bytes =
        (address as usize).checked_sub(table.as_ptr() as usize).expect("the part starts before its table");
    assert_eq!(bytes % 8, 0);
    bytes / 8
}

/// What must be told of two tables with good headers and flag 0, by the queries that are worked out from the words.
pub fn ask_by_hand(newer: &[u64], older: &[u64], key: u64) -> Answer {
    let (in_newer, [_, _, newer_buckets, newer_word, _]) = by_hand::query_by_tag(newer, key);
    let (in_older, [_, _, older_buckets, older_word, _]) = by_hand::query_by_tag(older, key);
    match (in_newer, in_older) {
        (0, _) => Answer::found(NEWER, newer_buckets, newer_word as usize),
        (_, 0) => Answer::found(OLDER, newer_buckets + older_buckets, older_word as usize),
        _ => Answer::refused(5, OLDER, newer_buckets + older_buckets),
    }
}
