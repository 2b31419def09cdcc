//! Where everything stands among the table's words.

use std::ops::Range;

const HEADER_WORDS: usize = 9;
const WORDS_PER_BUCKET: usize = 13;
const WORDS_PER_SLOT: usize = 3;
const LARGEST_CAPACITY: u64 = 20;

pub const SLOTS_PER_BUCKET: usize = 4;

/// The shortest list a changing call or recovery takes: ten pairs.
pub const LEAST_LIST_WORDS: usize = 20;

/// The first address that is too large for a chain.
pub const ADDRESS_LIMIT: u64 = 1 << 56;
pub const LARGEST_DEPTH: u64 = 255;
/// A record of a chain is a function and a place: "two each".
pub const WORDS_PER_CHAIN_RECORD: u64 = 2;

/// Indexes of the header words.
pub mod word {
    pub const FORM: usize = 0;
    pub const CAPACITY: usize = 1;
    pub const MULTIPLIER_1: usize = 2;
    pub const MULTIPLIER_2: usize = 3;
    pub const STATE: usize = 4;
    pub const FLAG: usize = 5;
    pub const UPDATE_TARGET: usize = 6;
    pub const UPDATE_FUNCTION: usize = 7;
    pub const UPDATE_PLACE: usize = 8;
}

/// The exact length of a table of capacity exponent `c`; none for a bad `c`.
pub fn table_words(c: u64) -> Option<usize> {
    if !(1..=LARGEST_CAPACITY).contains(&c) {
        return None;
    }
    let buckets = (1usize << (c + 1)) - 1;
    Some(HEADER_WORDS + WORDS_PER_BUCKET * buckets)
}

/// "A key is address·256 + inlining depth"; below the two limits this never overflows.
pub fn key_of(address: u64, depth: u64) -> u64 {
    address * 256 + depth
}

/// The word index of a bucket's token word.
pub fn token_word(bucket: usize) -> usize {
    HEADER_WORDS + WORDS_PER_BUCKET * bucket
}

/// A level, known by its number of buckets (a power of two).
#[derive(Clone, Copy, Debug, PartialEq, Eq)]
pub struct Level {
    pub size: usize,
}

impl Level {
    pub fn with_exponent(exponent: u64) -> Level {
        Level { size: 1 << exponent }
    }

    pub fn buckets(self) -> Range<usize> {
        self.size - 1..2 * self.size - 1
    }

    /// The number of one of its buckets, counted from 0 in the level.
    pub fn number_of(self, bucket: usize) -> u64 {
        (bucket - self.buckets().start) as u64
    }
}

/// What a level in use is to the table. Its size does not tell this: the top of one state is the bottom of another.
#[derive(Clone, Copy, Debug, PartialEq, Eq)]
pub enum LevelName {
    Top = 0,
    Bottom = 1,
    Interim = 2,
}

impl LevelName {
    /// The number that an answer tells.
    pub fn number(self) -> u64 {
        self as u64
    }
}

/// One slot of one bucket. `token` tells which bits of the token word are its own.
#[derive(Clone, Copy, Debug, PartialEq, Eq)]
pub struct Slot {
    pub bucket: usize,
    pub number: usize,
}

impl Slot {
    pub fn all_of(bucket: usize) -> impl Iterator<Item = Slot> {
        (0..SLOTS_PER_BUCKET).map(move |number| Slot { bucket, number })
    }

    pub fn token_word(self) -> usize {
        token_word(self.bucket)
    }

    pub fn key_word(self) -> usize {
        self.token_word() + 1 + WORDS_PER_SLOT * self.number
    }

    pub fn function_word(self) -> usize {
        self.key_word() + 1
    }

    pub fn place_word(self) -> usize {
        self.key_word() + 2
    }
}
