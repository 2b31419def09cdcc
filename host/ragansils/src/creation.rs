//! What a new table is told.

use crate::Form;

/// The first of two multipliers that spread keys well; [`MULTIPLIER_2`] is the other.
///
/// How many keys a table with a top of 2^c buckets takes before the first refusal 6:
///
/// | form | c | slots | addresses from 0x555500001000 on, 4 apart, depth 0 | addresses from 0x1000 on, 2^32 apart, depth 0 | keys 0, 1, 2, .. |
/// |---|---|---|---|---|---|
/// | 1 | 2 | 24 | 24 | 16 | 24 |
/// | 1 | 8 | 1,536 | 1,519 | 16 | 1,430 |
/// | 1 | 14 | 98,304 | 95,188 | 768 | 92,280 |
/// | 2 | 2 | 24 | 24 | 24 | 24 |
/// | 2 | 8 | 1,536 | 1,517 | 1,519 | 1,430 |
/// | 2 | 14 | 98,304 | 94,529 | 93,600 | 92,280 |
///
/// A hash is what the product of key and multiplier has above 2^32. So small multipliers are no good in either form: with 3 and 5 the first
/// refusal comes at 8 slots of 24, and of 98,304 too. And in form 1 keys that differ only in bits from 32 + k on share both of their
/// buckets in a top of 2^k, as the fifth column shows; in form 2 these bits count. Where keys lie close together, neither form takes
/// more than the other as a rule.
///
/// How full a table becomes depends on its size and on the keys, and these figures promise nothing of others. At c = 18 the fill was, in
/// form 1 and in form 2: 0.946 and 0.958 of the slots with the keys of the fourth column; 0.879 and 0.892 with addresses from
/// 0x7f0000000000 on, 16 apart, with three depths each; 0.792 and 0.807 with addresses from there on, 4096 apart; and 0.39 in both with the
/// keys 0, 1, 2, .. . The least that was seen in form 2 with keys of addresses ([`Key::new`](crate::Key::new)) was 0.652, at c = 14, with
/// addresses from 0x7f0000000000 on, 2^28 apart, and eight depths each; form 1 took 0.5 there.
pub const MULTIPLIER_1: u64 = 0x9e37_79b9_7f4a_7c15;

/// The second of two multipliers that spread keys well; [`MULTIPLIER_1`] tells how well.
pub const MULTIPLIER_2: u64 = 0xc2b2_ae3d_27d4_eb4f;

/// The settings of a new table. They stay in its header for its whole life, but for the top, which grows and shrinks.
///
/// ```
/// use ragansils::{Creation, Form};
///
/// // As most tables are made; and one in form 1, with multipliers of its own.
/// let creation = Creation::new(8, 1);
/// let other = Creation { form: Form::One, multipliers: [0x1234_5678_9abc_def1, 0xfedc_ba98_7654_3211], ..creation };
/// assert_eq!((creation.form, other.capacity), (Form::Two, 8));
/// ```
#[derive(Clone, Copy, Debug, PartialEq, Eq)]
pub struct Creation {
    /// The form: [`Form::Two`], which spreads addresses that lie far apart. [`Form::One`] where speed counts more or an older collector must
    /// read the table too.
    pub form: Form,
    /// The capacity exponent c, 1 to 20: the top level can grow to 2^c buckets of four slots.
    pub capacity: u64,
    /// The first k, 1 to c: the top level starts with 2^k buckets.
    pub first_top: u64,
    /// The two multipliers of the hashes, both odd: [`MULTIPLIER_1`] and [`MULTIPLIER_2`], or random ones, a table's own.
    pub multipliers: [u64; 2],
}

impl Creation {
    /// The settings for a new table of this capacity and first top: form 2, with the multipliers that have a name.
    pub const fn new(capacity: u64, first_top: u64) -> Creation {
        Creation { form: Form::Two, capacity, first_top, multipliers: [MULTIPLIER_1, MULTIPLIER_2] }
    }

    /// The exact number of words that the table takes, which is the same in both forms; none for a capacity exponent outside 1 to 20.
    ///
    /// ```
    /// use ragansils::Creation;
    ///
    /// assert_eq!(Creation::new(8, 1).words(), Some(6652));
    /// ```
    pub fn words(&self) -> Option<usize> {
        lengths().find(|&(capacity, _)| capacity == self.capacity).map(|(_, words)| words)
    }
}

/// Whether a table can have so many words.
pub fn is_table_length(words: usize) -> bool {
    lengths().any(|(_, length)| length == words)
}

/// Each capacity exponent and its table's words: a header of 9, and 13 for each of 2^(c+1) - 1 buckets.
fn lengths() -> impl Iterator<Item = (u64, usize)> {
    (1..=20).map(|capacity| (capacity, 9 + 13 * ((2 << capacity) - 1)))
}
