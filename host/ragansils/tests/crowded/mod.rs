//! Keys that a small table takes in one form, and not in the other.
use ragansils::{Creation, Form, Key};

/// The multipliers of the marked examples of document 01: in a top of two buckets the parity of a number tells its place.
pub const MARKED: Creation = Creation { multipliers: [4294967297, 12884901889], ..Creation::new(2, 1) };

/// The key that finds no place in the other form, when the table is converted.
pub const LAST: usize = 8;

/// In this form these nine keys are spread over both top buckets, and in the other form all of them have the same one: that number is a key's
/// low half in form 2, and the sum of both halves in form 1.
pub fn crowding_keys(form: Form) -> [Key; LAST + 1] {
    [0, 1, 2, 3, 4, 5, 6, 7, 8].map(|number: u64| {
        let high = number % 2;
        let low = 2 * number + 1 - if form == Form::Two { high } else { 0 };
        Key::from(high << 32 | low)
    })
}
