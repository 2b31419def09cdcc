//! The tags of form 2: what a token word holds beside the bits of its taken slots, and what is wrong there. In form 1 there is none of it.

use std::ops::Range;

use ragansils::Form;
use ragansils_model::{Slot, Table};

/// The bits of a token word that mean nothing in form 2.
const STRAY: [Range<u32>; 2] = [4..8, 40..64];

/// Whether the table's token words have tags.
pub fn are_kept(table: &Table) -> bool {
    table.form() == Form::Two.number()
}

/// A tag in the hexadecimal digits that it has in the token word.
pub fn hexadecimal(tag: u64) -> String {
    format!("{tag:#04x}")
}

/// The tag that is not the key's own hides the key from every call.
pub fn is_wrong(table: &Table, slot: Slot) -> bool {
    table.is_taken(slot) && table.tag_in(slot) != table.tag_of(table.key(slot))
}

/// A free slot should have tag 0.
pub fn is_left_over(table: &Table, slot: Slot) -> bool {
    !table.is_taken(slot) && table.tag_in(slot) != 0
}

/// The bits of a bucket's token word that are 1 and mean nothing.
pub fn stray_bits(table: &Table, bucket: usize) -> Vec<u32> {
    let bits = STRAY.into_iter().flatten().filter(|_| are_kept(table));
    bits.filter(|bit| table.raw_token(bucket) >> bit & 1 == 1).collect()
}

/// Those bits in words: "bit 4 means nothing", "bits 4, 40 and 41 mean nothing".
pub fn stray_words(bits: &[u32]) -> Option<String> {
    let (last, others) = bits.split_last()?;
    if others.is_empty() {
        return Some(format!("bit {last} means nothing"));
    }
    let others: Vec<String> = others.iter().map(u32::to_string).collect();
    Some(format!("bits {} and {last} mean nothing", others.join(", ")))
}

#[cfg(test)]
mod tests {
    use super::*;

    #[test]
    fn stray_bits_are_told_in_words() {
        assert_eq!(stray_words(&[]), None);
        assert_eq!(stray_words(&[4]).unwrap(), "bit 4 means nothing");
        assert_eq!(stray_words(&[4, 40, 63]).unwrap(), "bits 4, 40 and 63 mean nothing");
    }
}
