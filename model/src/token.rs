//! What a token word is. Bit s is 1 when slot s is taken. In form 2 bits 8 + 8s to 15 + 8s are the tag of slot s, which
//! comes from the key in it and is 0 where the slot is free; all other bits are 0. A form 1 word has only the first four
//! bits. That is what a sound table holds. A damaged one may hold anything, and the calls work on it all the same.

use crate::form::Form;
use crate::layout::Slot;

/// There is a bit for each of the four slots. Form 1 reads token words modulo this.
const TOKEN_MODULUS: u64 = 16;

const TAG_MODULUS: u64 = 256;

impl Slot {
    pub fn token_bit(self) -> u64 {
        1 << self.number
    }

    /// The lowest bit of the slot's tag.
    fn tag_unit(self) -> u64 {
        1 << (8 + 8 * self.number)
    }
}

/// A token word as the calls read it. What they store is made from it by showing and hiding slots, which leave all bits
/// of the other slots and all bits of no slot as they were read.
#[derive(Clone, Copy, Debug, PartialEq, Eq)]
pub struct TokenWord(u64);

impl TokenWord {
    /// The token word of a bucket without items.
    pub const EMPTY: TokenWord = TokenWord(0);

    /// Form 2 reads "the whole word where 01 said modulo 16". Nothing else about token words depends on the form, as all
    /// tags of form 1 are 0.
    pub fn read(form: Form, word: u64) -> TokenWord {
        match form {
            Form::One => TokenWord(word % TOKEN_MODULUS),
            Form::Two => TokenWord(word),
        }
    }

    pub fn word(self) -> u64 {
        self.0
    }

    /// The bits that tell which slots are taken. Always below 16, whatever the upper bits are.
    pub fn taken_bits(self) -> u64 {
        self.0 % TOKEN_MODULUS
    }

    pub fn is_taken(self, slot: Slot) -> bool {
        self.0 & slot.token_bit() != 0
    }

    /// The eight bits in the place of the slot's tag, also where the slot is free.
    pub fn tag(self, slot: Slot) -> u64 {
        self.0 / slot.tag_unit() % TAG_MODULUS
    }

    /// The same word with the slot taken: "showing a slot overwrites its tag bits".
    pub fn showing(self, slot: Slot, tag: u64) -> TokenWord {
        let TokenWord(without_slot) = self.hiding(slot);
        TokenWord(without_slot + slot.token_bit() + tag * slot.tag_unit())
    }

    /// The same word with the slot free: "hiding one sets them to 0, whatever stood there".
    pub fn hiding(self, slot: Slot) -> TokenWord {
        let taken = u64::from(self.is_taken(slot));
        TokenWord(self.0 - taken * slot.token_bit() - self.tag(slot) * slot.tag_unit())
    }
}
