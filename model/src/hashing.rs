//! What a key hashes to: its two hashes and its tag. No key is multiplied anywhere else.

use crate::form::Form;

/// The form and the multipliers A1 and A2 of a table: all that hashing needs of it.
#[derive(Clone, Copy)]
pub struct Hashing {
    pub form: Form,
    pub multipliers: [u64; 2],
}

impl Hashing {
    /// Hash 1 and hash 2: "the product K·Ai modulo 2^64, divided by 2^32, rounded down".
    pub fn hashes(self, key: u64) -> [u64; 2] {
        self.products(key).map(|product| product / (1 << 32))
    }

    /// "the hash 1 product modulo 2^64, divided by 2^24, modulo 256". Form 1 has no tags: there it is 0 for every key,
    /// which is also what a form 1 token word has in the place of a tag.
    pub fn tag(self, key: u64) -> u64 {
        let [product_1, _] = self.products(key);
        match self.form {
            Form::One => 0,
            Form::Two => product_1 / (1 << 24) % 256,
        }
    }

    fn products(self, key: u64) -> [u64; 2] {
        let factor = self.factor(key);
        // A wrapping product is the product modulo 2^64.
        self.multipliers.map(|multiplier| factor.wrapping_mul(multiplier))
    }

    /// What is multiplied in the place of the key. "In form 2, before hashing, a key is combined by exclusive or with
    /// itself divided by 2^32."
    fn factor(self, key: u64) -> u64 {
        match self.form {
            Form::One => key,
            Form::Two => key ^ (key / (1 << 32)),
        }
    }
}
