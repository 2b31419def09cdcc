//! The chain of an address: the records of a depth and of each smaller one.

/// The first address and the first depth of no key.
pub const ADDRESS_LIMIT: u64 = 1 << 56;
pub const DEPTH_LIMIT: u64 = 256;

/// A key by its address and depth, which are within bounds. The model makes its own, so that a wrong one is seen against a plain map.
pub fn key_of(address: u64, depth: u64) -> u64 {
    address * DEPTH_LIMIT + depth
}

/// What a chain is asked for with.
#[derive(Clone, Copy, Debug, PartialEq, Eq)]
pub struct Chain {
    pub address: u64,
    /// The first depth; it goes down from there.
    pub depth: u64,
}

impl Chain {
    /// The chain that begins with a key.
    pub fn of_key(key: u64) -> Chain {
        Chain { address: key / DEPTH_LIMIT, depth: key % DEPTH_LIMIT }
    }

    pub fn is_within_bounds(self) -> bool {
        self.address < ADDRESS_LIMIT && self.depth < DEPTH_LIMIT
    }

    /// Its keys in the order of their records, where it is within bounds.
    pub fn keys(self) -> impl Iterator<Item = u64> {
        (0..=self.depth).rev().map(move |depth| key_of(self.address, depth))
    }

    /// The fewest words that its records take; those of the longest chain where the depth is past its bound.
    pub fn record_words(self) -> usize {
        2 * (self.depth.min(DEPTH_LIMIT - 1) as usize + 1)
    }
}

#[cfg(test)]
mod tests {
    use super::*;

    #[test]
    fn the_last_chain_begins_with_the_last_key() {
        let last = Chain { address: ADDRESS_LIMIT - 1, depth: DEPTH_LIMIT - 1 };
        assert!(last.is_within_bounds());
        assert_eq!((Chain::of_key(u64::MAX), last.record_words()), (last, 512));
        let keys: Vec<u64> = last.keys().collect();
        assert_eq!((keys.len(), keys[0], keys[255]), (256, u64::MAX, u64::MAX - 255));
    }
}
