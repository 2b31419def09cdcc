//! Random chains: those that a history puts in, those that are asked for, and how many words are lent.

use ragansils_model::{query, SUCCESS};

use crate::chain::{key_of, Chain, ADDRESS_LIMIT, DEPTH_LIMIT};
use crate::history::Setting;
use crate::random::Random;

/// Chains for a history to put in, each with room in half of the table.
pub fn chains_of_history(random: &mut Random, setting: Setting) -> Vec<Chain> {
    let most_depths = setting.most_items() / 2;
    let depths = [0, 1, 5, 20, 255, random.below(DEPTH_LIMIT), random.below(most_depths)];
    let fitting: Vec<u64> =
        depths.into_iter().filter(|&depth| depth < most_depths.min(DEPTH_LIMIT)).collect();
    let count = 1 + random.below(3);
    (0..count).map(|_| Chain { address: any_address(random), depth: random.pick(&fitting) }).collect()
}

/// A chain as long as there is one, often that with the last of all keys.
pub fn longest_chain(random: &mut Random) -> Chain {
    let address = if random.one_in(2) { ADDRESS_LIMIT - 1 } else { any_address(random) };
    Chain { address, depth: DEPTH_LIMIT - 1 }
}

fn any_address(random: &mut Random) -> u64 {
    let (of_program, wild) = (random.word() >> 16, random.word() >> 8);
    random.pick(&[0, 1, 255, ADDRESS_LIMIT - 2, ADDRESS_LIMIT - 1, of_program, wild])
}

/// A chain to ask a table for, of the address of a key: often whole, often broken, and at times at the bounds or past them.
pub fn chain_near(random: &mut Random, words: &[u64], key: u64) -> Chain {
    let own = Chain::of_key(key);
    let in_a_row = records_in_a_row(words, own.address);
    let depth = match random.below(12) {
        0..=3 => own.depth,
        4..=6 => in_a_row.saturating_sub(1),
        // With all depths there this is past the bound.
        7 => in_a_row,
        8 => random.below(in_a_row + 1),
        9 => random.below(DEPTH_LIMIT),
        _ => return chain_at_bounds(random, own),
    };
    Chain { depth, ..own }
}

/// So many depths of an address, from 0 on, have a record.
fn records_in_a_row(words: &[u64], address: u64) -> u64 {
    let is_there = |&depth: &u64| query(words, key_of(address, depth)).0 == SUCCESS;
    (0..DEPTH_LIMIT).take_while(is_there).count() as u64
}

/// An address or a depth at a bound, or past it by so much that the part left of a sum or a product is the chain's own.
fn chain_at_bounds(random: &mut Random, Chain { address, depth }: Chain) -> Chain {
    let half = 1 << 63;
    let (past_limit, any_word) = (ADDRESS_LIMIT + random.below(300), random.any_word());
    let other_address =
        random.pick(&[ADDRESS_LIMIT - 1, ADDRESS_LIMIT, past_limit, half, u64::MAX, any_word]);
    let other_depth =
        random.pick(&[254, 255, 256, 257, 1 << 32, half - 1, half, u64::MAX - 1, u64::MAX, any_word]);
    match random.below(7) {
        // 256 times the address is the same in 64 bits.
        0 => Chain { address: address + (ADDRESS_LIMIT << random.below(8)), depth },
        // The key is the same.
        1 => Chain { address: address.wrapping_sub(1), depth: depth + DEPTH_LIMIT },
        // The depth is the same in 32 bits, or its record words in 64 bits.
        2 => Chain { address, depth: depth + random.pick(&[1 << 32, half]) },
        3 => Chain { address: other_address, depth },
        4 | 5 => Chain { address, depth: other_depth },
        _ => Chain { address: other_address, depth: other_depth },
    }
}

/// Words to lend for the records: just enough, or any number around that, or around what the longest chain takes.
pub fn lent_words(random: &mut Random, chain: Chain) -> Vec<u64> {
    let enough = chain.record_words();
    let count = match random.below(16) {
        0..=5 => enough,
        6 => enough - 2,
        7 => enough - 1,
        8 => enough + 1,
        9 => enough + 7,
        10 => random.index(2),
        11 => random.index(enough),
        12 | 13 => enough + random.index(24),
        _ => random.pick(&[511, 512, 513]),
    };
    random.words(count)
}

#[cfg(test)]
mod tests {
    use super::*;
    use std::collections::BTreeSet;

    #[test]
    fn words_are_lent_around_what_the_records_take() {
        let mut random = Random::new(1);
        for depth in [0, 1, 5, 20, 255, 256, u64::MAX] {
            let chain = Chain { address: 1, depth };
            let counts: BTreeSet<usize> = (0..1000).map(|_| lent_words(&mut random, chain).len()).collect();
            let enough = chain.record_words();
            for count in [0, 1, enough - 2, enough - 1, enough, enough + 1, enough + 7, 511, 512, 513] {
                assert!(counts.contains(&count), "{count} for depth {depth}");
            }
        }
    }

    #[test]
    fn bounds_are_met_and_passed() {
        let mut random = Random::new(1);
        let own = Chain { address: 5, depth: 3 };
        let chains: Vec<Chain> = (0..10_000).map(|_| chain_at_bounds(&mut random, own)).collect();
        for address in [ADDRESS_LIMIT - 1, ADDRESS_LIMIT, ADDRESS_LIMIT + 5, 1 << 63, u64::MAX] {
            assert!(chains.iter().any(|chain| chain.address == address), "{address}");
        }
        for depth in [254, 255, 256, 257, 259, 1 << 32, (1 << 63) - 1, 1 << 63, (1 << 63) + 3, u64::MAX] {
            assert!(chains.iter().any(|chain| chain.depth == depth), "{depth}");
        }
    }

    #[test]
    fn chains_of_all_lengths_are_put_in_where_they_fit() {
        let mut random = Random::new(1);
        let mut depths = |c| -> BTreeSet<u64> {
            let setting = Setting { form: 1, c, k: 1, mul1: 1, mul2: 1 };
            (0..1000).flat_map(|_| chains_of_history(&mut random, setting)).map(|chain| chain.depth).collect()
        };
        assert_eq!(depths(1), (0..=5).collect());
        assert!([0, 1, 5, 20, 255].iter().all(|depth| depths(8).contains(depth)));
    }
}
