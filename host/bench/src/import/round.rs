//! One round of imports by one build, in a process of its own.

use ragansils_compare::random::Random;
use ragansils_counts::plan::HIGH_LOAD;
use ragansils_counts::{full_size, items_at, Keys, Kind, OLD_FORM};

use crate::builds::{with_word, Answer};
use crate::clock::timed;
use crate::peers::{swap_words, two_sides, Peer, LIBRARY, TWIN};
use crate::rounds::Rounds;

/// Keys that a round imports at least, into many small tables: no branch predictor learns them.
const KEYS_IN_A_ROUND: usize = 400_000;
/// Large tables too are several, so that the median leaves out one that the machine slowed.
const LEAST_TABLES: usize = 3;

/// Table after table, by the library and by the twin in the same words: the time of an insert by each, and a sum of the words of all tables.
pub fn run_round(c: u64, seed: u64) -> Result<Answer<2>, String> {
    let mut random = Random::new(seed);
    let setting = full_size(&mut random, OLD_FORM, c);
    let items = items_at(setting, HIGH_LOAD);
    // The first table warms up.
    let tables = 1 + (KEYS_IN_A_ROUND / items).max(LEAST_TABLES);
    let keys = Keys::new(&mut random, Kind::Random, tables * items, 0);
    let mut peers = two_sides(setting);
    let empty = peers[0].words().ok_or("the library's table has words")?.clone();
    let mut all = Rounds::<1>::new(&peers);
    let mut sum = 0;
    for (number, fresh) in keys.present().chunks_exact(items).enumerate() {
        let mut table = 0;
        all.turns(number, |at| {
            let time;
            (time, table) = import(peers[at].as_mut(), fresh, &empty)?;
            Ok(([time], table))
        })?;
        sum = with_word(sum, table);
        swap_words(&mut peers)?;
    }
    let [measured] = all.finish(c, [String::new()]);
    Ok(Answer { times: [LIBRARY, TWIN].map(|side| measured.median_of(side)), sum })
}

/// Nanoseconds for an insert, and the sum of the words at the end. The words are written before the clock starts, and so are in memory.
fn import(peer: &mut dyn Peer, keys: &[u64], empty: &[u64]) -> Result<(f64, u64), String> {
    peer.words().ok_or("a level table has words")?.copy_from_slice(empty);
    let (time, accepted) = timed(|| peer.insert_all(keys));
    peer.check_accepted(accepted, keys)?;
    let words = peer.words().ok_or("a level table has words")?;
    Ok((time / keys.len() as f64, words.iter().copied().fold(0, with_word)))
}

#[cfg(test)]
mod tests {
    use super::*;

    #[test]
    fn the_same_seed_ends_in_the_same_words() {
        let words = |seed| run_round(6, seed).unwrap().sum;
        assert_eq!(words(1), words(1));
        assert_ne!(words(1), words(2));
    }
}
