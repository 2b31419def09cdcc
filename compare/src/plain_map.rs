//! The plain map a table stands for.

use std::collections::HashMap;

use ragansils_model::{Event, Table};

use crate::chain::Chain;

/// Function and place by key.
pub type PlainMap = HashMap<u64, [u64; 2]>;

/// The map of a table's taken slots; none when its header is bad or a key stands twice.
pub fn of_table(words: &[u64]) -> Option<PlainMap> {
    let table = Table::read(words).ok()?;
    let slots = table.taken_slots(&table.levels_in_use());
    let records = slots.iter().map(|&slot| table.record(slot));
    let map: PlainMap = records.map(|[key, function, place]| (key, [function, place])).collect();
    (map.len() == slots.len()).then_some(map)
}

/// The map after an accepted change.
pub fn after(map: &PlainMap, event: Event) -> PlainMap {
    let mut map = map.clone();
    match event {
        Event::Insert { key, function, place } | Event::Update { key, function, place } => {
            map.insert(key, [function, place]);
        }
        Event::Delete { key } => {
            map.remove(&key);
        }
        Event::Begin | Event::Shrink | Event::Back | Event::End => {}
        Event::Step | Event::StepFrom { .. } | Event::Recover => {}
    }
    map
}

/// Whether a sound table of this map may answer so.
pub fn answer_fits(map: &PlainMap, event: Event, number: u64) -> bool {
    let present = |key| map.contains_key(&key);
    match event {
        Event::Insert { key, .. } if present(key) => number == 4,
        Event::Insert { .. } => [0, 6].contains(&number),
        Event::Update { key, .. } | Event::Delete { key } => number == if present(key) { 0 } else { 5 },
        Event::Begin => [0, 7, 9].contains(&number),
        Event::Shrink => [0, 7, 17].contains(&number),
        Event::Back => [0, 8].contains(&number),
        Event::Step | Event::StepFrom { .. } => [0, 6, 8, 11].contains(&number),
        Event::End => [0, 8, 10].contains(&number),
        Event::Recover => number == 0,
    }
}

/// Whether a sound table of this map answers a query so. How many buckets are looked at, and where the record stands, is not the map's
/// matter.
pub fn query_fits(map: &PlainMap, key: u64, number: u64, answer: &[u64]) -> bool {
    match (map.get(&key), answer) {
        (Some(record), [function, place, ..]) => number == 0 && [*function, *place] == *record,
        (None, [0, 0, _buckets, 0, 0]) => number == 5,
        _ => false,
    }
}

/// What a sound table of this map answers to a chain with so many words lent: the words of its records, or a refusal.
pub fn chain_answer(map: &PlainMap, chain: Chain, lent_words: usize) -> Result<Vec<u64>, u64> {
    if !chain.is_within_bounds() {
        return Err(16);
    }
    if lent_words < chain.record_words() {
        return Err(15);
    }
    let records: Option<Vec<[u64; 2]>> = chain.keys().map(|key| map.get(&key).copied()).collect();
    records.map(|records| records.concat()).ok_or(5)
}

/// The depths that a chain is followed through: all, or those down to the first that the map has not.
pub fn depths_asked(map: &PlainMap, chain: Chain) -> u64 {
    let first_missing = chain.keys().position(|key| !map.contains_key(&key));
    first_missing.map_or(chain.depth + 1, |present| present as u64 + 1)
}

#[cfg(test)]
mod tests {
    use super::*;

    #[test]
    fn a_query_has_the_record_of_the_map_or_nothing() {
        let map = PlainMap::from([(1, [10, 20])]);
        let fits = |key, number, answer: [u64; 5]| query_fits(&map, key, number, &answer);
        assert!(fits(1, 0, [10, 20, 1, 36, 0]) && fits(1, 0, [10, 20, 2, 10, 1]));
        assert!(
            !fits(1, 0, [10, 21, 1, 36, 0])
                && !fits(1, 5, [0, 0, 2, 0, 0])
                && !fits(1, 5, [10, 20, 1, 36, 0])
        );
        assert!(fits(2, 5, [0, 0, 2, 0, 0]) && !fits(2, 0, [0, 0, 2, 0, 0]) && !fits(2, 3, [0, 0, 0, 0, 0]));
        assert!(
            !fits(2, 5, [1, 0, 2, 0, 0]) && !fits(2, 5, [0, 0, 2, 36, 0]) && !fits(2, 5, [0, 0, 2, 0, 1])
        );
    }

    #[test]
    fn a_chain_has_the_records_of_the_map_or_a_refusal() {
        let map = PlainMap::from([(256, [1, 2]), (257, [3, 4]), (259, [5, 6])]);
        let answer = |address, depth, words| chain_answer(&map, Chain { address, depth }, words);
        assert_eq!(answer(1, 0, 2), Ok(vec![1, 2]));
        assert_eq!(answer(1, 1, 5), Ok(vec![3, 4, 1, 2]));
        assert_eq!((answer(1, 1, 3), answer(1, 2, 5), answer(1, 2, 6)), (Err(15), Err(15), Err(5)));
        assert_eq!((answer(1, 3, 8), answer(1, 256, 0), answer(1 << 56, 0, 2)), (Err(5), Err(16), Err(16)));
        let asked = |depth| depths_asked(&map, Chain { address: 1, depth });
        assert_eq!((asked(1), asked(2), asked(3)), (2, 1, 2));
    }
}
