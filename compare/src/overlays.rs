//! The run of two tables that are asked together: every kind of table over every kind, and sound ones against their plain maps.

use std::collections::HashSet;

use ragansils::Phase;
use ragansils_model::Table;

use crate::both::{Both, Finding};
use crate::case::{Call, Case};
use crate::hidden_keys::{Change, SoundPair};
use crate::layout::{key_word, BUCKET_WORDS, FORMS, HEADER_WORDS, SLOTS};
use crate::overlay_sources::{any_key, Sources};
use crate::overlay_tally::{kinds_of_tags, Kind, Made, Way};
use crate::random::Random;
use crate::tags::key_under_wrong_tag;

/// One pair of tables in so many is asked for a key of one table that is lent twice, too.
const TWICE_ONE_IN: u64 = 4;

/// So many keys are asked for where a table refuses all of them.
const KEYS_OF_REFUSALS: usize = 2;

/// Asks two tables for a key at least so many times more.
pub fn run(seed: u64, overlays: u64, both: &mut Both) -> Result<(), Finding> {
    let mut random = Random::new(seed);
    let enough = both.tally.overlays.total + overlays;
    while both.tally.overlays.total < enough {
        for forms in FORMS.into_iter().flat_map(|newer| FORMS.map(|older| [newer, older])) {
            try_forms(&mut random, both, forms)?;
        }
    }
    Ok(())
}

fn try_forms(random: &mut Random, both: &mut Both, forms: [u64; 2]) -> Result<(), Finding> {
    let [newer, older] = Sources::both(random, forms);
    for pair in Made::ALL.into_iter().flat_map(|above| Made::ALL.map(|below| [above, below])) {
        for above in pair[0].ways() {
            for below in pair[1].ways() {
                let tables = [
                    newer.table(random, pair[0], *above, &older),
                    older.table(random, pair[1], *below, &newer),
                ];
                let looks_up = (*above, *below) == (Way::LooksUp, Way::LooksUp);
                try_pair(random, both, pair, tables, looks_up)?;
            }
        }
    }
    let phases = Phase::ALL.into_iter().flat_map(|above| Phase::ALL.map(|below| (above, below)));
    for (above, below) in phases {
        try_hidden(random, both, newer.sound(above), older.sound(below))?;
    }
    Ok(())
}

/// Each key with both tables, and sound ones against their maps.
fn try_pair(
    random: &mut Random,
    both: &mut Both,
    made: [Made; 2],
    [newer, older]: [Vec<u64>; 2],
    looks_up: bool,
) -> Result<(), Finding> {
    let mut keys = keys_for(random, [&newer, &older]);
    match looks_up {
        true => kinds_of_tags([&newer, &older]).into_iter().for_each(|kind| both.tally.overlays.add(kind)),
        false => keys.truncate(KEYS_OF_REFUSALS),
    }
    let sound = match made {
        [Made::Sound(_), Made::Sound(_)] => SoundPair::new(&newer, &older),
        _ => None,
    };
    let mut case = Case { call: Call::Ask { key: 0 }, table: newer, list: older };
    for &key in &keys {
        case.call = Call::Ask { key };
        let outcome = both.run(&case)?;
        let (number, name) = (outcome.number, outcome.answer[0]);
        both.tally.overlays.add(Kind::Pair { newer: made[0], older: made[1], number, name });
        if let Some(sound) = &sound {
            sound.check(both, key, &outcome)?;
        }
    }
    if random.one_in(TWICE_ONE_IN) {
        let table = if random.one_in(2) { case.table } else { case.list };
        both.run(&Case { call: Call::AskTwice { key: random.pick(&keys) }, table, list: vec![] })?;
    }
    Ok(())
}

/// Keys of each table, of both and of neither, and keys that stand where no lookup finds them. Those that are held come first.
fn keys_for(random: &mut Random, tables: [&[u64]; 2]) -> Vec<u64> {
    let mut keys = vec![];
    for table in tables {
        keys.extend((0..2).filter_map(|_| any_key(random, table)));
    }
    keys.extend(key_of_both(random, tables));
    for table in tables {
        keys.extend(key_under_wrong_tag(random, table));
        keys.extend((0..2).filter_map(|_| key_of_any_slot(random, table)));
    }
    let absent = random.word();
    let near = keys.first().map_or(0, |key| key ^ 1 << random.below(64));
    keys.extend([absent, near]);
    keys
}

/// A key that stands in a taken slot of each of them.
fn key_of_both(random: &mut Random, tables: [&[u64]; 2]) -> Option<u64> {
    let [newer, older] = tables.map(taken_keys);
    let older: HashSet<u64> = older.into_iter().collect();
    let shared: Vec<u64> = newer.into_iter().filter(|key| older.contains(key)).collect();
    (!shared.is_empty()).then(|| random.pick(&shared))
}

fn taken_keys(words: &[u64]) -> Vec<u64> {
    let keys = |table: Table| {
        let slots = table.taken_slots(&table.levels_in_use());
        slots.into_iter().map(|slot| table.key(slot)).collect()
    };
    Table::read(words).map(keys).unwrap_or_default()
}

/// The key word of a slot, taken or free, in any level, of any words that have one.
fn key_of_any_slot(random: &mut Random, words: &[u64]) -> Option<u64> {
    let buckets = words.len().checked_sub(HEADER_WORDS)? / BUCKET_WORDS;
    (buckets > 0).then(|| words[key_word(random.index(buckets), random.index(SLOTS))])
}

/// Each of the three changes of a hidden key, where there is one that it fits.
fn try_hidden(random: &mut Random, both: &mut Both, newer: &[u64], older: &[u64]) -> Result<(), Finding> {
    let pair = match SoundPair::new(newer, older) {
        Some(pair) => pair,
        None => return Ok(()),
    };
    for change in Change::ALL {
        let keys = pair.hidden_keys(change);
        if !keys.is_empty() {
            pair.check_hidden(both, change, random.pick(&keys))?;
        }
    }
    Ok(())
}

#[cfg(test)]
mod tests {
    use super::*;
    use crate::overlay_tally::possible;
    use crate::tally::Tally;

    #[test]
    fn a_run_meets_every_kind() {
        let mut tally = Tally::default();
        run(1, 20_000, &mut Both::new(&mut tally)).unwrap();
        assert_eq!(tally.overlays.rare(possible(), 1), []);
        assert!(tally.overlays.total >= 20_000);
    }

    #[test]
    fn the_same_seed_makes_the_same_run() {
        let calls = |seed| {
            let mut tally = Tally::default();
            run(seed, 500, &mut Both::new(&mut tally)).unwrap();
            (tally.total_calls, tally.overlays.kinds)
        };
        assert_eq!(calls(3), calls(3));
        assert_ne!(calls(3), calls(4));
    }
}
