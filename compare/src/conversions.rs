//! The run of conversions: sound tables, there and back, and on from there; damaged ones; and words of no table.

use ragansils_model::{Event, LEAST_LIST_WORDS, SUCCESS};

use crate::both::{Both, Finding};
use crate::case::{Call, Case};
use crate::conversion_sources::{old_words, sound_table, words_of_other_length};
use crate::conversion_tally::{Kind, Way};
use crate::damage;
use crate::layout::FORMS;
use crate::plain_map;
use crate::random::Random;
use crate::sound_tables::{check_change, check_query, Depth};
use crate::there_and_back::check_there_and_back;
use crate::wild::wild_table;

/// How a sound table is damaged, each time on a copy of its own: it is left flagged, a change of it is cut, and whatever else we know.
const DAMAGES: [fn(&mut Random, &mut Vec<u64>); 4] = [
    |random, words| damage::flagged_item(random, words),
    |random, words| damage::half_made_change(random, words),
    damage::damage,
    damage::damage,
];

/// One second table in so many has another length, where something else is wrong too.
const OTHER_LENGTH_ONE_IN: u64 = 8;

/// One change in so many of a converted table is cut everywhere.
const CUT_ONE_IN: u64 = 16;

/// Makes at least `conversions` more conversions, as many from the one form as from the other.
pub fn run(seed: u64, conversions: u64, both: &mut Both) -> Result<(), Finding> {
    let mut random = Random::new(seed);
    let enough = both.tally.conversions.total + conversions;
    while both.tally.conversions.total < enough {
        for form in FORMS {
            let source = sound_table(&mut random, form);
            try_sound(&mut random, both, &source)?;
            try_damaged(&mut random, both, &source)?;
            let wild = wild_table(&mut random, form);
            try_any(&mut random, both, wild)?;
        }
    }
    Ok(())
}

fn try_sound(random: &mut Random, both: &mut Both, source: &[u64]) -> Result<(), Finding> {
    let map = plain_map::of_table(source).unwrap_or_default();
    let case = Case { call: Call::Convert, table: source.to_vec(), list: old_words(random, source) };
    let there = check_there_and_back(both, &case, &map, old_words(random, source))?;
    if there.number == SUCCESS {
        use_converted(random, both, there.second)?;
        both.tally.conversions.add((Way::of_source(source), Kind::Used));
    }
    let case = Case { list: words_of_other_length(random, source), ..case };
    check_there_and_back(both, &case, &map, vec![]).map(drop)
}

/// A converted table takes part in everything, as every other does.
fn use_converted(random: &mut Random, both: &mut Both, mut table: Vec<u64>) -> Result<(), Finding> {
    let mut map = plain_map::of_table(&table).unwrap_or_default();
    let mut keys: Vec<u64> = map.keys().copied().collect();
    // A map has no order.
    keys.sort_unstable();
    let absent = random.word();
    keys.push(absent);
    let resizing = random.pick(&[Event::Begin, Event::Shrink]);
    for event in
        [None, None, None, Some(resizing), Some(Event::Step), None, Some(Event::Step), Some(Event::End)]
    {
        let event = event.unwrap_or_else(|| any_change(random, &keys));
        let list_words = LEAST_LIST_WORDS + random.index(5);
        let list = random.words(list_words);
        let case = Case { call: Call::Change(event), table, list };
        let depth = if random.one_in(CUT_ONE_IN) { Depth::EveryCut } else { Depth::WholeOnly };
        let changed = check_change(both, &case, event, &map, depth)?;
        (table, map) = (changed.table, changed.map);
        let key = random.pick(&keys);
        let query = Case { call: Call::Query { key }, table, list: vec![] };
        check_query(both, &query, key, &map)?;
        table = query.table;
    }
    Ok(())
}

fn any_change(random: &mut Random, keys: &[u64]) -> Event {
    let (key, new_key, function, place) =
        (random.pick(keys), random.word(), random.any_word(), random.any_word());
    random.pick(&[
        Event::Insert { key: new_key, function, place },
        Event::Insert { key, function, place },
        Event::Update { key, function, place },
        Event::Delete { key },
    ])
}

fn try_damaged(random: &mut Random, both: &mut Both, source: &[u64]) -> Result<(), Finding> {
    for damage in DAMAGES {
        let mut table = source.to_vec();
        damage(random, &mut table);
        try_any(random, both, table)?;
    }
    Ok(())
}

/// Any words, and a second table of their length most of the time.
fn try_any(random: &mut Random, both: &mut Both, table: Vec<u64>) -> Result<(), Finding> {
    let list = match random.one_in(OTHER_LENGTH_ONE_IN) {
        true => words_of_other_length(random, &table),
        false => old_words(random, &table),
    };
    let case = Case { call: Call::Convert, table, list };
    let outcome = both.run(&case)?;
    both.tally.tags.count_case(&case, &outcome);
    Ok(())
}

#[cfg(test)]
mod tests {
    use super::*;
    use crate::conversion_tally::possible;
    use crate::tally::Tally;

    #[test]
    fn a_run_meets_every_kind_both_ways() {
        let mut tally = Tally::default();
        run(1, 10_000, &mut Both::new(&mut tally)).unwrap();
        assert_eq!(tally.conversions.rare(possible(), 1), []);
        assert!(tally.conversions.total >= 10_000);
    }

    #[test]
    fn the_same_seed_makes_the_same_run() {
        let calls = |seed| {
            let mut tally = Tally::default();
            run(seed, 500, &mut Both::new(&mut tally)).unwrap();
            (tally.total_calls, tally.conversions.kinds)
        };
        assert_eq!(calls(3), calls(3));
        assert_ne!(calls(3), calls(4));
    }
}
