//! Steps that go on: from every kind of start, on sound tables and on what a cut leaves of them, and in whole passes.

use ragansils_model::{create, make, table_words, Event, LEAST_LIST_WORDS, SUCCESS};

use crate::both::{Both, Check, Finding};
use crate::case::{Call, Case};
use crate::history::Setting;
use crate::plain_map::{self, PlainMap};
use crate::random::Random;
use crate::sound_tables::{check_change, Changed, Depth};
use crate::starts::{count_number, interim_buckets, kind_of, Start, STARTS};
use crate::stuck_items::{Kind, KINDS};

/// A step whose item finds its place by a move of another.
const MOST_STORES: u64 = 10;

/// Which bucket it is matters most within the level.
const MORE_STARTS: [Start; 3] = [Start::Within; 3];

/// A sound table and its map.
#[derive(Clone, Copy)]
pub struct Sound<'a> {
    pub table: &'a [u64],
    pub map: &'a PlainMap,
}

/// What leads to a table of a form whose next step is of a kind.
type HistoryTo = fn(&mut Random, u64, Kind) -> (Setting, Vec<Event>);

/// A pass over tables that are made for each kind of step, so many of each, and a step from each kind of start before and after it. The
/// model makes the tables, so that this costs few calls.
pub fn try_made_tables(
    random: &mut Random,
    both: &mut Both,
    form: u64,
    history_to: HistoryTo,
    of_each_kind: u64,
) -> Result<(), Finding> {
    for kind in (0..of_each_kind).flat_map(|_| KINDS) {
        let (setting, events) = history_to(random, form, kind);
        let table = made_by_model(setting, &events);
        let map = plain_map::of_table(&table).unwrap_or_default();
        let passed = try_pass(random, both, Sound { table: &table, map: &map })?;
        for table in [&table, &passed.table] {
            try_starts(random, both, Sound { table, map: &map }, passed.last_start)?;
        }
    }
    Ok(())
}

/// The table after events; those that it refuses change nothing.
pub fn made_by_model(Setting { form, c, k, mul1, mul2 }: Setting, events: &[Event]) -> Vec<u64> {
    let mut table = vec![0; table_words(c).unwrap_or(0)];
    create(&mut table, form, c, k, mul1, mul2);
    for &event in events {
        change_by_model(&mut table, event);
    }
    table
}

/// A step from each kind of start, where the table is not at rest. The table stays; `told` is the bucket that an earlier step told.
pub fn try_starts(random: &mut Random, both: &mut Both, sound: Sound, told: u64) -> Result<(), Finding> {
    for (start, from) in starts_of(random, sound.table, told) {
        checked_step(random, both, sound, start, from)?;
    }
    Ok(())
}

fn starts_of(random: &mut Random, table: &[u64], told: u64) -> Vec<(Start, u64)> {
    let buckets = match interim_buckets(table) {
        Some(buckets) => buckets,
        None => return vec![],
    };
    let with_word = |start: Start| Some((start, start.word(random, buckets, told)?));
    STARTS.into_iter().chain(MORE_STARTS).filter_map(with_word).collect()
}

fn checked_step(
    random: &mut Random,
    both: &mut Both,
    sound: Sound,
    start: Start,
    from: u64,
) -> Result<Changed, Finding> {
    let event = Event::StepFrom { from };
    let case = case_of(random, event, sound.table);
    both.tally.starts.count(kind_of(sound.table, start, from));
    let changed = check_change(both, &case, event, sound.map, Depth::WholeOnly)?;
    both.tally.starts.moves += u64::from(from > 0 && changed.stores == MOST_STORES);
    Ok(changed)
}

fn case_of(random: &mut Random, event: Event, table: &[u64]) -> Case {
    let list_words = LEAST_LIST_WORDS + random.index(5);
    Case { call: Call::Change(event), table: table.to_vec(), list: random.words(list_words) }
}

/// Starts on the table that a cut of a change leaves, and on the one that recovery makes of it.
pub fn try_starts_after_a_cut(
    random: &mut Random,
    both: &mut Both,
    table: &[u64],
    event: Event,
    told: u64,
) -> Result<(), Finding> {
    let mut list = [0; LEAST_LIST_WORDS];
    let (_, stores) = event.list_stores(table, &mut list);
    let mut table = table.to_vec();
    make(&mut table, &list, random.below(stores + 1));
    for (_, from) in starts_of(random, &table, told) {
        let case = case_of(random, Event::StepFrom { from }, &table);
        let number = both.run(&case)?.number;
        count_number(&mut both.tally.starts.of_cut_tables, &table, number);
    }
    let (_, stores) = Event::Recover.list_stores(&table, &mut list);
    make(&mut table, &list, stores);
    let map = plain_map::of_table(&table).unwrap_or_default();
    let sound = Sound { table: &table, map: &map };
    for (start, from) in starts_of(random, &table, told) {
        let number = checked_step(random, both, sound, start, from)?.number;
        count_number(&mut both.tally.starts.of_recovered_tables, &table, number);
    }
    Ok(())
}

/// The end of a pass: the table that it leaves, and the start of the step that was refused.
pub struct Passed {
    table: Vec<u64>,
    last_start: u64,
}

/// One pass over a table that grows or shrinks, from 0 and on from each bucket told, beside the model's steps: they move the same items, and where the
/// pass ends no step is left. The table stays.
pub fn try_pass(random: &mut Random, both: &mut Both, sound: Sound) -> Result<Passed, Finding> {
    let buckets = match interim_buckets(sound.table) {
        Some(buckets) => buckets,
        None => return Ok(Passed { table: sound.table.to_vec(), last_start: 0 }),
    };
    let (mut table, mut by_steps, mut from) = (sound.table.to_vec(), sound.table.to_vec(), 0);
    both.tally.starts.passes += 1;
    loop {
        let start = if from == 0 { Start::First } else { Start::Told };
        let stepped = checked_step(random, both, Sound { table: &table, ..sound }, start, from)?;
        let number_by_steps = change_by_model(&mut by_steps, Event::Step);
        let goes_on = stepped.number == SUCCESS;
        let is_ascending = !goes_on || (from..buckets).contains(&stepped.bucket);
        if !is_ascending || goes_on != (number_by_steps == SUCCESS) || stepped.table != by_steps {
            let case = Box::new(case_of(random, Event::StepFrom { from }, &table));
            return Err(Finding {
                check: Check::SoundTable,
                case,
                what: "a pass leaves the way of steps".to_string(),
            });
        }
        if !goes_on {
            return Ok(Passed { table, last_start: from });
        }
        both.tally.starts.steps_of_passes += 1;
        (table, from) = (stepped.table, stepped.bucket);
    }
}

/// Makes an event; answers its number.
pub fn change_by_model(table: &mut [u64], event: Event) -> u64 {
    let mut list = [0; LEAST_LIST_WORDS];
    let (number, stores) = event.list_stores(table, &mut list);
    make(table, &list, stores);
    number
}

#[cfg(test)]
mod tests {
    use super::*;
    use crate::layout::FORMS;
    use crate::starts::{rare_numbers, while_resizing};
    use crate::tally::Tally;
    use crate::{stuck_shrinks, stuck_tables};

    #[test]
    fn made_tables_bring_every_kind_of_start() {
        let mut tally = Tally::default();
        let (mut random, mut both) = (Random::new(1), Both::new(&mut tally));
        for history_to in [stuck_tables::history_to, stuck_shrinks::history_to] {
            for form in FORMS {
                try_made_tables(&mut random, &mut both, form, history_to, 10).unwrap();
            }
        }
        let starts = &tally.starts;
        assert_eq!((starts.rare(1), starts.passes), (vec![], 2 * 20 * KINDS.len() as u64));
        assert!(starts.moves > 0 && starts.steps_of_passes > starts.passes);
    }

    #[test]
    fn starts_are_tried_on_cut_and_on_recovered_tables() {
        let mut random = Random::new(1);
        let mut tally = Tally::default();
        let mut both = Both::new(&mut tally);
        let both_ways: [HistoryTo; 2] = [stuck_tables::history_to, stuck_shrinks::history_to];
        for (history_to, kind) in
            both_ways.into_iter().flat_map(|history_to| KINDS.map(|kind| (history_to, kind)))
        {
            let (setting, events) = history_to(&mut random, 2, kind);
            let table = made_by_model(setting, &events);
            let step = Event::StepFrom { from: 0 };
            try_starts_after_a_cut(&mut random, &mut both, &table, step, 1).unwrap();
        }
        for numbers in [&tally.starts.of_cut_tables, &tally.starts.of_recovered_tables] {
            assert_eq!(rare_numbers(numbers, &while_resizing(&[0, 6, 11]), 1), []);
        }
    }

    #[test]
    fn at_rest_there_is_nothing_to_try() {
        let (setting, _) = stuck_tables::history_to(&mut Random::new(1), 1, KINDS[0]);
        let (table, map) = (made_by_model(setting, &[]), PlainMap::new());
        let mut tally = Tally::default();
        let (mut random, mut both) = (Random::new(1), Both::new(&mut tally));
        let sound = Sound { table: &table, map: &map };
        assert_eq!(try_pass(&mut random, &mut both, sound).unwrap().table, table);
        try_starts(&mut random, &mut both, sound, 1).unwrap();
        assert_eq!((tally.total_calls, tally.starts.passes), (0, 0));
    }
}
