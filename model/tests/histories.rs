//! Whole histories against a plain map, in both forms: every changing call in every phase, cut anywhere, with recoveries
//! that are cut too.

mod common;
use common::resizing::*;
use common::*;
use ragansils_model::*;
use std::collections::BTreeMap;

type Map = BTreeMap<u64, [u64; 2]>;

/// The events by name, for counting.
const NAMES: [&str; 9] =
    ["insert", "update", "delete", "begin", "shrink", "back", "step", "step_from", "end"];

fn name_of(event: Event) -> usize {
    match event {
        Event::Insert { .. } => 0,
        Event::Update { .. } => 1,
        Event::Delete { .. } => 2,
        Event::Begin => 3,
        Event::Shrink => 4,
        Event::Back => 5,
        Event::Step => 6,
        Event::StepFrom { .. } => 7,
        Event::End => 8,
        Event::Recover => unreachable!("recovery is no change"),
    }
}

/// Any change of a few keys. The calls that resize are frequent, and so are steps.
fn any_event(keys: &[u64], mut garbage: impl FnMut() -> u64) -> Event {
    let key = keys[garbage() as usize % keys.len()];
    match garbage() % 32 {
        0..=10 => insert_event(key, garbage(), garbage()),
        11..=13 => update_event(key, garbage(), garbage()),
        14..=17 => Event::Delete { key },
        18 => Event::Begin,
        19..=20 => Event::Shrink,
        21 => Event::Back,
        22..=24 => Event::StepFrom { from: garbage() % 6 },
        25..=27 => Event::End,
        _ => Event::Step,
    }
}

fn phase_of(table: &[u64]) -> usize {
    table[4] as usize / 256
}

/// What the documents say of an event on a sound table; none where only placing tells it.
fn expected_number(table: &[u64], map: &Map, event: Event) -> Option<u64> {
    let (c, k, at_rest) = (table[1], table[4] % 256, phase_of(table) == 0);
    Some(match event {
        Event::Insert { key, .. } if map.contains_key(&key) => 4,
        Event::Insert { .. } => return None,
        Event::Update { key, .. } | Event::Delete { key } => 5 * u64::from(!map.contains_key(&key)),
        Event::Begin | Event::Shrink if !at_rest => 7,
        Event::Begin => 9 * u64::from(k == c),
        Event::Shrink => 17 * u64::from(k < 2),
        Event::Back | Event::Step | Event::StepFrom { .. } | Event::End if at_rest => 8,
        Event::Back => 0,
        Event::Step => step_told_by_inserts(table, 0).number,
        Event::StepFrom { from } => step_told_by_inserts(table, from).number,
        Event::End => 10 * u64::from(!interim_items(table).is_empty()),
        Event::Recover => 0,
    })
}

/// How often what happened. The first index is the phase before the event.
#[derive(Debug, Default)]
struct Tally {
    accepted: [[u32; 9]; 3],
    refused: [[u32; 18]; 3],
    cut_in_two: [[u32; 9]; 3],
    steps_with_a_move: [u32; 3],
}

struct History {
    story: Story,
    map: Map,
    keys: Vec<u64>,
    tally: Tally,
}

impl History {
    fn begin_with(form: u64, tally: Tally, mut garbage: impl FnMut() -> u64) -> History {
        let c = 1 + garbage() % 4;
        let k = 1 + garbage() % c;
        let mul1 = garbage() | 1;
        let mul2 = if garbage() % 4 == 0 { mul1 } else { garbage() | 1 };
        let keys = (0..5 << c).map(|_| garbage()).collect();
        History { story: Story::in_form(form, c, k, mul1, mul2), map: Map::new(), keys, tally }
    }

    fn perform(&mut self, event: Event, mut garbage: impl FnMut() -> u64) {
        let (phase, name) = (phase_of(&self.story.table), name_of(event));
        let (number, pairs) = self.story.list(event);
        let expected = expected_number(&self.story.table, &self.map, event);
        assert!(expected == Some(number) || (expected.is_none() && [0, 6].contains(&number)), "{event:?}");
        if number != SUCCESS {
            assert_eq!(pairs, []);
            self.tally.refused[phase][number as usize] += 1;
            return;
        }
        assert!((1..=10).contains(&pairs.len()));
        self.tally.accepted[phase][name] += 1;
        let is_step = matches!(event, Event::Step | Event::StepFrom { .. });
        self.tally.steps_with_a_move[phase] += u32::from(is_step && pairs.len() == 10);

        let cut = garbage() % 3 == 0;
        let kept = if cut { garbage() as usize % (pairs.len() + 1) } else { pairs.len() };
        self.tally.cut_in_two[phase][name] += u32::from(0 < kept && kept < pairs.len());
        self.story.cut(event, kept);
        if cut {
            recover_with_cuts(&mut self.story, &mut garbage);
        }
        self.take_map(event, kept, pairs.len());
    }

    /// "each cut call counts as fully made or not made at all".
    fn take_map(&mut self, event: Event, kept: usize, stores: usize) {
        let made = map_after(&self.map, event);
        let now = map_of(&self.story.table);
        assert!(now == made || (kept < stores && now == self.map), "{event:?}, {kept} of {stores}");
        assert!(kept > 0 || now == self.map);
        self.map = now;
    }

    /// The table is sound, and queries answer as the map does.
    fn assert_answers(&self) {
        self.story.assert_sound();
        let most_probes = [4, 6, 6][phase_of(&self.story.table)];
        for key in &self.keys {
            let (number, [function, place, probes, ..]) = self.story.query(*key);
            assert!(probes <= most_probes);
            assert_eq!(self.story.query(*key), by_hand::query_reading_every_slot(&self.story.table, *key));
            match self.map.get(key) {
                Some(record) => assert_eq!((number, [function, place]), (SUCCESS, *record)),
                None => assert_eq!((number, [function, place]), (5, [0, 0])),
            }
        }
    }
}

/// Recoveries that are cut anywhere, and at last one that is not.
fn recover_with_cuts(story: &mut Story, mut garbage: impl FnMut() -> u64) {
    for _ in 0..garbage() % 3 {
        story.cut(Event::Recover, garbage() as usize % 4);
    }
    assert!(story.whole(Event::Recover).len() <= 3);
    assert_eq!(story.list(Event::Recover), (SUCCESS, vec![]));
}

fn histories_are_those_of_a_plain_map(form: u64) {
    let mut garbage = garbage_words();
    let mut tally = Tally::default();
    for _ in 0..400 {
        let mut history = History::begin_with(form, tally, &mut garbage);
        for _ in 0..250 {
            let event = any_event(&history.keys, &mut garbage);
            history.perform(event, &mut garbage);
            history.assert_answers();
        }
        tally = history.tally;
    }
    assert_enough_happened(&tally);
}

#[test]
fn histories_with_cuts_in_form_1() {
    histories_are_those_of_a_plain_map(1);
}

#[test]
fn histories_with_cuts_in_form_2() {
    histories_are_those_of_a_plain_map(2);
}

/// Each change was accepted in each phase in which it can be, each refusal given, and each longer list cut.
fn assert_enough_happened(tally: &Tally) {
    let [insert_to_delete, begin, shrink, back, steps_and_end] = [0..3, 3..4, 4..5, 5..6, 6..9];
    let accepted_in = |phase: usize| match phase {
        0 => [insert_to_delete.clone(), begin.clone(), shrink.clone()],
        _ => [insert_to_delete.clone(), back.clone(), steps_and_end.clone()],
    };
    for phase in 0..3 {
        for name in accepted_in(phase).into_iter().flatten() {
            assert!(tally.accepted[phase][name] > 100, "phase {phase}, {}: {tally:?}", NAMES[name]);
        }
        let refusals: &[usize] = if phase == 0 { &[4, 5, 6, 8, 9, 17] } else { &[4, 5, 6, 7, 10, 11] };
        for &number in refusals {
            assert!(tally.refused[phase][number] > 50, "phase {phase}, refusal {number}: {tally:?}");
        }
        let lists_of_several: &[usize] = if phase == 0 { &[0, 1] } else { &[0, 1, 6, 7] };
        for &name in lists_of_several {
            assert!(tally.cut_in_two[phase][name] > 20, "phase {phase}, {}: {tally:?}", NAMES[name]);
        }
    }
    assert!(tally.steps_with_a_move[1..].iter().all(|&moves| moves > 10), "{tally:?}");
}

// ---- Every cut of every change, and every cut of its recovery.

/// A sound table in any phase.
fn any_sound_table(form: u64, round: u64, mut garbage: impl FnMut() -> u64) -> Story {
    let (way, c) = (BOTH_WAYS[round as usize / 2 % 2], 2 + round % 2);
    let mut story = crowded_table_in(form, way, c, round % 3 == 0, &mut garbage);
    if round % 5 == 0 {
        story.whole(Event::Back);
    }
    if round % 7 == 0 {
        // Without its interim items it may end.
        let buckets = interim_buckets(&story.table).len();
        clear_interim(&mut story.table, 0..buckets);
        if round % 2 == 0 {
            story.whole(Event::End);
        }
    }
    assert_eq!(story.list(Event::Recover), (SUCCESS, vec![]));
    story
}

fn events_on(table: &[u64], mut garbage: impl FnMut() -> u64) -> Vec<Event> {
    let new = insert_event(garbage(), garbage(), garbage());
    let mut events = vec![new, Event::Begin, Event::Shrink, Event::Back, Event::Step, Event::End];
    events.push(Event::StepFrom { from: garbage() % 4 });
    for key in map_of(table).into_keys() {
        if garbage() % 8 != 0 {
            continue;
        }
        events.extend([update_event(key, garbage(), garbage()), Event::Delete { key }]);
    }
    events
}

/// Cuts an accepted event after each store, and the recovery after it, too.
fn cut_everywhere(story: &Story, event: Event) {
    let before = map_of(&story.table);
    let after = map_after(&before, event);
    let (_, stores) = story.list(event);
    for kept in 0..=stores.len() {
        let mut cut = Story { table: story.table.clone() };
        cut.cut(event, kept);
        let (_, recovery) = cut.list(Event::Recover);
        assert!(recovery.len() <= 3);
        for recovery_kept in 0..=recovery.len() {
            let mut recovered = Story { table: cut.table.clone() };
            recovered.cut(Event::Recover, recovery_kept);
            recovered.whole(Event::Recover);
            assert_eq!(recovered.list(Event::Recover), (SUCCESS, vec![]));
            let map = map_of(&recovered.table);
            assert!(map == after || (kept < stores.len() && map == before), "{event:?}, {kept}");
            // The state is stored by the call alone.
            assert_eq!(recovered.table[4], cut.table[4]);
        }
    }
}

fn every_cut_leaves_the_map_before_or_after(form: u64) {
    let mut garbage = garbage_words();
    let mut accepted = [[0; 9]; 3];
    for round in 0..420 {
        let story = any_sound_table(form, round, &mut garbage);
        for event in events_on(&story.table, &mut garbage) {
            if story.list(event).0 == SUCCESS {
                cut_everywhere(&story, event);
                accepted[phase_of(&story.table)][name_of(event)] += 1;
            }
        }
    }
    let enough = |phase: usize, names: &[usize]| names.iter().all(|&name| accepted[phase][name] > 10);
    assert!(enough(0, &[0, 1, 2, 3, 4]), "{accepted:?}");
    assert!((1..3).all(|phase| enough(phase, &[0, 1, 2, 5, 6, 7, 8])), "{accepted:?}");
}

#[test]
fn every_cut_of_every_change_in_both_forms() {
    BOTH_FORMS.into_iter().for_each(every_cut_leaves_the_map_before_or_after);
}

#[test]
fn calls_that_store_a_state_change_no_other_word_and_keep_the_map() {
    let mut garbage = garbage_words();
    for round in 0..400 {
        let form = BOTH_FORMS[round as usize / 4 % 2];
        let story = any_sound_table(form, round, &mut garbage);
        for event in [Event::Begin, Event::Shrink, Event::Back, Event::End] {
            let mut changed = Story { table: story.table.clone() };
            if changed.list(event).0 != SUCCESS {
                continue;
            }
            assert!(matches!(changed.whole(event)[..], [(4, _)]));
            assert_eq!(changed.list(Event::Recover), (SUCCESS, vec![]), "{event:?}");
            for (key, [function, place]) in map_of(&story.table) {
                let (number, words) = changed.query(key);
                assert_eq!((number, &words[..2]), (SUCCESS, &[function, place][..]));
            }
        }
    }
}
