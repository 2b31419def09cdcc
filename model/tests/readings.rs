//! The corner readings: token words above 15, coinciding places, unsound
//! tables, and the edges of recovery.

mod common;
use common::*;
use ragansils_model::*;

#[test]
fn tokens_are_read_modulo_16_and_stored_below() {
    let mut story = Story::marked();
    story.table[35] = 16 + 1 + 4;
    story.table[36] = 1;
    story.table[42] = 3;
    assert_eq!(story.query(1).0, 0);
    assert_eq!(story.whole(insert_event(5, 0, 0)), [(39, 5), (40, 0), (41, 0), (35, 7)]);
    story.table[35] = u64::MAX;
    assert_eq!(story.list(Event::Delete { key: 1 }).1, [(35, 14)]);
    story.refused(Event::Recover, 12);
}

#[test]
fn an_interim_token_of_16_is_empty() {
    let mut story = Story::marked();
    story.whole(Event::Begin);
    story.table[9] = 16;
    story.refused(Event::Step, 11);
    assert_eq!(story.list(Event::End), (0, vec![(4, 2)]));
}

#[test]
fn coinciding_places_are_probed_once() {
    let mut story = Story::with(3, 2, MARKED_1, MARKED_1);
    assert_eq!(story.query(5), (5, [0, 0, 2, 0, 0]));
    story.whole(Event::Begin);
    assert_eq!(story.query(5), (5, [0, 0, 3, 0, 0]));
    let mut story = Story::with(3, 3, MARKED_1, MARKED_2);
    // Key 1: places 1 and 3 of eight, 1 and 3 of four.
    assert_eq!(story.query(1), (5, [0, 0, 4, 0, 0]));
    story.table[word::STATE] = 256 + 3;
    assert_eq!(story.query(1), (5, [0, 0, 5, 0, 0]));
}

#[test]
fn the_emptier_place_wins_and_the_first_on_a_tie() {
    let mut story = Story::with(3, 3, MARKED_1, MARKED_2);
    // Key 1 may stand in buckets 8 and 10 of the top; a tie takes bucket 8.
    assert_eq!(story.whole(insert_event(1, 0, 0))[3], (9 + 13 * 8, 1));
    // Key 9 shares both places; the second one is emptier now.
    assert_eq!(story.whole(insert_event(9, 0, 0))[3], (9 + 13 * 10, 1));
}

#[test]
fn an_item_in_a_wrong_place_is_absent_and_its_other_is_its_first_place() {
    let mut story = Story::marked();
    // Key 0 belongs to top bucket 1 (of 1 and 2) and stands in bucket 2.
    for number in 0..4 {
        put(&mut story, 2, number, [2 * number as u64, 5, 6]);
        put(&mut story, 0, number, [21 + 2 * number as u64, 5, 6]);
    }
    assert_eq!(story.query(0).0, 5);
    let pairs = story.list(insert_event(1, 7, 8)).1;
    assert_eq!(pairs[..5], [(23, 0), (24, 5), (25, 6), (22, 1), (35, 14)]);
    assert_eq!(pairs[5..], [(36, 1), (37, 7), (38, 8), (35, 15)]);
    story.refused(Event::Recover, 12);
}

#[test]
fn a_bottom_item_moves_to_its_second_top_place_when_the_first_is_full() {
    // Top of four: key K has places K and 3K modulo 4, so odd keys have two.
    let mut story = Story::with(2, 2, MARKED_1, MARKED_2);
    for number in 0..4 {
        put(&mut story, 3, number, [4 * (number as u64 + 1), 0, 0]); // top bucket 0, one place
        put(&mut story, 4, number, [5 + 4 * number as u64, 0, 0]); // top bucket 1
        put(&mut story, 1, number, [40 + 4 * number as u64, 0, 0]); // bottom bucket 0
    }
    // A bottom item out of place: its first top place is full, its second free.
    story.table[Slot { bucket: 1, number: 2 }.key_word()] = 1;
    story.table[Slot { bucket: 2, number: 0 }.token_word()] = 15;
    let pairs = story.list(insert_event(100, 0, 0)).1;
    assert_eq!(pairs[3], (9 + 13 * 6, 1));
    assert_eq!(pairs[4], (9 + 13, 11));
}

#[test]
fn a_doubled_key_is_found_first_in_probe_order() {
    let mut story = Story::marked();
    put(&mut story, 0, 0, [1, 5, 6]);
    put(&mut story, 2, 3, [1, 7, 8]);
    assert_eq!(story.query(1), (0, [7, 8, 1, 45, 0]));
    assert_eq!(story.list(Event::Delete { key: 1 }).1, [(35, 0)]);
    assert_eq!(story.list(update_event(1, 9, 9)).1[3], (35, 1));
}

#[test]
fn recovery_clears_the_later_of_an_equal_pair() {
    let mut story = Story::marked();
    put(&mut story, 0, 0, [1, 5, 6]);
    put(&mut story, 2, 3, [1, 5, 6]);
    assert_eq!(story.list(Event::Recover), (0, vec![(9, 0)]));
    // Within one bucket too.
    let mut story = Story::marked();
    put(&mut story, 2, 1, [1, 5, 6]);
    put(&mut story, 2, 3, [1, 5, 6]);
    assert_eq!(story.list(Event::Recover), (0, vec![(35, 2)]));
}

#[test]
fn recovery_refuses_all_other_doubles() {
    let double = |records: &[[u64; 3]]| {
        let mut story = Story::marked();
        for (number, record) in records.iter().enumerate() {
            put(&mut story, 2, number, *record);
        }
        story
    };
    double(&[[1, 5, 6], [1, 5, 7]]).refused(Event::Recover, 12);
    double(&[[1, 5, 6], [1, 4, 6]]).refused(Event::Recover, 12);
    double(&[[1, 5, 6], [1, 5, 6], [1, 5, 6]]).refused(Event::Recover, 12);
    double(&[[1, 5, 6], [1, 5, 6], [3, 5, 6], [3, 5, 6]]).refused(Event::Recover, 12);
    let mut flagged = double(&[[1, 5, 6], [1, 5, 6]]);
    flagged.table[word::FLAG] = 1;
    flagged.table[word::UPDATE_TARGET] = 36;
    flagged.refused(Event::Recover, 12);
}

#[test]
fn recovery_of_a_flag_wants_a_taken_slot_in_use() {
    let mut story = Story::marked();
    story.insert_keys([1, 2]);
    story.table[word::FLAG] = 1;
    story.table[word::UPDATE_FUNCTION] = 70;
    story.table[word::UPDATE_PLACE] = 80;
    for target in [0, 35, 37, 38, 39, 62, 100, u64::MAX] {
        story.table[word::UPDATE_TARGET] = target;
        story.refused(Event::Recover, 12);
    }
    story.table[word::UPDATE_TARGET] = 36;
    assert_eq!(story.list(Event::Recover).1, [(37, 70), (38, 80), (5, 0)]);
    story.table[word::FLAG] = 2;
    story.refused(Event::Recover, 12);
}

#[test]
fn recovery_refuses_tokens_in_unused_levels_and_above_15() {
    for (index, token) in [(61, 1), (48, 16), (22, 16), (9, 17)] {
        let mut story = Story::marked();
        story.table[index] = token;
        story.refused(Event::Recover, 12);
    }
}

#[test]
fn update_works_in_the_interim_level() {
    let mut story = Story::marked();
    story.insert_keys((1..=9).step_by(2));
    story.whole(Event::Begin);
    assert_eq!(story.whole(update_event(9, 1, 2)), [(13, 9), (14, 1), (15, 2), (9, 2)]);
    assert_eq!(story.query(9), (0, [1, 2, 4, 13, 2]));
}

#[test]
fn garbage_is_always_answered() {
    let mut garbage = garbage_words();
    for round in 0..2000 {
        let mut table: Vec<u64> = (0..100).map(|_| garbage()).collect();
        if round % 4 != 0 {
            let state = [1, 2, 258, 513][garbage() as usize % 4];
            let form = BOTH_FORMS[round % 2];
            table[..6].copy_from_slice(&[form, 2, garbage() | 1, garbage() | 1, state, 0]);
        }
        let key = garbage();
        query(&table, key);
        asked(&table, &table, key);
        part(&table, &table, key);
        chain(&table, key / 256, key % 256, &mut [0; 512]);
        for event in [insert_event(key, 1, 2), update_event(key, 1, 2), Event::Delete { key }]
            .into_iter()
            .chain([Event::Begin, Event::Shrink, Event::Back, Event::Step, Event::StepFrom { from: key }])
            .chain([Event::End, Event::Recover])
        {
            event.list_stores(&table, &mut [0; 20]);
        }
    }
}
