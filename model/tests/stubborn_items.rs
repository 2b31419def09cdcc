//! Request b) of document 02: a step passes over interim items that have no place. Told for growth; any tables at the
//! end grow or shrink.
//!
//! In all tables but the last one both multipliers are 4294967297, so that a key below 2^32 has one place in each
//! level: key modulo the level's size. An item then has no "other" place, and the only move is that of a bottom
//! item to its top place. Bucket j has its token at word 9 + 13j: 9, 22, 35, 48, 61, 74, 87, 100, 113, ...

mod common;
use common::resizing::*;
use common::*;
use ragansils_model::*;
use std::collections::BTreeMap;

#[test]
fn a_later_item_of_the_same_bucket_is_taken() {
    let mut story = one_interim_bucket(&[16, 6]);
    assert_eq!(story.whole(Event::Step), [(75, 6), (76, 106), (77, 206), (74, 1), (9, 1)]);
    story.refused(Event::Step, 6);

    let mut story = one_interim_bucket(&[16, 20, 24, 6]);
    assert_eq!(story.whole(Event::Step), [(75, 6), (76, 106), (77, 206), (74, 1), (9, 7)]);
    story.refused(Event::Step, 6);
    assert_eq!(map_of(&story.table), map_with([0, 4, 8, 12, 16, 20, 24, 6, 32, 36, 40, 44]));
}

#[test]
fn a_later_item_is_taken_with_a_move() {
    let mut story = one_interim_bucket_with_a_move(&[16, 17]);
    let moved = [(88, 3), (89, 103), (90, 203), (87, 1), (35, 7)];
    let placed = [(45, 17), (46, 117), (47, 217), (35, 15), (9, 1)];
    assert_eq!(story.whole(Event::Step), [moved, placed].concat());
    story.refused(Event::Step, 6);
}

#[test]
fn an_item_of_a_later_bucket_is_taken() {
    let mut story = two_interim_buckets(&[32, 40, 48, 56, 37, 45]);
    assert_eq!(story.whole(Event::Step), [(166, 37), (167, 137), (168, 237), (165, 1), (35, 2)]);
    assert_eq!(story.whole(Event::Step), [(169, 45), (170, 145), (171, 245), (165, 3), (35, 0)]);
    story.refused(Event::Step, 6);

    // The first item of the later bucket has no place either.
    let mut story = two_interim_buckets(&[32, 33, 37]);
    assert_eq!(story.whole(Event::Step), [(166, 37), (167, 137), (168, 237), (165, 1), (35, 1)]);
    story.refused(Event::Step, 6);
}

#[test]
fn six_when_no_item_has_a_place() {
    one_interim_bucket(&[16]).refused(Event::Step, 6);
    one_interim_bucket(&[16, 20, 24, 28]).refused(Event::Step, 6);
    two_interim_buckets(&[33]).refused(Event::Step, 6);
    two_interim_buckets(&[32, 33]).refused(Event::Step, 6);
    let story = two_interim_buckets(&[32, 40, 48, 56, 33, 41, 49, 57]);
    story.refused(Event::Step, 6);
    story.refused(Event::End, 10);
}

#[test]
fn eleven_when_no_item_is_left() {
    // The same neighbourhoods are full, but no item waits for them.
    one_interim_bucket(&[]).refused(Event::Step, 11);
    two_interim_buckets(&[]).refused(Event::Step, 11);
    // 16 was the only item.
    let mut story = one_interim_bucket(&[16]);
    assert_eq!(story.whole(Event::Delete { key: 16 }), [(9, 0)]);
    story.refused(Event::Step, 11);
    assert_eq!(story.whole(Event::End), [(4, 2)]);
}

#[test]
fn eight_at_rest() {
    let mut story = Story::with(2, 1, MARKED_1, MARKED_1);
    story.refused(Event::Step, 8);
    story.insert_keys([0, 4, 8, 12, 16, 6]);
    story.refused(Event::Step, 8);
    let mut story = one_interim_bucket(&[6]);
    story.whole(Event::Step);
    story.whole(Event::End);
    story.refused(Event::Step, 8);
    // What is taken in a level that is not in use does not count.
    put(&mut story, 0, 0, [16, 1, 2]);
    story.refused(Event::Step, 8);
}

#[test]
fn one_then_two_then_three_come_before() {
    for (mut story, number) in [
        (one_interim_bucket(&[16, 6]), 0),
        (one_interim_bucket(&[16]), 6),
        (Story::with(2, 1, MARKED_1, MARKED_1), 8),
        (one_interim_bucket(&[]), 11),
    ] {
        assert_eq!(story.list(Event::Step).0, number);
        story.table[word::FLAG] = 1;
        story.refused(Event::Step, 3);
        assert_eq!(step(&story.table, &mut [UNTOUCHED; 19]), (2, 0));
        story.table[word::STATE] = 3;
        assert_eq!(step(&story.table, &mut [UNTOUCHED; 19]), (1, 0));
    }
}

#[test]
fn of_two_items_with_a_place_the_earlier_is_taken() {
    let mut story = one_interim_bucket(&[16, 6, 20, 10]);
    assert_eq!(story.whole(Event::Step), [(75, 6), (76, 106), (77, 206), (74, 1), (9, 13)]);
    assert_eq!(story.whole(Event::Step), [(78, 10), (79, 110), (80, 210), (74, 3), (9, 5)]);
    story.refused(Event::Step, 6);
}

#[test]
fn the_bucket_counts_before_the_slot() {
    // 36 stands in the last slot of bucket 1, 37 in the first one of bucket 2.
    let mut story = two_interim_buckets(&[37, 32, 40, 48, 36]);
    assert_eq!(story.whole(Event::Step), [(153, 36), (154, 136), (155, 236), (152, 1), (22, 7)]);
    assert_eq!(story.whole(Event::Step), [(166, 37), (167, 137), (168, 237), (165, 1), (35, 0)]);
    story.refused(Event::Step, 6);
}

#[test]
fn a_place_by_a_move_counts_as_much_as_a_free_slot() {
    let mut story = one_interim_bucket_with_a_move(&[16, 17, 6]);
    let moved = [(88, 3), (89, 103), (90, 203), (87, 1), (35, 7)];
    let placed = [(45, 17), (46, 117), (47, 217), (35, 15), (9, 5)];
    assert_eq!(story.whole(Event::Step), [moved, placed].concat());
    assert_eq!(story.whole(Event::Step), [(75, 6), (76, 106), (77, 206), (74, 1), (9, 1)]);
    story.refused(Event::Step, 6);
}

#[test]
fn a_first_item_with_a_place_is_taken_as_before() {
    let mut story = one_interim_bucket(&[6, 16, 10]);
    assert_eq!(story.whole(Event::Step), [(75, 6), (76, 106), (77, 206), (74, 1), (9, 6)]);
    assert_eq!(story.whole(Event::Step), [(78, 10), (79, 110), (80, 210), (74, 3), (9, 2)]);
    story.refused(Event::Step, 6);
}

#[test]
fn after_a_delete_the_first_item_is_taken_again() {
    // Room in the top.
    let mut story = one_interim_bucket(&[16, 20, 6]);
    assert_eq!(story.whole(Event::Delete { key: 36 }), [(48, 13)]);
    assert_eq!(story.whole(Event::Step), [(52, 16), (53, 116), (54, 216), (48, 15), (9, 6)]);
    assert_eq!(story.whole(Event::Step), [(75, 6), (76, 106), (77, 206), (74, 1), (9, 2)]);
    story.refused(Event::Step, 6);

    // Room in the bottom, after an item behind was taken.
    let mut story = one_interim_bucket(&[16, 20, 6, 10]);
    assert_eq!(story.whole(Event::Step), [(75, 6), (76, 106), (77, 206), (74, 1), (9, 11)]);
    assert_eq!(story.whole(Event::Delete { key: 8 }), [(22, 11)]);
    assert_eq!(story.whole(Event::Step), [(29, 16), (30, 116), (31, 216), (22, 15), (9, 10)]);
    assert_eq!(story.whole(Event::Step), [(78, 10), (79, 110), (80, 210), (74, 3), (9, 2)]);
    story.refused(Event::Step, 6);
}

#[test]
fn e11_answers_six() {
    let mut story = Story::with(2, 1, MARKED_1, MARKED_1);
    story.insert_keys([0, 4, 8, 12, 16, 20, 24, 28]);
    assert_eq!(story.whole(Event::Begin), [(4, 258)]);
    story.insert_keys([32, 36, 40, 44]);
    // "its four interim items share the same full places": bucket 3 of the top and bucket 1 of the bottom.
    let tokens = [9, 22, 35, 48, 61, 74, 87].map(|token_word| story.table[token_word]);
    assert_eq!(tokens, [15, 15, 0, 15, 0, 0, 0]);
    assert_eq!([10, 13, 16, 19].map(|key_word| story.table[key_word]), [16, 20, 24, 28]);
    story.refused(Event::Step, 6);
    story.refused(Event::End, 10);
}

#[test]
fn a_cut_step_of_a_later_item_keeps_the_map() {
    let whole_map = map_of(&one_interim_bucket(&[16, 20, 6]).table);
    for kept in 0..=5 {
        let mut story = one_interim_bucket(&[16, 20, 6]);
        story.cut(Event::Step, kept);
        // After four stores 6 stands twice; the interim one is the later.
        let recovered = if kept == 4 { vec![(9, 3)] } else { vec![] };
        assert_eq!(story.whole(Event::Recover), recovered);
        assert_eq!(map_of(&story.table), whole_map);
    }
    let whole_map = map_of(&one_interim_bucket_with_a_move(&[16, 17]).table);
    for kept in 0..=10 {
        let mut story = one_interim_bucket_with_a_move(&[16, 17]);
        story.cut(Event::Step, kept);
        // After four stores 3 stands in top and bottom, after nine 17 in bottom and interim.
        let recovered = [(4, (35, 7)), (9, (9, 1))].into_iter().filter(|(cut, _)| *cut == kept);
        let recovered: Vec<(u64, u64)> = recovered.map(|(_, store)| store).collect();
        assert_eq!(story.whole(Event::Recover), recovered);
        assert_eq!(map_of(&story.table), whole_map);
    }
}

#[test]
fn damage_does_not_change_which_item_is_taken() {
    let mut story = one_interim_bucket(&[16, 6]);
    story.table[9] += 16; // token words are read modulo 16, and stored below it
    put(&mut story, 5, 0, [6, 1, 2]); // 6 stands twice: it is placed again
    assert_eq!(story.whole(Event::Step), [(78, 6), (79, 106), (80, 206), (74, 3), (9, 1)]);
    story.refused(Event::Step, 6);
    story.table[9] = 16;
    story.refused(Event::Step, 11);
}

/// The step of the item in a slot of interim bucket 127 + residue, residue not 0. Its key is residue + 1024 +
/// 256·slot, so that even slots go to top bucket 511 + residue, and odd ones 256 buckets further.
fn step_behind_four(residue: u64, slot: u64) -> [(u64, u64); 5] {
    let key = residue + 1024 + 256 * slot;
    let token_word = 9 + 13 * (511 + residue + 256 * (slot % 2));
    let (key_word, token) = if slot < 2 { (token_word + 1, 1) } else { (token_word + 4, 3) };
    let interim_token = [14, 12, 8, 0][slot as usize];
    [
        (key_word, key),
        (key_word + 1, key + 100),
        (key_word + 2, key + 200),
        (token_word, token),
        (9 + 13 * (127 + residue), interim_token),
    ]
}

/// Deletes a key and forgets it; checks the store.
fn delete_from(story: &mut Story, map: &mut BTreeMap<u64, [u64; 2]>, key: u64, store: (u64, u64)) {
    assert_eq!(story.whole(Event::Delete { key }), [store]);
    assert!(map.remove(&key).is_some());
    assert_eq!(map_of(&story.table), *map);
}

/// Steps once with these stores; the map must be kept.
fn step_keeps(story: &mut Story, map: &BTreeMap<u64, [u64; 2]>, stores: [(u64, u64); 5]) {
    assert_eq!(story.whole(Event::Step), stores);
    assert_eq!(map_of(&story.table), *map);
}

/// Each key of the map is found with its record.
fn queries_answer(story: &Story, map: &BTreeMap<u64, [u64; 2]>) {
    for (&key, &[function, place]) in map {
        let (number, [found_function, found_place, ..]) = story.query(key);
        assert_eq!((number, found_function, found_place), (0, function, place), "{key}");
    }
}

#[test]
fn hundreds_are_placed_behind_stuck_items_and_these_after_deletes() {
    let mut story = hundreds_behind_four();
    let mut map = map_with((0..128).flat_map(|residue| keys_of_residue(residue).concat()));
    map.extend(map_with([4096, 4608, 5120, 5632]));
    assert_eq!(map_of(&story.table), map);

    for residue in 1..128 {
        for slot in 0..4 {
            step_keeps(&mut story, &map, step_behind_four(residue, slot));
        }
    }
    // Only the four of bucket 127 are left; its token word is 9 + 13·127 = 1660.
    story.refused(Event::Step, 6);
    story.refused(Event::End, 10);
    let interim_tokens = |story: &Story| (0..128).map(|index| story.table[1660 + 13 * index]).sum::<u64>();
    assert_eq!((story.table[1660], interim_tokens(&story)), (15, 15));
    queries_answer(&story, &map);

    // Bucket 511 has its token at word 6652, bucket 255 at word 3324.
    delete_from(&mut story, &mut map, 4608, (6652, 13));
    step_keeps(&mut story, &map, [(6656, 2048), (6657, 2148), (6658, 2248), (6652, 15), (1660, 14)]);
    story.refused(Event::Step, 6);
    delete_from(&mut story, &mut map, 0, (3324, 14));
    delete_from(&mut story, &mut map, 1536, (3324, 6));
    step_keeps(&mut story, &map, [(3325, 2560), (3326, 2660), (3327, 2760), (3324, 7), (1660, 12)]);
    step_keeps(&mut story, &map, [(3334, 3072), (3335, 3172), (3336, 3272), (3324, 15), (1660, 8)]);
    story.refused(Event::Step, 6);
    delete_from(&mut story, &mut map, 4096, (6652, 14));
    step_keeps(&mut story, &map, [(6653, 3584), (6654, 3684), (6655, 3784), (6652, 15), (1660, 0)]);

    story.refused(Event::Step, 11);
    assert_eq!(story.whole(Event::End), [(4, 9)]);
    story.refused(Event::Step, 8);
    assert_eq!(map_of(&story.table), map);
    queries_answer(&story, &map);
}

#[test]
fn a_step_inserts_the_first_item_that_insert_would_take() {
    for way in BOTH_WAYS {
        let mut garbage = garbage_words();
        let [mut first, mut later, mut later_by_move, mut stuck, mut empty] = [0; 5];
        for round in 0..8000 {
            let story = garbage_table(way, round % 4, round % 9 == 0, &mut garbage);
            let Told { number, stores, passed_over, .. } = step_told_by_inserts(&story.table, 0);
            match (number, passed_over) {
                (SUCCESS, 0) => first += 1,
                (SUCCESS, _) => later += 1,
                (6, _) => stuck += 1,
                _ => empty += 1,
            }
            later_by_move += usize::from(passed_over > 0 && stores.len() == 10);
            assert_eq!(story.list(Event::Step), (number, stores));
        }
        let counts = [first, later, later_by_move, stuck, empty];
        assert!(counts.iter().all(|&count| count > 300), "{way:?} {counts:?}");
    }
}
