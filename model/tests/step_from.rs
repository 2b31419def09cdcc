//! The step that goes on: what `step_from` answers from a start.
//!
//! Interim buckets are counted from 0 in their level. In the told tables both multipliers are 4294967297, so that a
//! key below 2^32 has one place in each level: key modulo the level's size. `two_interim_buckets` takes keys of 0
//! modulo 8 (stuck) and 4 modulo 8 (with a place) to interim bucket 0, and of 1 modulo 8 (stuck) and 5 modulo 8
//! (with a place) to interim bucket 1; their tokens are at words 22 and 35.

mod common;
use common::resizing::*;
use common::*;
use ragansils_model::*;

/// The stores of 36, the only item of interim bucket 0, and of 37, the only one of interim bucket 1.
const STORES_OF_36: [(u64, u64); 5] = [(153, 36), (154, 136), (155, 236), (152, 1), (22, 0)];
const STORES_OF_37: [(u64, u64); 5] = [(166, 37), (167, 137), (168, 237), (165, 1), (35, 0)];

/// Starts past a level of M buckets, the next one first. Among them are words that would come back into the table if
/// they were cut to 32 bits, or if their sum with M − 1 or their product with 13 wrapped around.
fn starts_past(buckets: u64) -> [u64; 9] {
    let thirteenth = 0x4ec4_ec4e_c4ec_4ec5; // 13 times this is 1 modulo 2^64
    [
        buckets,
        buckets + 1,
        2 * buckets,
        1 << 32,
        1 << 63,
        thirteenth,
        u64::MAX - buckets + 1,
        u64::MAX - 1,
        u64::MAX,
    ]
}

/// c = 4, growing, with interim buckets 3 to 6. The numbers are of the interim buckets, from 0, that hold one item:
/// key and slot are its bucket's number, and its place is the same bucket of the top, which begins at bucket 15.
fn four_interim_buckets(numbers: &[u64]) -> Story {
    let mut story = Story::with(4, 3, MARKED_1, MARKED_1);
    story.whole(Event::Begin);
    for &number in numbers {
        put(&mut story, 3 + number as usize, number as usize, [number, number + 100, number + 200]);
    }
    story
}

fn answer_in_four_buckets(number: u64) -> (u64, u64, Vec<(u64, u64)>) {
    let top = 9 + 13 * (15 + number);
    let record = [(top + 1, number), (top + 2, number + 100), (top + 3, number + 200)];
    (SUCCESS, number, [&record[..], &[(top, 1), (9 + 13 * (3 + number), 0)]].concat())
}

#[test]
fn each_bucket_may_be_the_start() {
    let story = four_interim_buckets(&[0, 1, 2, 3]);
    for start in 0..4 {
        assert_eq!(story.step_from(start), answer_in_four_buckets(start));
    }
    story.step_from_refused(4, 11);
}

#[test]
fn the_bucket_told_is_that_of_the_item() {
    // Empty buckets lie between the start and the item.
    let story = four_interim_buckets(&[0, 3]);
    assert_eq!(story.step_from(0), answer_in_four_buckets(0));
    for start in 1..4 {
        assert_eq!(story.step_from(start), answer_in_four_buckets(3));
    }
    // Stuck items lie between them: 32 in the start bucket, 33 in the bucket of 37.
    let story = two_interim_buckets(&[32, 33, 37]);
    let stores_of_37 = [(166, 37), (167, 137), (168, 237), (165, 1), (35, 1)].to_vec();
    for start in 0..2 {
        assert_eq!(story.step_from(start), (SUCCESS, 1, stores_of_37.clone()));
    }
}

#[test]
fn an_item_before_the_start_is_not_taken() {
    let story = two_interim_buckets(&[36, 37]);
    assert_eq!(story.step_from(0), (SUCCESS, 0, STORES_OF_36.to_vec()));
    assert_eq!(story.step_from(1), (SUCCESS, 1, STORES_OF_37.to_vec()));
}

#[test]
fn an_item_may_be_taken_with_a_move() {
    // c = 3: 33 has full places, but of its bottom place's items 5 may rise to top bucket 12.
    let mut story = Story::with(3, 2, MARKED_1, MARKED_1);
    story.insert_keys([1, 9, 17, 5, 33]);
    story.whole(Event::Begin);
    story.insert_keys([65, 73, 81, 89]);
    let moved = [(166, 5), (167, 105), (168, 205), (165, 1), (61, 7)];
    let placed = [(71, 33), (72, 133), (73, 233), (61, 15), (35, 0)];
    for start in 0..2 {
        assert_eq!(story.step_from(start), (SUCCESS, 1, [moved, placed].concat()));
    }
}

#[test]
fn eleven_when_no_item_stands_from_there_on() {
    // Items stand before, with a place and without one.
    for before in [&[36][..], &[32], &[32, 36]] {
        two_interim_buckets(before).step_from_refused(1, 11);
    }
    four_interim_buckets(&[0, 1, 2]).step_from_refused(3, 11);
    one_interim_bucket(&[16, 6]).step_from_refused(1, 11);
    for start in 0..2 {
        two_interim_buckets(&[]).step_from_refused(start, 11);
    }
    // A token word of 16 holds no item.
    let mut story = two_interim_buckets(&[36]);
    story.table[35] = 16;
    story.step_from_refused(1, 11);
}

#[test]
fn six_when_some_stand_from_there_on_and_none_has_a_place() {
    // 36 has a place but stands before the start.
    let story = two_interim_buckets(&[36, 33, 41]);
    story.step_from_refused(1, 6);
    assert_eq!(story.step_from(0), (SUCCESS, 0, STORES_OF_36.to_vec()));
    for start in 0..2 {
        two_interim_buckets(&[32, 33]).step_from_refused(start, 6);
        two_interim_buckets(&[33]).step_from_refused(start, 6);
    }
    one_interim_bucket(&[16]).step_from_refused(0, 6);
}

#[test]
fn a_start_past_the_level_is_eleven_while_growing_and_eight_at_rest() {
    let growing = [(one_interim_bucket(&[16, 6]), 1), (two_interim_buckets(&[32, 36, 37]), 2)];
    for (mut story, buckets) in growing.into_iter().chain([(four_interim_buckets(&[0, 1, 2, 3]), 4)]) {
        for start in starts_past(buckets) {
            story.step_from_refused(start, 11);
        }
        story.table[word::STATE] -= PHASE_UNIT; // at rest
        for start in starts_past(buckets).into_iter().chain(0..buckets) {
            story.step_from_refused(start, 8);
        }
    }
}

#[test]
fn one_two_three_and_eight_come_first_in_this_order() {
    // The start 0 would be accepted, 1 is 6, 2 is past the level.
    let growing = two_interim_buckets(&[36, 33]);
    let mut at_rest = two_interim_buckets(&[36, 33]);
    at_rest.table[word::STATE] = 3;
    for (story, numbers) in [(growing, [0, 6, 11]), (at_rest, [8, 8, 8])] {
        for (from, number) in numbers.into_iter().enumerate() {
            refused_in_order(story.table.clone(), from as u64, number);
        }
    }
}

/// What is wrong is put right, one after the other: the state, the list, the flag.
fn refused_in_order(mut table: Vec<u64>, from: u64, then: u64) {
    let mut short_list = [UNTOUCHED; 19];
    let mut list = [UNTOUCHED; 20];
    let good_state = table[word::STATE];
    table[word::STATE] = 512 + 3;
    table[word::FLAG] = 2;
    assert_eq!(step_from(&table, from, &mut short_list), (1, [0, 0]));
    table[word::STATE] = good_state;
    assert_eq!(step_from(&table, from, &mut short_list), (2, [0, 0]));
    assert_eq!(step_from(&table, from, &mut list), (3, [0, 0]));
    table[word::FLAG] = 0;
    assert_eq!(step_from(&table, from, &mut short_list), (2, [0, 0]));
    assert_eq!((short_list, list), ([UNTOUCHED; 19], [UNTOUCHED; 20]));
    let (number, [stores, bucket]) = step_from(&table, from, &mut list);
    assert_eq!((number, stores, bucket), (then, if then == SUCCESS { 5 } else { 0 }, 0));
}

/// Any table: resizing and sound, resizing and damaged, at rest, with a bad state, or with a set flag.
fn any_table(way: Way, round: u64, mut garbage: impl FnMut() -> u64) -> Story {
    let mut story = match round % 10 {
        0 => crowded_table(way, 3, round % 4 == 0, &mut garbage),
        _ => garbage_table(way, round % 4, round % 9 == 0, &mut garbage),
    };
    match round % 13 {
        0 => story.table[word::STATE] %= PHASE_UNIT,
        1 => story.table[word::STATE] += 2 * PHASE_UNIT, // there is no phase 3 or 4
        2 => story.table[word::FLAG] = garbage(),
        _ => {}
    }
    story
}

#[test]
fn zero_is_the_step() {
    for way in BOTH_WAYS {
        let mut garbage = garbage_words();
        let mut answered = [0; 12];
        for round in 0..2000 {
            let table = any_table(way, round, &mut garbage).table;
            let list_words = if round % 17 == 0 { 19 } else { 24 };
            let [mut list_of_step, mut list] = [(); 2].map(|_| vec![UNTOUCHED; list_words]);
            let (number, stores) = step(&table, &mut list_of_step);
            let (number_from_0, [stores_from_0, _]) = step_from(&table, 0, &mut list);
            assert_eq!((number_from_0, stores_from_0, list), (number, stores, list_of_step));
            answered[number as usize] += 1;
        }
        assert!([0, 1, 2, 3, 6, 8, 11].iter().all(|&number| answered[number] > 50), "{way:?} {answered:?}");
    }
}

#[test]
fn from_each_start_it_takes_the_first_item_that_insert_would_take() {
    for way in BOTH_WAYS {
        let mut garbage = garbage_words();
        let mut answered = [0; 12];
        let [mut by_move, mut told_later] = [0; 2];
        for round in 0..1200 {
            let story = match round % 3 {
                0 => crowded_table(way, 2 + round % 5 / 2, round % 2 == 0, &mut garbage),
                _ => garbage_table(way, round % 4, round % 9 == 1, &mut garbage),
            };
            let buckets = interim_size(&story.table);
            for start in (0..buckets).chain(starts_past(buckets)) {
                let told = step_told_by_inserts(&story.table, start);
                answered[told.number as usize] += 1;
                by_move += usize::from(told.stores.len() == 10);
                told_later += usize::from(told.number == SUCCESS && told.bucket > start);
                assert_eq!(story.step_from(start), (told.number, told.bucket, told.stores));
            }
        }
        let counts = [answered[0], answered[6], answered[11], by_move, told_later];
        assert!(counts.iter().all(|&count| count > 300), "{way:?} {counts:?}");
    }
}

#[test]
fn where_no_item_stands_before_the_start_it_answers_as_the_step() {
    for way in BOTH_WAYS {
        let mut garbage = garbage_words();
        let mut answered = [0; 12];
        for round in 0..1000 {
            let mut story = match round % 4 {
                0 => crowded_table(way, 4, round % 8 == 0, &mut garbage),
                _ => garbage_table(way, round / 4 % 4, false, &mut garbage),
            };
            let buckets = interim_size(&story.table);
            let start = garbage() % (buckets + 2);
            clear_interim(&mut story.table, 0..start.min(buckets) as usize);
            let (number, bucket, stores) = story.step_from(start);
            assert_eq!(story.list(Event::Step), (number, stores.clone()));
            assert_eq!(story.step_from(0), (number, bucket, stores));
            answered[number as usize] += 1;
        }
        assert!([0, 6, 11].iter().all(|&number| answered[number] > 50), "{way:?} {answered:?}");
    }
}

/// Gives all 13 words of some interim buckets, counted from 0 in the level, other ones.
fn scramble_interim(table: &mut [u64], numbers: std::ops::Range<u64>, mut garbage: impl FnMut() -> u64) {
    let first = interim_buckets(table).start;
    for number in numbers {
        let start = 9 + 13 * (first + number as usize);
        table[start..start + 13].fill_with(&mut garbage);
    }
}

#[test]
fn buckets_before_the_start_and_behind_the_one_told_do_not_count() {
    for way in BOTH_WAYS {
        let mut garbage = garbage_words();
        for round in 0..1000 {
            let story = garbage_table(way, round % 4, false, &mut garbage);
            let buckets = interim_size(&story.table);
            let start = garbage() % (buckets + 1);
            let answer = story.step_from(start);
            let mut other = Story { table: story.table.clone() };
            scramble_interim(&mut other.table, 0..start, &mut garbage);
            if answer.0 == SUCCESS {
                scramble_interim(&mut other.table, answer.1 + 1..buckets, &mut garbage);
            }
            assert_eq!(other.step_from(start), answer);
        }
    }
}

#[test]
fn damage_does_not_change_which_item_is_taken() {
    let mut story = two_interim_buckets(&[36, 33, 37]);
    story.table[35] += 16; // token words are read modulo 16, and stored below it
    put(&mut story, 12, 0, [37, 1, 2]); // 37 stands twice: it is placed again
    put(&mut story, 1, 3, [37, 3, 4]); // and a third time, in a wrong place, before the start
    let stores = [(169, 37), (170, 137), (171, 237), (165, 3), (35, 1)].to_vec();
    assert_eq!(story.step_from(1), (SUCCESS, 1, stores));
}
