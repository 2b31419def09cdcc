//! Request f) of document 02, told word by word: a shrink, its steps, both turns, the end, every refusal, and which
//! states and levels there are.
//!
//! In the told tables c is 2 and both multipliers are 4294967297, so that a key below 2^32 has one place in each level:
//! key modulo the level's size. Bucket j has its token at word 9 + 13j: 9, 22, 35, 48, 61, 74, 87. At rest with k = 2
//! the top is buckets 3 to 6 and the bottom buckets 1 and 2. After the shrink the interim level is buckets 3 to 6, the
//! top buckets 1 and 2, and the bottom bucket 0.

mod common;
use common::resizing::*;
use common::*;
use ragansils_model::*;

fn at_rest_with(keys: impl IntoIterator<Item = u64>) -> Story {
    let mut story = Story::with(2, 2, MARKED_1, MARKED_1);
    story.insert_keys(keys);
    story
}

fn shrinking_with(keys: impl IntoIterator<Item = u64>) -> Story {
    let mut story = at_rest_with(keys);
    assert_eq!(story.whole(Event::Shrink), [(4, 512 + 1)]);
    story
}

/// 0, 4, 8 and 12 stand in interim bucket 3. Their top place, bucket 1, and the bottom are full. Bucket 2 has its slot 1
/// free, and all bottom items are odd: each may rise to it.
fn shrinking_with_a_move() -> Story {
    let mut story = shrinking_with([0, 4, 8, 12, 16, 20, 24, 28]);
    story.insert_keys([1, 3, 5, 7, 9, 11, 13, 15]);
    assert_eq!(story.whole(Event::Delete { key: 3 }), [(35, 13)]);
    story
}

/// The stores of the steps of 5 in `shrinking_with([5])` and of 0 in `shrinking_with_a_move()`.
const STORES_OF_5: [(u64, u64); 5] = [(36, 5), (37, 105), (38, 205), (35, 1), (61, 0)];
const STORES_OF_0: [(u64, u64); 10] =
    [(39, 9), (40, 109), (41, 209), (35, 15), (9, 14), (10, 0), (11, 100), (12, 200), (9, 15), (48, 14)];

// ---- A whole shrink.

#[test]
fn a_shrink_with_one_item() {
    let mut story = at_rest_with([5]);
    assert_eq!(story.query(5), (0, [105, 205, 1, 62, 0]));
    assert_eq!(story.whole(Event::Shrink), [(4, 513)]);
    // Bucket 2 of the top, bucket 0 of the bottom, then bucket 4, which is now of the interim level.
    assert_eq!(story.query(5), (0, [105, 205, 3, 62, 2]));
    assert_eq!(story.query(1), (5, [0, 0, 3, 0, 0]));
    story.refused(Event::End, 10);
    assert_eq!(story.whole(Event::Step), STORES_OF_5);
    assert_eq!(story.query(5), (0, [105, 205, 1, 36, 0]));
    story.refused(Event::Step, 11);
    assert_eq!(story.whole(Event::End), [(4, 1)]);
    assert_eq!(story.query(5), (0, [105, 205, 1, 36, 0]));
    assert_eq!(story.query(1), (5, [0, 0, 2, 0, 0]));
    assert_eq!(story.list(Event::Recover), (SUCCESS, vec![]));
    assert_eq!(map_of(&story.table), map_with([5]));
}

#[test]
fn a_step_with_a_move() {
    let mut story = shrinking_with_a_move();
    assert_eq!(story.whole(Event::Step), STORES_OF_0);
    assert_eq!(story.query(9), (0, [109, 209, 1, 39, 0]));
    assert_eq!(story.query(0), (0, [100, 200, 2, 10, 1]));
    story.refused(Event::Step, 6);
}

#[test]
fn an_empty_table_shrinks_from_its_last_level_to_the_first() {
    let mut story = Story::with(10, 10, MARKED_1, MARKED_2);
    for k in (1..10).rev() {
        assert_eq!(story.whole(Event::Shrink), [(4, 512 + k)]);
        story.refused(Event::Step, 11);
        assert_eq!(story.whole(Event::End), [(4, k)]);
    }
    story.refused(Event::Shrink, 17);
}

#[test]
fn the_interim_level_is_stepped_in_its_own_order() {
    // 4 and 12 stand in bucket 3, 1 in bucket 4 and 7 in bucket 6. Interim buckets are counted from 0.
    let story = shrinking_with([7, 1, 4, 12]);
    let told = [(0, 0, 4), (1, 1, 1), (2, 3, 7), (3, 3, 7)];
    for (from, bucket, key) in told {
        let (number, told_bucket, pairs) = story.step_from(from);
        assert_eq!((number, told_bucket, pairs[0].1), (SUCCESS, bucket, key), "from {from}");
    }
    for from in [4, 5, 1 << 32, u64::MAX] {
        story.step_from_refused(from, 11);
    }
}

#[test]
fn a_stuck_item_is_passed_over() {
    // 0, 4, 8 and 12 have no place; 1 has one in bucket 2.
    let mut story = shrinking_with([0, 4, 8, 12, 16, 20, 24, 28, 1]);
    story.insert_keys([32, 36, 40, 44]);
    assert_eq!(story.whole(Event::Step), [(36, 1), (37, 101), (38, 201), (35, 1), (61, 0)]);
    story.refused(Event::Step, 6);
    story.step_from_refused(1, 11);
    story.refused(Event::End, 10);
    // Room in the bottom and in the top.
    story.whole(Event::Delete { key: 36 });
    assert_eq!(story.whole(Event::Step), [(13, 0), (14, 100), (15, 200), (9, 15), (48, 14)]);
    story.whole(Event::Delete { key: 28 });
    assert_eq!(story.whole(Event::Step), [(32, 4), (33, 104), (34, 204), (22, 15), (48, 12)]);
    story.refused(Event::Step, 6);
}

#[test]
fn changes_while_shrinking() {
    let mut story = shrinking_with([5, 6]);
    // Placing uses top and bottom only, though the interim level is the largest.
    assert_eq!(story.whole(insert_event(1, 7, 8)), [(36, 1), (37, 7), (38, 8), (35, 1)]);
    story.insert_keys([3, 7, 9]);
    assert_eq!(story.whole(insert_event(11, 7, 8)), [(10, 11), (11, 7), (12, 8), (9, 1)]);
    story.insert_keys([13, 15, 17]);
    story.refused(insert_event(19, 7, 8), 6);
    story.refused(insert_event(5, 7, 8), 4);
    // Update and delete work in whichever level: 5 stands in interim bucket 4.
    assert_eq!(story.whole(update_event(5, 1, 2)), [(65, 5), (66, 1), (67, 2), (61, 2)]);
    assert_eq!(story.query(5), (0, [1, 2, 3, 65, 2]));
    assert_eq!(story.whole(Event::Delete { key: 5 }), [(61, 0)]);
    story.refused(Event::Delete { key: 5 }, 5);
    story.refused(update_event(5, 1, 2), 5);
}

#[test]
fn an_update_in_a_full_interim_bucket() {
    let mut story = shrinking_with([1, 5, 9, 13]);
    let stores = [(6, 65), (7, 30), (8, 40), (5, 1), (66, 30), (67, 40), (5, 0)];
    for kept in 0..=7 {
        let mut cut = Story { table: story.table.clone() };
        assert_eq!(cut.cut(update_event(5, 30, 40), kept), stores);
        let flagged = (4..7).contains(&kept);
        let recovered = if flagged { vec![(66, 30), (67, 40), (5, 0)] } else { vec![] };
        assert_eq!(cut.whole(Event::Recover), recovered);
        let record = if kept < 4 { [105, 205] } else { [30, 40] };
        assert_eq!(cut.query(5), (0, [record[0], record[1], 3, 65, 2]));
    }
    // Bucket 4 is in use in both phases, but not at rest with k = 1.
    story.cut(update_event(5, 30, 40), 4);
    for (state, number) in [(513, 0), (258, 0), (2, 0), (1, 12)] {
        story.table[word::STATE] = state;
        assert_eq!(story.list(Event::Recover).0, number, "{state}");
    }
}

// ---- Cuts.

/// Cuts an event after every store; recovery must list these stores, if the cut is of those told, and none otherwise.
fn cut_everywhere(story: &Story, event: Event, recovered: &[(usize, (u64, u64))]) {
    let map = map_of(&story.table);
    let (_, stores) = story.list(event);
    for kept in 0..=stores.len() {
        let mut cut = Story { table: story.table.clone() };
        cut.cut(event, kept);
        let expected: Vec<(u64, u64)> =
            recovered.iter().filter(|(cut_after, _)| *cut_after == kept).map(|(_, store)| *store).collect();
        assert_eq!(cut.cut(Event::Recover, 0), expected, "{event:?} {kept}");
        assert_eq!(cut.whole(Event::Recover), expected);
        assert_eq!(cut.whole(Event::Recover), []);
        assert_eq!(map_of(&cut.table), map);
        // Recovery stores no state: a cut call has made it or has not.
        let state_stored = stores[0].0 == 4 && kept == 1;
        assert_eq!(cut.table[4], if state_stored { stores[0].1 } else { story.table[4] });
    }
}

#[test]
fn every_cut_of_a_step() {
    // After four stores 5 stands in top and interim; the interim one is the later, and the larger bucket.
    cut_everywhere(&shrinking_with([5]), Event::Step, &[(4, (61, 0))]);
    cut_everywhere(&shrinking_with([5]), Event::StepFrom { from: 1 }, &[(4, (61, 0))]);
    // After four stores 9 stands in top and bottom, after nine 0 in bottom and interim.
    cut_everywhere(&shrinking_with_a_move(), Event::Step, &[(4, (9, 14)), (9, (48, 14))]);
}

#[test]
fn every_cut_of_a_state_store() {
    let keys = [1, 5, 6, 8, 13, 17, 21];
    cut_everywhere(&at_rest_with(keys), Event::Shrink, &[]);
    let mut story = shrinking_with(keys);
    cut_everywhere(&story, Event::Back, &[]);
    story.whole(Event::Back);
    cut_everywhere(&story, Event::Back, &[]);
    cut_everywhere(&shrinking_with([]), Event::End, &[]);
}

#[test]
fn recovery_goes_by_top_bottom_interim_and_not_by_size() {
    // Key 0 stands in bucket 1 (place 0 of two), bucket 0 (of one) and bucket 3 (of four), in two of them each time.
    let double = |state, buckets: [usize; 2]| {
        let mut story = Story::with(2, 1, MARKED_1, MARKED_1);
        story.table[word::STATE] = state;
        buckets.iter().for_each(|&bucket| put(&mut story, bucket, 0, [0, 5, 6]));
        story.list(Event::Recover)
    };
    let cleared = |token_word| (SUCCESS, vec![(token_word, 0)]);
    // Shrinking: top 1, bottom 0, interim 3.
    assert_eq!(double(513, [1, 0]), cleared(9));
    assert_eq!(double(513, [1, 3]), cleared(48));
    assert_eq!(double(513, [0, 3]), cleared(48));
    // Growing: top 3, bottom 1, interim 0.
    assert_eq!(double(258, [1, 0]), cleared(9));
    assert_eq!(double(258, [1, 3]), cleared(22));
    assert_eq!(double(258, [0, 3]), cleared(9));
}

// ---- Turning back.

#[test]
fn a_shrink_turns_into_a_growth_and_a_growth_into_a_shrink() {
    let mut story = shrinking_with([5]);
    assert_eq!(story.whole(Event::Back), [(4, 256 + 2)]);
    // Nothing stands in bucket 0, so that the growth may end where the shrink began.
    story.refused(Event::Step, 11);
    assert_eq!(story.list(Event::End), (SUCCESS, vec![(4, 2)]));
    assert_eq!(story.whole(Event::Back), [(4, 512 + 1)]);
    assert_eq!(story.whole(Event::Step), STORES_OF_5);
    assert_eq!(story.whole(Event::Back), [(4, 256 + 2)]);
    // 5 stands in the bottom now, and stays there.
    assert_eq!(story.query(5), (0, [105, 205, 2, 36, 1]));
    assert_eq!(story.whole(Event::End), [(4, 2)]);
    assert_eq!(map_of(&story.table), map_with([5]));
}

#[test]
fn a_growth_that_is_turned_back_ends_where_it_began() {
    let mut story = Story::with(3, 2, MARKED_1, MARKED_1);
    story.insert_keys([5]); // bucket 4, the top of four
    assert_eq!(story.whole(Event::Begin), [(4, 256 + 3)]);
    assert_eq!(story.whole(Event::Back), [(4, 512 + 2)]);
    // The new level of eight is the interim one, the old top the top again, and the old bottom the bottom.
    assert_eq!(story.query(5), (0, [105, 205, 1, 62, 0]));
    assert_eq!(story.whole(Event::End), [(4, 2)]);
}

#[test]
fn levels_change_their_names_and_slots_keep_their_words() {
    // Key 0 stands in bucket 1, key 2 in bucket 0 and key 4 in bucket 3.
    let mut story = shrinking_with([]);
    put(&mut story, 1, 0, [0, 5, 6]);
    put(&mut story, 0, 0, [2, 5, 6]);
    put(&mut story, 3, 0, [4, 5, 6]);
    for _ in 0..3 {
        let told = [0, 2, 4].map(|key| story.query(key).1);
        assert_eq!(told, [[5, 6, 1, 23, 0], [5, 6, 2, 10, 1], [5, 6, 3, 49, 2]]);
        story.whole(Event::Back);
        let told = [0, 2, 4].map(|key| story.query(key).1);
        assert_eq!(told, [[5, 6, 2, 23, 1], [5, 6, 3, 10, 2], [5, 6, 1, 49, 0]]);
        story.whole(Event::Back);
    }
}

#[test]
fn turning_back_twice_is_the_state_before() {
    for c in 1..=8 {
        let mut story = Story::with(c, 1, MARKED_1, MARKED_2);
        for state in good_states(c).into_iter().filter(|state| *state >= 256) {
            story.table[word::STATE] = state;
            let before = story.table.clone();
            let turned = if state < 512 { state + 256 - 1 } else { state - 256 + 1 };
            assert_eq!(story.whole(Event::Back), [(4, turned)], "{state}");
            assert_eq!(story.whole(Event::Back), [(4, state)]);
            assert_eq!(story.table, before);
        }
    }
}

/// All six buckets of the table at rest are full, so that a shrink is stuck after four steps.
fn stuck_shrink() -> Story {
    let mut story = shrinking_with(0..24);
    (0..4).for_each(|_| assert_eq!(story.whole(Event::Step).len(), 5));
    story.refused(Event::Step, 6);
    story.refused(Event::End, 10);
    story
}

#[test]
fn a_stuck_shrink_is_left_by_turning_back() {
    let mut story = stuck_shrink();
    assert_eq!(story.whole(Event::Back), [(4, 258)]);
    // The four items of the new bottom go back to the slots that they left.
    (0..4).for_each(|_| assert_eq!(story.whole(Event::Step).len(), 5));
    story.refused(Event::Step, 11);
    assert_eq!(story.whole(Event::End), [(4, 2)]);
    assert_eq!(map_of(&story.table), map_with(0..24));
    assert_eq!(story.list(Event::Recover), (SUCCESS, vec![]));
}

#[test]
fn a_stuck_shrink_goes_on_after_deletes_and_also_after_two_turns() {
    for turns in [0, 2] {
        let mut story = stuck_shrink();
        let kept = 12..24;
        (0..12).for_each(|key| drop(story.whole(Event::Delete { key })));
        (0..turns).for_each(|_| drop(story.whole(Event::Back)));
        while story.list(Event::Step).0 == SUCCESS {
            story.whole(Event::Step);
        }
        assert_eq!(story.whole(Event::End), [(4, 1)]);
        assert_eq!(map_of(&story.table), map_with(kept));
    }
}

/// A full table of c = 5 that is shrunk until no item has a place, turned back, and grown until a step is refused. No
/// other call is made between. Answers that refusal too.
fn turned_back_when_stuck(one_place: bool, mut garbage: impl FnMut() -> u64) -> (Story, u64) {
    let mul1 = garbage() | 1;
    let mul2 = if one_place { mul1 } else { garbage() | 1 };
    let mut story = Story::with(5, 5, mul1, mul2);
    try_inserts(&mut story, 400, &mut garbage);
    story.whole(Event::Shrink);
    assert_eq!(step_until_refused(&mut story), 6);
    story.whole(Event::Back);
    let refusal = step_until_refused(&mut story);
    (story, refusal)
}

fn step_until_refused(story: &mut Story) -> u64 {
    loop {
        match story.list(Event::Step).0 {
            SUCCESS => drop(story.whole(Event::Step)),
            refusal => return refusal,
        }
    }
}

#[test]
fn a_turned_back_shrink_may_be_stuck_as_a_growth_too() {
    let mut garbage = garbage_words();
    let mut stuck = 0;
    for _ in 0..100 {
        // With one place for each key every item finds its old bucket again.
        let (mut story, refusal) = turned_back_when_stuck(true, &mut garbage);
        assert_eq!(refusal, 11);
        assert_eq!(story.whole(Event::End), [(4, 5)]);

        let (mut story, refusal) = turned_back_when_stuck(false, &mut garbage);
        if refusal == 6 {
            stuck += 1;
            // Items are still there and may be deleted; then the growth ends.
            for item in interim_items(&story.table) {
                let key = story.table[item.token_word + 1 + 3 * item.slot];
                story.whole(Event::Delete { key });
            }
        }
        assert_eq!(story.whole(Event::End), [(4, 5)]);
        assert_eq!(story.list(Event::Recover), (SUCCESS, vec![]));
    }
    assert!(stuck > 5, "{stuck}");
}

// ---- States.

/// The good states of a table, by the two documents.
fn good_states(c: u64) -> Vec<u64> {
    let at_rest = 1..=c;
    let growing = (2..=c).map(|k| 256 + k);
    let shrinking = (1..c).map(|k| 512 + k);
    at_rest.chain(growing).chain(shrinking).collect()
}

#[test]
fn good_and_bad_state_words() {
    let told: [(u64, &[u64]); 4] = [
        (1, &[1]),
        (2, &[1, 2, 258, 513]),
        (3, &[1, 2, 3, 258, 259, 513, 514]),
        (4, &[1, 2, 3, 4, 258, 259, 260, 513, 514, 515]),
    ];
    for (c, good) in told {
        assert_eq!(good_states(c), good);
        let mut story = Story::with(c, 1, MARKED_1, MARKED_2);
        // Phases 0 to 4 with every k, and words whose lower bits alone are good.
        let far = [32, 63].into_iter().flat_map(|bit| good.iter().map(move |state| (1 << bit) + state));
        for state in (0..5 * 256).chain(far).chain([u64::MAX]) {
            story.table[word::STATE] = state;
            let is_good = good.contains(&state);
            assert_eq!(story.query(1).0, if is_good { 5 } else { 1 }, "c {c}, state {state}");
            assert_eq!(story.list(Event::Recover).0, if is_good { 0 } else { 1 });
        }
    }
}

#[test]
fn calls_lead_from_good_states_to_good_states() {
    for c in 1..=6 {
        let mut story = Story::with(c, 1, MARKED_1, MARKED_2);
        for state in good_states(c) {
            story.table[word::STATE] = state;
            for event in [Event::Begin, Event::Shrink, Event::Back, Event::End] {
                let (number, stores) = story.list(event);
                if number == SUCCESS {
                    assert!(matches!(stores[..], [(4, next)] if good_states(c).contains(&next)), "{event:?}");
                }
            }
        }
    }
}

// ---- Levels in use.

/// Each good state of c = 3 with the sizes of its top, bottom and interim level.
const LEVELS: [(u64, &[usize]); 7] = [
    (1, &[2, 1]),
    (2, &[4, 2]),
    (3, &[8, 4]),
    (256 + 2, &[4, 2, 1]),
    (256 + 3, &[8, 4, 2]),
    (512 + 1, &[2, 1, 4]),
    (512 + 2, &[4, 2, 8]),
];

fn in_state(state: u64) -> Story {
    let mut story = Story::with(3, 1, MARKED_1, MARKED_2);
    story.table[word::STATE] = state;
    story
}

#[test]
fn levels_in_use_by_phase() {
    for (state, sizes) in LEVELS {
        let story = in_state(state);
        let levels = Table::read(&story.table).unwrap().levels_in_use();
        assert_eq!(levels.iter().map(|level| level.size).collect::<Vec<_>>(), sizes, "{state}");
        // Key 0 has place 0 in each level, which is bucket M − 1 of a level of M.
        for size in [1, 2, 4, 8] {
            let mut story = in_state(state);
            put(&mut story, size - 1, 0, [0, 5, 6]);
            let key_word = 9 + 13 * (size as u64 - 1) + 1;
            match sizes.iter().position(|in_use| *in_use == size) {
                Some(level) => {
                    let level = level as u64;
                    assert_eq!(story.query(0), (0, [5, 6, level + 1, key_word, level]), "{state}");
                    assert_eq!(story.list(Event::Recover), (SUCCESS, vec![]));
                }
                None => {
                    assert_eq!(story.query(0), (5, [0, 0, sizes.len() as u64, 0, 0]), "{state}");
                    story.refused(Event::Recover, 12);
                }
            }
        }
    }
}

#[test]
fn only_tokens_of_levels_in_use_may_be_other_than_zero() {
    for (state, sizes) in LEVELS {
        for bucket in 0..15 {
            let size = [1, 2, 4, 8].into_iter().find(|size| bucket < 2 * size - 1).unwrap();
            let mut story = in_state(state);
            story.table[9 + 13 * bucket] = 16;
            story.refused(Event::Recover, 12);
            // A key that has this place, in the slot that alone is taken.
            put(&mut story, bucket, 3, [(bucket + 1 - size) as u64, 5, 6]);
            story.table[9 + 13 * bucket] = 8;
            let number = if sizes.contains(&size) { 0 } else { 12 };
            assert_eq!(story.list(Event::Recover), (number, vec![]), "state {state}, bucket {bucket}");
        }
    }
}

// ---- Refusals.

/// What each good state of c = 3 answers on an empty table: begin, shrink, back, step and end.
const ANSWERS: [(u64, [u64; 5]); 7] = [
    (1, [0, 17, 8, 8, 8]),
    (2, [0, 0, 8, 8, 8]),
    (3, [9, 0, 8, 8, 8]),
    (256 + 2, [7, 7, 0, 11, 0]),
    (256 + 3, [7, 7, 0, 11, 0]),
    (512 + 1, [7, 7, 0, 11, 0]),
    (512 + 2, [7, 7, 0, 11, 0]),
];

const STATE_EVENTS: [Event; 5] = [Event::Begin, Event::Shrink, Event::Back, Event::Step, Event::End];

#[test]
fn each_state_has_its_refusals() {
    for (state, numbers) in ANSWERS {
        for (event, number) in STATE_EVENTS.into_iter().zip(numbers) {
            assert_eq!(in_state(state).list(event).0, number, "state {state}, {event:?}");
        }
    }
    // The smallest table has only one state, which can neither grow nor shrink.
    let smallest = Story::with(1, 1, MARKED_1, MARKED_2);
    smallest.refused(Event::Begin, 9);
    smallest.refused(Event::Shrink, 17);
}

#[test]
fn one_two_and_three_come_first_in_this_order() {
    for (state, _) in ANSWERS {
        for event in STATE_EVENTS {
            let mut table = in_state(state).table;
            let answer = |table: &[u64], list_words| event.list_stores(table, &mut vec![0; list_words]);
            table[word::FLAG] = 1;
            assert_eq!(answer(&table, 19), (2, 0), "state {state}, {event:?}");
            assert_eq!(answer(&table, 20), (3, 0));
            table[word::FLAG] = 0;
            assert_eq!(answer(&table, 19), (2, 0));
            table[word::FLAG] = 1;
            for bad_state in [0, 256, 257, 512, 515, 768 + 1] {
                table[word::STATE] = bad_state;
                assert_eq!(answer(&table, 19), (1, 0), "bad state {bad_state}, {event:?}");
                assert_eq!(answer(&table, 20), (1, 0));
            }
        }
    }
}

#[test]
fn seven_comes_before_nine_and_seventeen() {
    // k = c while growing, and k = 1 while shrinking.
    in_state(256 + 3).refused(Event::Begin, 7);
    in_state(512 + 1).refused(Event::Shrink, 7);
    in_state(256 + 3).refused(Event::Shrink, 7);
    in_state(512 + 1).refused(Event::Begin, 7);
}

#[test]
fn the_public_calls_answer_as_their_events() {
    for (state, _) in ANSWERS {
        let table = in_state(state).table;
        for (event, call) in [(Event::Shrink, shrink as fn(&[u64], &mut [u64]) -> _), (Event::Back, back)] {
            let [mut list, mut list_of_event] = [[UNTOUCHED; 24]; 2];
            assert_eq!(call(&table, &mut list), event.list_stores(&table, &mut list_of_event));
            assert_eq!(list, list_of_event);
        }
    }
    let numbers = [Refusal::AlreadyResizing, Refusal::NotResizing, Refusal::TooSmall].map(Refusal::number);
    assert_eq!(numbers, [7, 8, 17]);
}

#[test]
fn no_call_but_recovery_asks_for_soundness() {
    // The level that becomes the bottom holds items, and so does one not in use.
    let mut story = Story::with(3, 2, MARKED_1, MARKED_1);
    put(&mut story, 0, 0, [1, 2, 3]);
    put(&mut story, 9, 0, [2, 3, 4]);
    assert_eq!(story.whole(Event::Shrink), [(4, 513)]);
    assert_eq!(story.query(1), (0, [2, 3, 2, 10, 1]));
    assert_eq!(story.list(Event::End), (SUCCESS, vec![(4, 1)]));
    assert_eq!(story.list(Event::Back), (SUCCESS, vec![(4, 258)]));
    // An interim token of 16 is empty.
    story.table[9 + 13 * 3] = 16;
    story.refused(Event::Step, 11);
    assert_eq!(story.list(Event::End), (SUCCESS, vec![(4, 1)]));
}
