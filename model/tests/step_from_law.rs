//! The step that goes on: its law, cuts and bounds.

mod common;
use common::resizing::*;
use common::*;
use ragansils_model::*;

/// How a pass ended and what it took.
struct Pass {
    refusal: u64,
    steps: u64,
    /// Interim buckets looked at, those of the refused step too.
    looked_at: u64,
    stores: u64,
}

/// "one pass that goes on from the bucket told (first from 0)", each list made whole. Each step must take the item
/// that a step from 0 takes.
fn pass(story: &mut Story) -> Pass {
    let buckets = interim_size(&story.table);
    let [mut start, mut steps, mut looked_at, mut stores] = [0; 4];
    loop {
        let (number, bucket, pairs) = story.step_from(start);
        if number != SUCCESS {
            // "a refused one with 6 or 11 at all buckets from its start on".
            return Pass { refusal: number, steps, looked_at: looked_at + buckets - start, stores };
        }
        assert!((start..buckets).contains(&bucket));
        assert_eq!(story.list(Event::Step), (number, pairs));
        // "the buckets from its start to the one in which the item stood, both counted".
        looked_at += bucket - start + 1;
        steps += 1;
        assert!(looked_at <= buckets + steps);
        stores += story.whole(Event::StepFrom { from: start }).len() as u64;
        start = bucket;
    }
}

/// Makes the step again and again.
fn repeat_step(story: &mut Story) -> u64 {
    loop {
        match story.list(Event::Step).0 {
            SUCCESS => drop(story.whole(Event::Step)),
            refusal => return refusal,
        }
    }
}

/// A resizing table: sound with one place for each key, sound with two, or damaged, with one place or two.
fn any_resizing_table(way: Way, round: u64, mut garbage: impl FnMut() -> u64) -> Story {
    match round % 3 {
        0 => crowded_table(way, 2 + round % 4, true, &mut garbage),
        1 => crowded_table(way, 2 + round % 4, false, &mut garbage),
        _ => {
            let mut story = garbage_table(way, round % 16, round % 9 == 8, &mut garbage);
            if round % 2 == 0 {
                story.table[word::MULTIPLIER_2] = story.table[word::MULTIPLIER_1];
            }
            story
        }
    }
}

#[test]
fn a_pass_ends_with_an_empty_level_or_stuck_items_as_repeated_steps_do() {
    for way in BOTH_WAYS {
        let mut garbage = garbage_words();
        let [mut empty, mut stuck_behind, mut stuck_before] = [0; 3];
        for round in 0..900 {
            let mut story = any_resizing_table(way, round, &mut garbage);
            let mut stepped = Story { table: story.table.clone() };
            let pass = pass(&mut story);
            let refusal_of_step = repeat_step(&mut stepped);
            assert_eq!(story.table, stepped.table);
            // "A pass of s steps over a level of M buckets looks at no more than M + s interim buckets"; with its
            // refused step it looks at just as many.
            assert_eq!(pass.looked_at, interim_size(&story.table) + pass.steps);

            let left = interim_items(&story.table);
            assert_eq!(stuck_items(&story.table), left);
            match (left.is_empty(), pass.refusal, refusal_of_step) {
                (true, 11, 11) => empty += 1,
                (false, 6, 6) => stuck_behind += 1,
                // All items left stand before the last start.
                (false, 11, 6) => stuck_before += 1,
                ended => panic!("{ended:?}"),
            }
        }
        let counts = [empty, stuck_behind, stuck_before];
        assert!(counts.iter().all(|&count| count > 30), "{way:?} {counts:?}");
    }
}

#[test]
fn a_pass_over_stuck_items_in_front() {
    // 32 is stuck in interim bucket 0; 37 and 45 stand behind it in bucket 1.
    let mut story = two_interim_buckets(&[32, 37, 45]);
    let passed = pass(&mut story);
    assert_eq!((passed.refusal, passed.steps, passed.looked_at, passed.stores), (11, 2, 2 + 2, 10));
    // 11 says that no item stands from the last start on; 32 is still there, before it.
    story.refused(Event::Step, 6);
    story.refused(Event::End, 10);

    // 512 interim items in 128 buckets, of which the first four are stuck.
    let mut story = hundreds_behind_four();
    let map = map_of(&story.table);
    let passed = pass(&mut story);
    assert_eq!(
        (passed.refusal, passed.steps, passed.looked_at, passed.stores),
        (11, 508, 128 + 508, 5 * 508)
    );
    assert_eq!(interim_items(&story.table).len(), 4);
    assert_eq!(map_of(&story.table), map);
}

#[test]
fn a_pass_over_e11_ends_at_once() {
    let mut story = one_interim_bucket(&[16, 20, 24, 28]);
    let passed = pass(&mut story);
    assert_eq!((passed.refusal, passed.steps, passed.looked_at, passed.stores), (6, 0, 1, 0));
}

#[test]
fn a_step_gives_no_place_to_an_item_that_had_none() {
    for way in BOTH_WAYS {
        let mut garbage = garbage_words();
        let [mut beside_stuck, mut by_move] = [0; 2];
        for round in 0..600 {
            let story = any_resizing_table(way, round, &mut garbage);
            let stuck = stuck_items(&story.table);
            for from in 0..interim_size(&story.table) {
                let mut stepped = Story { table: story.table.clone() };
                let event = if from == 0 { Event::Step } else { Event::StepFrom { from } };
                if stepped.list(event).0 != SUCCESS {
                    continue;
                }
                let stores = stepped.whole(event).len();
                let stuck_after = stuck_items(&stepped.table);
                assert!(stuck.iter().all(|item| stuck_after.contains(item)));
                beside_stuck += usize::from(!stuck.is_empty());
                by_move += usize::from(!stuck.is_empty() && stores == 10);
            }
        }
        assert!(beside_stuck > 500 && by_move > 100, "{way:?} {beside_stuck} {by_move}");
    }
}

#[test]
fn a_whole_step_keeps_the_map_and_a_cut_one_keeps_it_once_recovered() {
    for way in BOTH_WAYS {
        let mut garbage = garbage_words();
        let [mut free_slots, mut moves] = [0; 2];
        for round in 0..300 {
            let story = crowded_table(way, 2 + round % 3, round % 2 == 0, &mut garbage);
            let map = map_of(&story.table);
            for from in 0..interim_size(&story.table) {
                let (number, _, pairs) = story.step_from(from);
                if number != SUCCESS {
                    continue;
                }
                for kept in 0..=pairs.len() {
                    let mut cut = Story { table: story.table.clone() };
                    cut.cut(Event::StepFrom { from }, kept);
                    recover_with_cuts(&mut cut);
                    assert_eq!(map_of(&cut.table), map, "from {from}, kept {kept}");
                }
                match pairs.len() {
                    5 => free_slots += 1,
                    stores => moves += stores / 10,
                }
            }
        }
        assert!(free_slots > 50 && moves > 20, "{way:?} {free_slots} {moves}");
    }
}

/// A recovery that is cut before its first store, one that is not, and one that finds nothing left to do.
fn recover_with_cuts(story: &mut Story) {
    story.cut(Event::Recover, 0);
    assert!(story.whole(Event::Recover).len() <= 1);
    assert_eq!(story.whole(Event::Recover), []);
}

/// A growth from N top buckets, N a power of two, in which each of the 2N interim items needs a move. Both
/// multipliers are equal. The interim items of residue r modulo 2N, r below N/2, have the full top place r and the
/// bottom place r modulo N, whose items all have residue r + N and may rise to top place r + N.
fn growth_by_moves_alone(n: u64) -> Story {
    let k = u64::from(n.trailing_zeros());
    let mut story = Story::with(k + 1, k, MARKED_1, MARKED_1);
    for residue in 0..n / 2 {
        story.insert_keys([0, 1, 2, 3].map(|times| residue + n + 2 * n * times));
        story.insert_keys([0, 1, 2, 3].map(|times| residue + 2 * n * times));
    }
    assert_eq!(story.whole(Event::Begin).len(), 1);
    for residue in 0..n / 2 {
        story.insert_keys([4, 5, 6, 7].map(|times| residue + 2 * n * times));
    }
    story
}

#[test]
fn one_growth_by_step_from_may_spend_20_n_plus_2_stores() {
    for n in [2, 4, 8, 16] {
        let mut story = growth_by_moves_alone(n);
        let map = map_of(&story.table);
        let passed = pass(&mut story);
        assert_eq!((passed.refusal, passed.steps, passed.looked_at), (11, 2 * n, n / 2 + 2 * n));
        let stores = 1 + passed.stores + story.whole(Event::End).len() as u64;
        assert_eq!(stores, 20 * n + 2);
        assert_eq!(map_of(&story.table), map);
    }
}

#[test]
fn one_resize_spends_no_more_with_any_starts_and_other_calls_between() {
    for way in BOTH_WAYS {
        let mut garbage = garbage_words();
        let mut with_stuck = 0;
        // A growth from 4 top buckets, or a shrink from 8.
        let most_stores = match way {
            Way::Growth => 20 * 4 + 2,
            Way::Shrink => 40 * 8 + 2,
        };
        for round in 0..100 {
            let mut story = crowded_table(way, 3, round % 2 == 0, &mut garbage);
            let mut stores = 1; // begin or shrink
            for _ in 0..200 {
                stores += any_step(&mut story, &mut garbage);
                if none_has_a_place(&story) {
                    with_stuck += 1;
                    delete_some(&mut story, &mut garbage);
                }
                try_inserts(&mut story, garbage() % 2, &mut garbage);
            }
            stores += story.whole(Event::End).len(); // so many tries are enough
            assert!(stores <= most_stores);
        }
        assert!(with_stuck > 20, "{way:?} {with_stuck}");
    }
}

/// A step, or a step from any bucket, if it is accepted; how many stores it made.
fn any_step(story: &mut Story, mut garbage: impl FnMut() -> u64) -> usize {
    let from = garbage() % (interim_size(&story.table) + 1);
    let event = if garbage() % 4 == 0 { Event::Step } else { Event::StepFrom { from } };
    match story.list(event).0 {
        SUCCESS => story.whole(event).len(),
        _ => 0,
    }
}

/// Items are left, and none has a place.
fn none_has_a_place(story: &Story) -> bool {
    story.list(Event::Step).0 == 6
}

/// Deletes about every fourth key.
fn delete_some(story: &mut Story, mut garbage: impl FnMut() -> u64) {
    for key in map_of(&story.table).into_keys().filter(|_| garbage() % 4 == 0) {
        story.whole(Event::Delete { key });
    }
}

/// c = 2, growing, with a key's places K modulo M and K/4 modulo M in a level of M buckets. Top places 0, 1 and 3
/// (buckets 3, 4 and 6) and the bottom are full, top place 2 is empty. Of interim bucket 0, key 63 has top place 3
/// alone, where 3 is the only item with another place: 0. Key 128 has top place 0 alone, where 8 may go to place 2.
fn a_stuck_item_beside_one_with_a_move() -> Story {
    let mut story = Story::with(2, 1, MARKED_1, (1 << 30) + 1);
    story.whole(Event::Begin);
    let buckets = [(3, [8, 16, 32, 48]), (4, [5, 21, 37, 53]), (6, [3, 15, 31, 47])];
    let bottom = [(1, [64, 80, 96, 112]), (2, [69, 85, 101, 117])];
    for (bucket, keys) in buckets.into_iter().chain(bottom) {
        for (slot, key) in keys.into_iter().enumerate() {
            put(&mut story, bucket, slot, [key, key + 100, key + 200]);
        }
    }
    put(&mut story, 0, 0, [63, 163, 263]);
    put(&mut story, 0, 1, [128, 228, 328]);
    assert_eq!(story.list(Event::Recover), (SUCCESS, vec![])); // sound
    story
}

#[test]
fn a_cut_step_may_give_a_place_to_an_item_that_had_none() {
    let moved = [(75, 8), (76, 108), (77, 208), (74, 1), (48, 14)];
    let placed = [(49, 128), (50, 228), (51, 328), (48, 15), (9, 1)];
    let mut whole = a_stuck_item_beside_one_with_a_move();
    assert_eq!(whole.whole(Event::StepFrom { from: 0 }), [moved, placed].concat());
    // 63 had no place and has none.
    whole.step_from_refused(0, 6);

    // After five to eight stores 8 has gone and 128 has not come: 63 finds room by the move of 3 to that slot.
    for kept in 0..=10 {
        let mut cut = a_stuck_item_beside_one_with_a_move();
        let map = map_of(&cut.table);
        cut.cut(Event::StepFrom { from: 0 }, kept);
        recover_with_cuts(&mut cut);
        let taken = cut.list(Event::Step).1.iter().any(|&(_, new_word)| new_word == 63);
        assert_eq!(taken, (5..=8).contains(&kept), "{kept}");
        // A pass goes on to the same end: one of the two is placed, and the other one has no place.
        assert_eq!(pass(&mut cut).refusal, 6);
        assert_eq!((stuck_items(&cut.table).len(), map_of(&cut.table)), (1, map));
    }
}

/// As `pass`, but some steps are cut, recovered and gone on from, at the same start or the bucket told.
fn pass_with_cuts(story: &mut Story, mut garbage: impl FnMut() -> u64) {
    let mut start = 0;
    loop {
        let (number, bucket, pairs) = story.step_from(start);
        if number != SUCCESS {
            return;
        }
        let kept = garbage() as usize % (2 * pairs.len());
        story.cut(Event::StepFrom { from: start }, kept);
        recover_with_cuts(story);
        if kept >= pairs.len() || garbage() % 2 == 0 {
            start = bucket;
        }
    }
}

#[test]
fn a_pass_with_cut_and_recovered_steps_ends_in_the_same_way() {
    for way in BOTH_WAYS {
        let mut garbage = garbage_words();
        let [mut empty, mut stuck] = [0; 2];
        for round in 0..300 {
            let mut story = crowded_table(way, 2 + round % 4, false, &mut garbage);
            let map = map_of(&story.table);
            pass_with_cuts(&mut story, &mut garbage);
            let left = interim_items(&story.table);
            assert_eq!((stuck_items(&story.table), map_of(&story.table)), (left.clone(), map));
            *if left.is_empty() { &mut empty } else { &mut stuck } += 1;
        }
        assert!(empty > 30 && stuck > 30, "{way:?} {empty} {stuck}");
    }
}
