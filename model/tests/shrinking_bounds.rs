//! Request f) of document 02: the bounds over shrinking. N is the number of top buckets before a shrink.
//!
//! In the told tables both multipliers are 4294967297, so that a key below 2^32 has one place in each level: key modulo
//! the level's size.

mod common;
use common::resizing::*;
use common::*;
use ragansils_model::*;

/// Makes one of a shrink's own calls whole; how many stores it took.
fn own(story: &mut Story, event: Event) -> usize {
    story.whole(event).len()
}

/// Makes steps until one is refused; how many stores each took, and the refusal.
fn steps(story: &mut Story) -> (Vec<usize>, u64) {
    let mut stores = vec![];
    loop {
        match story.list(Event::Step).0 {
            SUCCESS => stores.push(own(story, Event::Step)),
            refusal => return (stores, refusal),
        }
    }
}

fn delete(story: &mut Story, key: u64) {
    story.whole(Event::Delete { key });
}

/// N = 4 and 16 items: all slots of the top are taken, and the bottom is empty.
fn sixteen_items() -> Story {
    let mut story = Story::with(2, 2, MARKED_1, MARKED_1);
    story.insert_keys(0..16);
    story
}

// ---- Stores of one whole shrink.

#[test]
fn one_shrink_may_spend_more_than_20_n_plus_2_stores() {
    let mut story = sixteen_items();
    let mut stores = own(&mut story, Event::Shrink);
    // 12 slots of the new top and bottom are free.
    assert_eq!(steps(&mut story), (vec![5; 12], 6));
    stores += 12 * 5;
    // 3 is the first of the four left, all odd. It finds its places full, but 2 may rise from the bottom to where 0 was.
    delete(&mut story, 0);
    assert_eq!(steps(&mut story), (vec![10], 6));
    stores += 10;
    for key in [1, 5, 9] {
        delete(&mut story, key);
        let (taken, _) = steps(&mut story);
        assert_eq!(taken, [5]);
        stores += 5;
    }
    stores += own(&mut story, Event::End);
    assert_eq!(stores, 87);
    assert!((20 * 4 + 2..40 * 4 + 2).contains(&stores));
    assert_eq!(map_of(&story.table), map_with([2, 3, 4, 6, 7, 8, 10, 11, 12, 13, 14, 15]));
}

/// Deletes all items of a bucket.
fn empty_bucket(story: &mut Story, bucket: u64) {
    let token_word = 9 + 13 * bucket as usize;
    for slot in (0..4).filter(|slot| story.table[token_word] >> slot & 1 == 1).collect::<Vec<_>>() {
        let key = story.table[token_word + 1 + 3 * slot];
        delete(story, key);
    }
}

/// Fills the places of an interim item of this residue modulo N/2 so that it needs a move: its top place is full, its
/// bottom place is full of items with the other top place, and that one has a free slot. `fresh` counts new keys.
fn make_a_move_necessary(story: &mut Story, n: u64, residue: u64, fresh: &mut u64) {
    let other_residue = (residue + n / 4) % (n / 2);
    let top_bucket = |residue: u64| n / 2 - 1 + residue;
    for bucket in [top_bucket(residue), top_bucket(other_residue), n / 4 - 1 + residue % (n / 4)] {
        empty_bucket(story, bucket);
    }
    let mut insert_fresh = |residue: u64, count: u64| {
        let first = n * *fresh + residue;
        story.insert_keys((0..count).map(|times| first + n * times));
        *fresh += count;
        first
    };
    insert_fresh(residue, 4);
    // Four in the other top place, and then four in the bottom.
    let in_other_place = insert_fresh(other_residue, 8);
    delete(story, in_other_place);
}

#[test]
fn one_shrink_may_spend_40_n_plus_2_stores() {
    for n in [4u64, 8, 16] {
        let k = u64::from(n.trailing_zeros());
        let mut story = Story::with(k, k, MARKED_1, MARKED_1);
        story.insert_keys(0..4 * n); // they fill the top
        let mut fresh = 4;
        let mut stores = own(&mut story, Event::Shrink) as u64;
        while let Some(item) = interim_items(&story.table).first() {
            make_a_move_necessary(&mut story, n, item.bucket % (n / 2), &mut fresh);
            let stepped = own(&mut story, Event::Step) as u64;
            assert_eq!(stepped, 10);
            stores += stepped;
        }
        stores += own(&mut story, Event::End) as u64;
        assert_eq!(stores, 40 * n + 2);
    }
}

/// One call that is no shrink's own, or a refused one: nothing of it counts, and it brings no item into the interim
/// level.
fn other_call(story: &mut Story, mut garbage: impl FnMut() -> u64) {
    let interim_before = interim_items(&story.table).len();
    let keys: Vec<u64> = map_of(&story.table).into_keys().chain([garbage()]).collect();
    let key = keys[garbage() as usize % keys.len()];
    let event = match garbage() % 6 {
        0 => insert_event(garbage(), garbage(), garbage()),
        1 => update_event(key, garbage(), garbage()),
        2 => Event::Begin,
        3 => Event::Shrink,
        _ => Event::Delete { key },
    };
    if story.list(event).0 == SUCCESS {
        story.whole(event);
    }
    assert!(interim_items(&story.table).len() <= interim_before);
}

/// A whole shrink with other calls between and steps from any bucket; how many stores of its own it took.
fn any_whole_shrink(story: &mut Story, mut garbage: impl FnMut() -> u64) -> usize {
    let mut stores = own(story, Event::Shrink);
    loop {
        (0..garbage() % 3).for_each(|_| other_call(story, &mut garbage));
        if story.list(Event::End).0 == SUCCESS {
            return stores + own(story, Event::End);
        }
        let from = garbage() % (2 * interim_size(&story.table));
        let event = if garbage() % 2 == 0 { Event::Step } else { Event::StepFrom { from } };
        let (number, pairs) = story.list(event);
        match number {
            SUCCESS => assert!([5, 10].contains(&pairs.len())),
            _ => assert_eq!(pairs, []),
        }
        stores += pairs.len();
        if number == SUCCESS {
            story.whole(event);
        }
    }
}

#[test]
fn no_shrink_spends_more_than_40_n_plus_2_stores() {
    let mut garbage = garbage_words();
    let mut largest = [0; 5];
    for round in 0..400 {
        let k = 2 + round % 3;
        let mul1 = garbage() | 1;
        let mul2 = if round % 2 == 0 { mul1 } else { garbage() | 1 };
        let mut story = Story::with(k + round % 2, k, mul1, mul2);
        try_inserts(&mut story, 7 << k, &mut garbage);
        let items_before = map_of(&story.table).len();
        let stores = any_whole_shrink(&mut story, &mut garbage);
        assert!((2..=(40 << k) + 2).contains(&stores), "{stores}");
        assert!(items_before > 0 && story.table[4] == k - 1);
        largest[k as usize] = stores.max(largest[k as usize]);
    }
    assert!((2..5).all(|k| largest[k] > 10 << k), "{largest:?}");
}

#[test]
fn turning_back_may_spend_any_number_of_stores() {
    // This is why the bounds ask that no turning back was accepted: four items go up and down.
    let mut story = sixteen_items();
    let mut stores = own(&mut story, Event::Shrink);
    assert_eq!(steps(&mut story), (vec![5; 12], 6));
    stores += 12 * 5;
    for _ in 0..20 {
        for _ in 0..2 {
            story.whole(Event::Back);
            let (taken, _) = steps(&mut story);
            assert_eq!(taken, [5; 4]);
            stores += 20;
        }
    }
    assert!(stores > 40 * 4 + 2);
    assert_eq!(map_of(&story.table), map_with(0..16));
}

#[test]
fn the_calls_of_a_shrink_have_the_stores_told() {
    // An upper bound alone would let a call count none.
    let mut story = sixteen_items();
    for (event, stores) in [(Event::Shrink, 1), (Event::Step, 5), (Event::Back, 1), (Event::Back, 1)] {
        assert_eq!(own(&mut story, event), stores, "{event:?}");
    }
    (4..16).for_each(|key| delete(&mut story, key));
    let (taken, refusal) = steps(&mut story);
    assert_eq!((taken, refusal), (vec![5; 3], 11));
    assert_eq!(own(&mut story, Event::End), 1);
}

// ---- Stores of one change, and buckets looked at.

#[test]
fn no_change_has_more_than_ten_stores() {
    let mut garbage = garbage_words();
    let mut most = 0;
    for round in 0..2000 {
        let mut story = garbage_table(BOTH_WAYS[round % 2], garbage() % 6, false, &mut garbage);
        if round % 5 == 0 {
            story.table[word::STATE] = 1 + garbage() % 5;
        }
        let key = story.table[10 + 13 * (garbage() as usize % 63)];
        let changes = [insert_event(garbage(), 1, 2), update_event(key, 1, 2), Event::Delete { key }];
        let resizing = [Event::Begin, Event::Shrink, Event::Back, Event::Step, Event::End, Event::Recover];
        for event in changes.into_iter().chain(resizing).chain([Event::StepFrom { from: garbage() % 32 }]) {
            most = story.list(event).1.len().max(most);
        }
    }
    assert_eq!(most, 10);
}

#[test]
fn a_query_looks_at_six_buckets_in_either_phase_and_four_at_rest() {
    let mut garbage = garbage_words();
    for c in 2..=5 {
        let states = (1..=c).map(|k| (k, 4));
        let growing = (2..=c).map(|k| (256 + k, 6));
        let shrinking = (1..c).map(|k| (512 + k, 6));
        for (state, bound) in states.chain(growing).chain(shrinking) {
            let mut story = Story::with(c, 1, garbage() | 1, garbage() | 1);
            story.table[word::STATE] = state;
            // In these states the smallest level has one bucket, where both places of a key are the same.
            let one_bucket = [1, 256 + 2, 512 + 1].contains(&state);
            let absent = (0..500).map(|_| story.query(garbage()));
            let most = absent.map(|(number, [.., probes, _, _])| (number, probes)).max().unwrap();
            assert_eq!(most, (5, bound - u64::from(one_bucket)), "c {c}, state {state}");
        }
    }
}
