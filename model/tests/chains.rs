//! Request a) of document 02: the inlined callers of an address.

mod common;
use common::*;
use ragansils_model::*;

const ADDRESS: u64 = 3;
const LAST_ADDRESS: u64 = (1 << 56) - 1;

/// Addresses and depths of which one or both are too large.
const TOO_LARGE: [[u64; 2]; 3] = [[1 << 56, 0], [0, 256], [u64::MAX, u64::MAX]];

/// Inserts the record (100 + depth, 200 + depth) for each depth.
fn insert_depths(story: &mut Story, address: u64, depths: impl IntoIterator<Item = u64>) {
    for depth in depths {
        story.whole(insert_event(address * 256 + depth, 100 + depth, 200 + depth));
    }
}

/// Depths 0 to 9 of the address in the marked table. Even and odd ones have one top place each:
/// 0 to 7 fill the top, 8 and 9 stand in the bottom.
fn ten_depths() -> Story {
    let mut story = Story::marked();
    insert_depths(&mut story, ADDRESS, 0..=9);
    story
}

/// What `insert_depths` left for a depth and all smaller ones, then untouched words.
fn records_from(depth: u64, untouched: usize) -> Vec<u64> {
    let mut words: Vec<u64> = (0..=depth).rev().flat_map(|smaller| [100 + smaller, 200 + smaller]).collect();
    words.extend(vec![UNTOUCHED; untouched]);
    words
}

/// Checks number and count, and that no lent word was written.
fn refused(story: &Story, [address, depth]: [u64; 2], lent_words: usize, number: u64, count: u64) {
    let untouched = vec![UNTOUCHED; lent_words];
    assert_eq!(story.chain(address, depth, lent_words), (number, count, untouched), "{address} {depth}");
}

#[test]
fn records_come_from_the_depth_down_to_0() {
    let mut story = Story::marked();
    for (depth, function, place) in [(0, 10, 11), (1, 20, 21), (2, 30, 31)] {
        story.whole(insert_event(ADDRESS * 256 + depth, function, place));
    }
    assert_eq!(story.chain(ADDRESS, 2, 6), (0, 3, vec![30, 31, 20, 21, 10, 11]));
    assert_eq!(story.chain(ADDRESS, 1, 4), (0, 2, vec![20, 21, 10, 11]));
    assert_eq!(story.chain(ADDRESS, 0, 2), (0, 1, vec![10, 11]));
}

#[test]
fn at_rest_the_probe_counts_are_added() {
    let story = ten_depths();
    // Depths 9 and 8 take two buckets each, the other eight one.
    assert_eq!(story.chain(ADDRESS, 9, 20), (0, 12, records_from(9, 0)));
    assert_eq!(story.chain(ADDRESS, 8, 18), (0, 10, records_from(8, 0)));
    assert_eq!(story.chain(ADDRESS, 7, 16), (0, 8, records_from(7, 0)));
}

#[test]
fn while_growing_the_records_stay_and_the_count_follows_the_items() {
    let mut story = ten_depths();
    story.whole(Event::Begin);
    // Even depths have one place in the new top, odd ones two. So in the old top an even one takes
    // two buckets and an odd one three; in the interim level 8 takes three and 9 four.
    assert_eq!(story.chain(ADDRESS, 9, 20), (0, 4 * 2 + 4 * 3 + 3 + 4, records_from(9, 0)));
    story.whole(Event::Step); // 8 comes to its first top place
    assert_eq!(story.chain(ADDRESS, 9, 20), (0, 4 * 2 + 4 * 3 + 1 + 4, records_from(9, 0)));
    story.whole(Event::Step); // 9 too
    assert_eq!(story.chain(ADDRESS, 9, 20), (0, 4 * 2 + 4 * 3 + 1 + 1, records_from(9, 0)));
    story.whole(Event::End);
    assert_eq!(story.chain(ADDRESS, 9, 20), (0, 4 * 2 + 4 * 3 + 1 + 1, records_from(9, 0)));
}

#[test]
fn while_shrinking_the_records_stay_and_the_count_follows_the_items() {
    // c = 2, k = 2: even depths have one place in the top of four, odd ones two; each is met in the first.
    let mut story = Story::with(2, 2, MARKED_1, MARKED_2);
    insert_depths(&mut story, ADDRESS, 0..=3);
    assert_eq!(story.chain(ADDRESS, 3, 8), (0, 4, records_from(3, 0)));
    story.whole(Event::Shrink);
    // One bucket of the new top, one of the new bottom, and the first of the interim level.
    assert_eq!(story.chain(ADDRESS, 3, 8), (0, 4 * 3, records_from(3, 0)));
    for stepped in 1..=4 {
        story.whole(Event::Step); // the next one comes to its top place
        assert_eq!(story.chain(ADDRESS, 3, 8), (0, stepped + (4 - stepped) * 3, records_from(3, 0)));
    }
    story.whole(Event::End);
    assert_eq!(story.chain(ADDRESS, 3, 8), (0, 4, records_from(3, 0)));
}

#[test]
fn only_the_records_are_written() {
    let story = ten_depths();
    for depth in 0..=9 {
        let words = 2 * (depth as usize + 1);
        for spare in [0, 1, 2, 50] {
            assert_eq!(story.chain(ADDRESS, depth, words + spare).2, records_from(depth, spare));
        }
    }
}

#[test]
fn another_address_has_its_own_records() {
    let mut story = ten_depths();
    story.whole(insert_event((ADDRESS + 1) * 256, 7, 8));
    assert_eq!(story.chain(ADDRESS + 1, 0, 2), (0, 2, vec![7, 8]));
    refused(&story, [ADDRESS + 1, 1], 4, 5, 2);
    refused(&story, [ADDRESS - 1, 0], 2, 5, 2);
    assert_eq!(story.chain(ADDRESS, 9, 20), (0, 12, records_from(9, 0)));
}

#[test]
fn five_counts_down_to_the_missing_depth_and_writes_nothing() {
    let missing = |depth| {
        let mut story = ten_depths();
        story.whole(Event::Delete { key: ADDRESS * 256 + depth });
        story
    };
    // A missing depth takes both buckets; so do 8 and 9.
    refused(&missing(9), [ADDRESS, 9], 20, 5, 2);
    refused(&missing(5), [ADDRESS, 9], 20, 5, 2 + 2 + 1 + 1 + 2);
    refused(&missing(0), [ADDRESS, 9], 20, 5, 2 + 2 + 7 + 2);
    refused(&missing(0), [ADDRESS, 9], 31, 5, 2 + 2 + 7 + 2);
    refused(&missing(0), [ADDRESS, 0], 2, 5, 2);
    // A depth above the one asked may be missing.
    assert_eq!(missing(5).chain(ADDRESS, 4, 10), (0, 5, records_from(4, 0)));
}

#[test]
fn five_stops_at_the_first_of_several_missing_depths() {
    let mut story = ten_depths();
    for depth in [6, 2] {
        story.whole(Event::Delete { key: ADDRESS * 256 + depth });
    }
    refused(&story, [ADDRESS, 9], 20, 5, 2 + 2 + 1 + 2);
    refused(&story, [ADDRESS, 5], 12, 5, 3 + 2);
    refused(&Story::marked(), [ADDRESS, 255], 512, 5, 2);
}

#[test]
fn five_while_growing() {
    let mut story = ten_depths();
    story.whole(Event::Begin);
    story.whole(Event::Delete { key: ADDRESS * 256 });
    // As above, and the missing depth 0 takes one bucket of each level.
    refused(&story, [ADDRESS, 9], 20, 5, 3 * 2 + 4 * 3 + 3 + 4 + 3);
}

#[test]
fn five_while_shrinking() {
    let mut story = Story::with(2, 2, MARKED_1, MARKED_2);
    insert_depths(&mut story, ADDRESS, [0, 2, 3]);
    story.whole(Event::Shrink);
    // Depth 3 is met in the third bucket. The missing depth 1 looks at both of its interim places too.
    refused(&story, [ADDRESS, 3], 8, 5, 3 + 3 + 4);
}

#[test]
fn depth_255_is_taken() {
    for address in [0, ADDRESS, LAST_ADDRESS] {
        let mut story = Story::with(7, 7, MARKED_1, MARKED_2);
        insert_depths(&mut story, address, 0..=255);
        let (number, count, records) = story.chain(address, 255, 515);
        assert_eq!((number, records), (0, records_from(255, 3)));
        let probes = |depth| story.query(address * 256 + depth).1[2];
        assert_eq!(count, (0..=255).map(probes).sum());
        refused(&story, [address, 256], 515, 16, 0);
    }
}

#[test]
fn the_last_address_and_depth_make_the_last_key() {
    let mut story = Story::marked();
    story.whole(insert_event(u64::MAX, 1, 2));
    let count = story.query(u64::MAX).1[2] + story.query(u64::MAX - 1).1[2];
    refused(&story, [LAST_ADDRESS, 255], 512, 5, count);
    story.whole(insert_event(u64::MAX - 255, 3, 4));
    assert_eq!(story.chain(LAST_ADDRESS, 0, 3), (0, 1, vec![3, 4, UNTOUCHED]));
}

#[test]
fn sixteen_for_large_addresses_and_depths() {
    // Address 2^56 must not be taken for address 0, nor depth 256 for depth 0 of the next address.
    let mut story = Story::marked();
    for address in 0..3 {
        insert_depths(&mut story, address, 0..=1);
    }
    for address in [1 << 56, (1 << 56) + 1, 1 << 63, u64::MAX] {
        for depth in [0, 1, 255] {
            refused(&story, [address, depth], 600, 16, 0);
        }
    }
    for depth in [256, 257, 1 << 32, 1 << 63, u64::MAX - 1, u64::MAX] {
        refused(&story, [0, depth], 600, 16, 0);
        refused(&story, [LAST_ADDRESS, depth], 600, 16, 0);
        refused(&story, [1 << 56, depth], 600, 16, 0);
    }
}

#[test]
fn fifteen_below_two_words_for_each_depth() {
    let story = ten_depths();
    for depth in 0..=9 {
        let words = 2 * (depth as usize + 1);
        for lent_words in 0..words {
            refused(&story, [ADDRESS, depth], lent_words, 15, 0);
        }
        assert_eq!(story.chain(ADDRESS, depth, words).0, 0);
        assert_eq!(story.chain(ADDRESS, depth, words + 1).0, 0);
    }
    refused(&story, [LAST_ADDRESS, 255], 511, 15, 0);
    refused(&story, [LAST_ADDRESS, 255], 0, 15, 0);
}

#[test]
fn one_then_three_then_sixteen_then_fifteen_then_five() {
    let mut story = Story::marked();
    // 15 before 5: the table is empty.
    refused(&story, [ADDRESS, 0], 1, 15, 0);
    refused(&story, [ADDRESS, 0], 2, 5, 2);
    // 16 before 15.
    for asked in TOO_LARGE {
        refused(&story, asked, 0, 16, 0);
        refused(&story, asked, 1, 16, 0);
    }
    // 3 before 16, 15 and 5.
    for flag in [1, 2, u64::MAX] {
        story.table[word::FLAG] = flag;
        every_chain_is_refused(&story, 3);
    }
    // 1 before all, with the flag set and without.
    let bad_words = [(word::FORM, 3), (word::CAPACITY, 3), (word::MULTIPLIER_1, 2), (word::STATE, 0)];
    for (index, bad_word) in bad_words {
        let mut story = Story { table: story.table.clone() };
        story.table[index] = bad_word;
        every_chain_is_refused(&story, 1);
        story.table[word::FLAG] = 0;
        every_chain_is_refused(&story, 1);
    }
    every_chain_is_refused(&Story { table: vec![] }, 1);
}

/// Chains that a good table would answer with 16, 15 and 5.
fn every_chain_is_refused(story: &Story, number: u64) {
    for asked in TOO_LARGE.into_iter().chain([[ADDRESS, 255], [ADDRESS, 0]]) {
        for lent_words in [0, 1, 2, 512] {
            refused(story, asked, lent_words, number, 0);
        }
    }
}

#[test]
fn a_present_chain_is_refused_with_one_and_three_too() {
    let mut story = ten_depths();
    story.table[word::FLAG] = 1;
    refused(&story, [ADDRESS, 9], 20, 3, 0);
    story.table[word::FORM] = 0;
    refused(&story, [ADDRESS, 9], 20, 1, 0);
    story.table.push(0);
    story.table[word::FORM] = 1;
    story.table[word::FLAG] = 0;
    refused(&story, [ADDRESS, 9], 20, 1, 0);
}

#[test]
fn a_damaged_table_answers_as_its_queries_do() {
    let mut story = Story::marked();
    put(&mut story, 0, 0, [ADDRESS * 256, 5, 6]);
    put(&mut story, 1, 3, [ADDRESS * 256, 7, 8]); // stands twice: the top one is met first
    put(&mut story, 0, 1, [ADDRESS * 256 + 1, 9, 10]);
    put(&mut story, 1, 0, [ADDRESS * 256 + 2, 11, 12]);
    put(&mut story, 1, 1, [ADDRESS * 256 + 3, 13, 14]); // an odd depth does not belong here
    story.table[9] += 16; // token words are read modulo 16
    assert_eq!(story.chain(ADDRESS, 2, 7), (0, 1 + 2 + 1, vec![11, 12, 9, 10, 7, 8, UNTOUCHED]));
    refused(&story, [ADDRESS, 3], 8, 5, 2);
}

/// A table with any tokens in any state, and keys of few depths of address 0, so that many are found.
fn garbage_table(state: u64, mut garbage: impl FnMut() -> u64) -> Story {
    let mut table: Vec<u64> = (0..100).map(|_| garbage() % 6).collect();
    (9..100).step_by(13).for_each(|token_word| table[token_word] = garbage());
    table[..6].copy_from_slice(&[1, 2, garbage() | 1, garbage() | 1, state, 0]);
    Story { table }
}

#[test]
fn garbage_answers_as_its_queries_do() {
    let mut garbage = garbage_words();
    let (mut complete, mut incomplete) = (0, 0);
    for round in 0..4000 {
        let (state, most_probes) = [(1, 4), (2, 4), (256 + 2, 6), (512 + 1, 6)][round % 4];
        let depth = garbage() % 4;
        let story = garbage_table(state, &mut garbage);

        let answers: Vec<(u64, [u64; 5])> = (0..=depth).rev().map(|smaller| story.query(smaller)).collect();
        let found = answers.iter().take_while(|(number, _)| *number == 0).count();
        let count = answers.iter().take(found + 1).map(|(_, [_, _, probes, ..])| probes).sum();
        assert!(count <= most_probes * (depth + 1));
        if found < answers.len() {
            refused(&story, [0, depth], 9, 5, count);
            incomplete += 1;
        } else {
            let pairs = answers.iter().flat_map(|(_, [function, place, ..])| [*function, *place]);
            let records: Vec<u64> = pairs.chain([UNTOUCHED; 9]).take(9).collect();
            assert_eq!(story.chain(0, depth, 9), (0, count, records));
            complete += 1;
        }
    }
    assert!(complete > 500 && incomplete > 500, "{complete} {incomplete}");
}
