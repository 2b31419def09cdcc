//! Request g) of document 02, told word by word on sound tables of form 2. E1 to E11 in form 2 are in
//! `marked_examples.rs`, the histories with cuts in `histories.rs`, and damaged tags in `form_two_damage.rs`.
//!
//! Most tables have c = 2, k = 1 and the usual multipliers 2^32 + 1 and 3·2^32 + 1. For a key K below 2^32 the exclusive
//! or changes nothing, and the products are K·2^32 + K and 3K·2^32 + K modulo 2^64. So hash 1 is K, hash 2 is 3K modulo
//! 2^32, and the tag is the upper byte of K: (K·2^32 + K) / 2^24 = 256·K + K / 2^24, of which the first part is 0 modulo
//! 256. 2^24 is a multiple of all level sizes here, so that tag·2^24 + n stands where n stands: an odd n in top bucket 1
//! of two, which is bucket 2 with its token at word 35, and an even one in bucket 1 with its token at word 22. The bottom
//! is bucket 0 with its token at word 9. 3n is odd where n is, so that both places coincide.

mod common;
use common::*;
use ragansils_model::*;

/// The key that stands where `n` stands and has this tag.
const fn tagged(tag: u64, n: u64) -> u64 {
    (tag << 24) + n
}

/// Below, n has the tag n + 1, which is never 0.
const fn with_next_tag(n: u64) -> u64 {
    tagged(n + 1, n)
}

/// 5·2^24 + 1.
const FIVE: u64 = 83886081;

/// The four odd keys of the issue, with tags 5, 7, 9 and 11.
const FOUR_KEYS: [u64; 4] = [tagged(5, 1), tagged(7, 3), tagged(9, 5), tagged(11, 7)];

/// 15 + 5·2^8 + 7·2^16 + 9·2^24 + 11·2^32 = 15 + 1280 + 458752 + 150994944 + 47244640256.
const TOKEN_OF_FOUR: u64 = 47396095247;

fn marked_with(keys: impl IntoIterator<Item = u64>) -> Story {
    let mut story = Story::marked_in(2);
    story.insert_keys(keys);
    story
}

// ---- The rows of the issue.

#[test]
fn insert_update_and_delete_of_one_key() {
    assert_eq!(tagged(5, 1), FIVE);
    let mut story = Story::marked_in(2);
    // Slot 0 with tag 5: 1 + 5·2^8 = 1281.
    assert_eq!(story.whole(insert_event(FIVE, 10, 20)), [(36, FIVE), (37, 10), (38, 20), (35, 1281)]);
    assert_eq!(story.query(FIVE), (0, [10, 20, 1, 36, 0]));
    // The same place and another tag, or the same tag and another place, is another key.
    assert_eq!(story.query(1), (5, [0, 0, 2, 0, 0]));
    assert_eq!(story.query(tagged(5, 3)), (5, [0, 0, 2, 0, 0]));
    story.refused(insert_event(FIVE, 30, 40), 4);
    // From slot 0 to slot 1: 2 + 5·2^16 = 327682.
    assert_eq!(story.whole(update_event(FIVE, 30, 40)), [(39, FIVE), (40, 30), (41, 40), (35, 327682)]);
    assert_eq!(story.query(FIVE), (0, [30, 40, 1, 39, 0]));
    story.assert_sound();
    // Token and tag go in one store.
    assert_eq!(story.whole(Event::Delete { key: FIVE }), [(35, 0)]);
    assert_eq!(story.query(FIVE), (5, [0, 0, 2, 0, 0]));
    story.assert_sound();
}

#[test]
fn four_keys_fill_a_bucket() {
    let mut story = marked_with(FOUR_KEYS);
    assert_eq!(story.table[35], TOKEN_OF_FOUR);
    story.assert_sound();
    // Slot 1 has 2 + 7·2^16 = 458754 of this, and 47396095247 − 458754 = 47395636493.
    assert_eq!(story.whole(Event::Delete { key: FOUR_KEYS[1] }), [(35, 47395636493)]);
    // Slot 2 has 4 + 9·2^24 = 150994948; slot 1 gets 2 + 9·2^16 = 589826. 47395636493 − 150994948 + 589826 = 47245231371.
    let key = FOUR_KEYS[2];
    assert_eq!(story.whole(update_event(key, 1, 2)), [(39, key), (40, 1), (41, 2), (35, 47245231371)]);
    story.assert_sound();
}

/// 12968787970 = 3·2^32 + 5·2^24 + 2. With the upper half u and the lower half l the product by 2^32 + 1 is
/// (u + l)·2^32 + l modulo 2^64, and by 3·2^32 + 1 it is (u + 3l)·2^32 + l.
#[test]
fn the_upper_half_of_a_key_counts() {
    let key = 12968787970;
    assert_eq!(key, (3 << 32) + (5 << 24) + 2);
    // Form 1: u = 3, l = 5·2^24 + 2. Both hashes are odd, 5·2^24 + 5 and 15·2^24 + 9: bucket 2.
    let mut story = Story::marked_in(1);
    assert_eq!(story.whole(insert_event(key, 10, 20)), [(36, key), (37, 10), (38, 20), (35, 1)]);
    // Form 2: the lower half is combined with 3, so l = 5·2^24 + 1. Both hashes are even, 5·2^24 + 4 and 15·2^24 + 6:
    // bucket 1. The tag is that of l: 5.
    let mut story = Story::marked_in(2);
    assert_eq!(story.whole(insert_event(key, 10, 20)), [(23, key), (24, 10), (25, 20), (22, 1281)]);
    assert_eq!(story.query(key), (0, [10, 20, 1, 23, 0]));
    story.assert_sound();
}

/// 11400714819323198485 = 0x9E3779B97F4A7C15 and 14029467366897019727 = 0xC2B2AE3D27D4EB4F.
#[test]
fn other_multipliers() {
    let mut story = Story::in_form(2, 2, 1, 11400714819323198485, 14029467366897019727);
    // Key 1: the hashes 9E3779B9 and C2B2AE3D are odd; the tag is 7F = 127. 1 + 127·2^8 = 32513.
    assert_eq!(story.whole(insert_event(1, 10, 20)), [(36, 1), (37, 10), (38, 20), (35, 32513)]);
    // Key 2: the products are 3C6EF372FE94F82A and 85655C7A4FA9D69E; the hashes 3C6EF372 and 85655C7A are even, and the
    // tag is FE = 254, which a tag modulo 128 would not be. 1 + 254·2^8 = 65025. By the second multiplier the tags would
    // be 27 and 4F.
    assert_eq!(story.whole(insert_event(2, 10, 20)), [(23, 2), (24, 10), (25, 20), (22, 65025)]);
    story.assert_sound();
}

// ---- More rows.

#[test]
fn an_update_in_a_full_bucket_stores_no_token() {
    let mut story = marked_with(FOUR_KEYS);
    let pairs = story.whole(update_event(FIVE, 30, 40));
    assert_eq!(pairs, [(6, 36), (7, 30), (8, 40), (5, 1), (37, 30), (38, 40), (5, 0)]);
    assert_eq!(story.table[35], TOKEN_OF_FOUR);
    story.assert_sound();
}

/// E9 with tags. Even keys 2, 4, 6 stand in slots 1 to 3 of bucket 1, odd ones fill bucket 2, and the bottom holds 8, 9,
/// 11, 13. Then 15 has a place only where 8 rises to slot 0 of bucket 1.
fn before_the_move() -> Story {
    let mut story = marked_with([0, 2, 4, 6, 8].map(with_next_tag));
    story.whole(Event::Delete { key: with_next_tag(0) });
    story.insert_keys([1, 3, 5, 7, 9, 11, 13].map(with_next_tag));
    story
}

/// Bucket 1 with tags 9, 3, 5, 7: 15 + 9·2^8 + 3·2^16 + 5·2^24 + 7·2^32
/// = 15 + 2304 + 196608 + 83886080 + 30064771072.
const MOVED_IN: u64 = 30148856079;
/// Bucket 0 without slot 0 and with tags 10, 12, 14: 14 + 10·2^16 + 12·2^24 + 14·2^32
/// = 14 + 655360 + 201326592 + 60129542144.
const MOVED_OUT: u64 = 60331524110;
/// The same with tag 16 in slot 0: 1 + 16·2^8 = 4097 more.
const TAKEN_AGAIN: u64 = 60331528207;

#[test]
fn an_insert_with_a_move() {
    let mut story = before_the_move();
    let [moved, new] = [8, 15].map(with_next_tag);
    let pairs = story.whole(insert_event(new, 7, 8));
    assert_eq!(pairs[..4], [(23, moved), (24, moved + 100), (25, moved + 200), (22, MOVED_IN)]);
    assert_eq!(pairs[4..], [(9, MOVED_OUT), (10, new), (11, 7), (12, 8), (9, TAKEN_AGAIN)]);
    assert_eq!(story.query(moved), (0, [moved + 100, moved + 200, 1, 23, 0]));
    assert_eq!(story.query(new), (0, [7, 8, 2, 10, 1]));
    story.assert_sound();
}

/// E10 with tags: the bottom, which becomes the interim level, holds 9, 11, 13, 15.
fn growing() -> Story {
    let mut story = marked_with([1, 3, 5, 7, 9, 11, 13, 15].map(with_next_tag));
    assert_eq!(story.whole(Event::Begin), [(4, 258)]);
    story
}

/// Bucket 0 without slot 0 and with tags 12, 14, 16: 14 + 12·2^16 + 14·2^24 + 16·2^32
/// = 14 + 786432 + 234881024 + 68719476736.
const STEPPED_OUT: u64 = 68955144206;

#[test]
fn a_growth_step() {
    let mut story = growing();
    let key = with_next_tag(9);
    // 9 modulo 4 is 1: bucket 4, with its token at word 61. Its tag is 10: 1 + 10·2^8 = 2561.
    let stores = [(62, key), (63, key + 100), (64, key + 200), (61, 2561), (9, STEPPED_OUT)];
    assert_eq!(story.whole(Event::Step), stores);
    story.assert_sound();
}

/// One place for each key. At rest with k = 2 the key of 5 stands in bucket 4 of the top, its token at word 61; after the
/// shrink this is the interim level, and its place in the top is bucket 2. Its tag is 6: 1 + 6·2^8 = 1537.
#[test]
fn a_step_of_a_shrink() {
    let key = with_next_tag(5);
    let mut story = Story::in_form(2, 2, 2, MARKED_1, MARKED_1);
    assert_eq!(story.whole(insert_event(key, 10, 20)), [(62, key), (63, 10), (64, 20), (61, 1537)]);
    assert_eq!(story.whole(Event::Shrink), [(4, 513)]);
    story.assert_sound();
    assert_eq!(story.query(key), (0, [10, 20, 3, 62, 2]));
    assert_eq!(story.whole(Event::Step), [(36, key), (37, 10), (38, 20), (35, 1537), (61, 0)]);
    assert_eq!(story.whole(Event::End), [(4, 1)]);
    assert_eq!(story.query(key), (0, [10, 20, 1, 36, 0]));
    story.assert_sound();
}

#[test]
fn recovery_of_a_flag() {
    let mut story = marked_with(FOUR_KEYS);
    story.cut(update_event(FIVE, 30, 40), 5);
    assert_eq!(story.query(FIVE), (3, [0; 5]));
    assert_eq!(story.whole(Event::Recover), [(37, 30), (38, 40), (5, 0)]);
    assert_eq!(story.query(FIVE), (0, [30, 40, 1, 36, 0]));
    story.assert_sound();
}

#[test]
fn recovery_of_a_copy() {
    // The insert with a move, cut before the old slot is hidden: both copies of 8 have their tag.
    let mut story = before_the_move();
    story.cut(insert_event(with_next_tag(15), 7, 8), 4);
    assert_eq!(story.whole(Event::Recover), [(9, MOVED_OUT)]);
    story.assert_sound();
    // The growth step, cut before its interim slot is hidden.
    let mut story = growing();
    story.cut(Event::Step, 4);
    assert_eq!(story.whole(Event::Recover), [(9, STEPPED_OUT)]);
    story.assert_sound();
}

/// Tag 0 is a tag like any other: a free slot has the same bits.
#[test]
fn a_free_slot_with_the_key_and_tag_0_does_not_hold_it() {
    let mut story = marked_with([1, 3]);
    assert_eq!(story.whole(Event::Delete { key: 1 }), [(35, 2)]);
    assert_eq!([story.table[35], story.table[36]], [2, 1]);
    assert_eq!(story.query(1), (5, [0, 0, 2, 0, 0]));
    assert_eq!(story.whole(insert_event(1, 7, 8))[3], (35, 3));
}

#[test]
fn equal_tags_of_different_keys_are_told_apart_by_the_keys() {
    let keys = [1, 3, 5, 7].map(|n| tagged(200, n));
    let story = marked_with(keys);
    for (number, key) in keys.into_iter().enumerate() {
        assert_eq!(story.query(key), (0, [key + 100, key + 200, 1, 36 + 3 * number as u64, 0]));
    }
    assert_eq!(story.query(tagged(200, 9)), (5, [0, 0, 2, 0, 0]));
}

/// A chain goes by query: address·256 + depth, here with the upper byte 5 for all depths.
#[test]
fn a_chain() {
    let address = 5 << 16;
    let mut story = marked_with([]);
    for depth in 0..4 {
        story.whole(insert_event(address * 256 + depth, 10 + depth, 20 + depth));
    }
    assert_eq!(story.chain(address, 3, 8), (0, 4, vec![13, 23, 12, 22, 11, 21, 10, 20]));
}

/// Keys with any upper half, the largest among them.
#[test]
fn hashes_and_tags_of_any_key() {
    let mut garbage = garbage_words();
    for form in BOTH_FORMS {
        let words = Story::in_form(form, 4, 4, garbage() | 1, garbage() | 1).table;
        let table = Table::read(&words).unwrap();
        assert_eq!(table.form(), form);
        for key in (0..2000).map(|_| garbage()).chain([0, 1, 1 << 32, (1 << 32) - 1, 1 << 63, u64::MAX]) {
            assert_eq!(table.tag_of(key), u64::from(by_hand::tag(&words, key)));
            let places = [table.places(key, table.top()), table.places(key, table.bottom())].concat();
            let by_hand: Vec<usize> =
                by_hand::places_in_probe_order(&words, key).iter().map(|place| place.1).collect();
            assert_eq!(places, by_hand);
        }
    }
}

// ---- Which forms there are.

#[test]
fn only_forms_1_and_2_are_made_and_taken() {
    for form in [0, 3, 1 << 63] {
        let mut words = [UNTOUCHED; 100];
        assert_eq!(create(&mut words, form, 2, 1, MARKED_1, MARKED_2), 13);
        assert_eq!(words, [UNTOUCHED; 100]);
        let mut story = marked_with([FIVE]);
        story.table[word::FORM] = form;
        assert_eq!(story.query(FIVE), (1, [0; 5]));
        assert_eq!(story.chain(5 << 16, 1, 4), (1, 0, vec![UNTOUCHED; 4]));
        let changes =
            [insert_event(3, 1, 2), update_event(FIVE, 1, 2), Event::Delete { key: FIVE }, Event::Step];
        let others = [Event::Begin, Event::Shrink, Event::Back, Event::End, Event::Recover];
        changes.into_iter().chain(others).for_each(|event| story.refused(event, 1));
    }
    for form in BOTH_FORMS {
        let story = Story::marked_in(form);
        let header = [form, 2, MARKED_1, MARKED_2, 1, 0, 0, 0, 0];
        assert_eq!(story.table[..9], header);
        assert!(story.table[9..].iter().all(|&word| word == 0));
    }
}

/// "scripts make form 1": the key that form 2 has at word 23 stands at 36.
#[test]
fn scripts_make_form_1() {
    let events = "op=insert,key=12968787970,fn=10,at=20,op=query,key=12968787970,";
    let told = scripts::SCRIPT.after_header(events);
    assert!(told.contains("fn=10,at=20,probes=1,word=36,level=0,"), "{told}");
}
