//! Request g) of document 02: damaged token words of form 2, kind by kind and at random. In the told tables c = 2, k = 1
//! and the multipliers are the usual ones, as in `form_two.rs`: the key 5·2^24 + 1 has tag 5 and stands in bucket 2,
//! whose token is word 35 and whose slots start at 36, 39, 42 and 45.

mod common;
use common::resizing::*;
use common::*;
use ragansils_model::*;

const FIVE: u64 = (5 << 24) + 1;
const SEVEN: u64 = (7 << 24) + 3;

/// FIVE stands in slot 0 with this token word, which should be 1281, with the record (10, 20).
fn with_token(token: u64) -> Story {
    let mut story = Story::marked_in(2);
    assert_eq!(story.whole(insert_event(FIVE, 10, 20))[3], (35, 1281));
    story.table[35] = token;
    story
}

// ---- A wrong tag on a taken slot.

#[test]
fn a_wrong_tag_hides_a_key_from_every_call() {
    // 4, 6 and 5 + 128 are other tags. 0 is one too, though it is also a free slot's.
    for wrong in [0, 4, 6, 133, 255] {
        let token = 1 + (wrong << 8);
        let story = with_token(token);
        assert_eq!(story.query(FIVE), (5, [0, 0, 2, 0, 0]));
        story.refused(update_event(FIVE, 1, 2), 5);
        story.refused(Event::Delete { key: FIVE }, 5);
        // FIVE is depth 1 of address 5·2^16.
        assert_eq!(story.chain(5 << 16, 1, 4), (5, 2, vec![UNTOUCHED; 4]));
        // Insert goes on to slot 1 and keeps slot 0 as it is: 2 + 5·2^16 = 327682 more.
        let stores = vec![(39, FIVE), (40, 1), (41, 2), (35, token + 327682)];
        assert_eq!(story.list(insert_event(FIVE, 1, 2)), (0, stores));
        story.refused(Event::Recover, 12);
    }
}

#[test]
fn a_hidden_key_does_not_hide_others() {
    let mut story = with_token(1 + (6 << 8));
    // Slot 0 still counts as taken. Slot 1: 2 + 7·2^16 = 458754, and 1537 + 458754 = 460291.
    assert_eq!(story.whole(insert_event(SEVEN, 1, 2))[3], (35, 460291));
    assert_eq!(story.query(SEVEN), (0, [1, 2, 1, 39, 0]));
    // Delete and update of SEVEN keep the wrong tag. The update goes on to slot 2.
    assert_eq!(story.list(Event::Delete { key: SEVEN }), (0, vec![(35, 1537)]));
    assert_eq!(story.list(update_event(SEVEN, 3, 4)).1[3], (35, 1537 + 4 + (7 << 24)));
    // A key with the tag that stands there is not found either: the key is tested too.
    assert_eq!(story.query((6 << 24) + 1), (5, [0, 0, 2, 0, 0]));
}

/// Two copies: the first has a wrong tag, so that the second is the one told.
#[test]
fn of_two_copies_the_one_whose_tag_fits_is_told() {
    let mut story = with_token(1 + (6 << 8));
    story.whole(insert_event(FIVE, 1, 2));
    assert_eq!(story.query(FIVE), (0, [1, 2, 1, 39, 0]));
    assert_eq!(story.list(Event::Delete { key: FIVE }), (0, vec![(35, 1537)]));
    story.refused(Event::Recover, 12);
}

#[test]
fn two_copies_with_equal_records_are_recovered_only_with_their_tags() {
    let copies = |tags: [u64; 2]| {
        let mut story = with_token(3 + (tags[0] << 8) + (tags[1] << 16));
        story.table.copy_within(36..39, 39);
        story
    };
    assert_eq!(copies([5, 5]).list(Event::Recover), (0, vec![(35, 1281)]));
    for tags in [[5, 6], [6, 5], [5, 0], [0, 5], [6, 6], [0, 0]] {
        copies(tags).refused(Event::Recover, 12);
    }
    // In two levels too: bucket 0 is the bottom.
    let mut story = with_token(1281);
    story.table.copy_within(36..39, 10);
    story.table[9] = 1281;
    assert_eq!(story.list(Event::Recover), (0, vec![(9, 0)]));
    story.table[9] = 1537;
    story.refused(Event::Recover, 12);
}

#[test]
fn a_flag_does_not_excuse_a_wrong_tag() {
    let mut story = with_token(1281);
    story.table[5..9].copy_from_slice(&[1, 36, 30, 40]);
    assert_eq!(story.list(Event::Recover), (0, vec![(37, 30), (38, 40), (5, 0)]));
    story.table[35] = 1537;
    story.refused(Event::Recover, 12);
}

/// An item that moves under a wrong tag gets its own again.
#[test]
fn a_moved_items_tag_comes_from_its_key() {
    // The growth step of E10 with 9, 11, 13 and 15 in the interim bucket 0, all with tag 0; tags 3 and 4 are wrong.
    let mut story = Story::marked_in(2);
    story.insert_keys((1..=15).step_by(2));
    story.whole(Event::Begin);
    story.table[9] = 15 + (3 << 8) + (4 << 16);
    // The hidden slot's own tag goes, the other wrong one stays: 14 + 4·2^16 = 262158.
    assert_eq!(story.list(Event::Step).1[3..], [(61, 1), (9, 262158)]);
    // The move of E9: 8 rises from bucket 0 to bucket 1, and 15 takes its slot.
    let mut story = Story::marked_in(2);
    story.insert_keys([0, 2, 4, 6, 8]);
    story.whole(Event::Delete { key: 0 });
    story.insert_keys([1, 3, 5, 7, 9, 11, 13]);
    story.table[9] = 15 + (3 << 8) + (4 << 16);
    let pairs = story.list(insert_event(15, 7, 8)).1;
    assert_eq!([pairs[3], pairs[4], pairs[8]], [(22, 15), (9, 262158), (9, 262159)]);
}

// ---- A tag on a free slot.

#[test]
fn a_tag_on_a_free_slot() {
    // Slot 1 is free and has tag 9: 9·2^16 = 589824.
    let story = with_token(1281 + 589824);
    assert_eq!(story.query(FIVE), (0, [10, 20, 1, 36, 0]));
    story.refused(Event::Recover, 12);
    // Showing slot 1 overwrites the tag: 1281 + 2 + 7·2^16 = 460035.
    assert_eq!(story.list(insert_event(SEVEN, 1, 2)).1[3], (35, 460035));
    // Update shows slot 1 and hides slot 0: 2 + 5·2^16.
    assert_eq!(story.list(update_event(FIVE, 1, 2)).1[3], (35, 327682));
    // Delete hides slot 0 alone.
    assert_eq!(story.list(Event::Delete { key: FIVE }), (0, vec![(35, 589824)]));
}

#[test]
fn a_free_slot_with_key_and_tag_does_not_hold_the_key() {
    let story = with_token(1280);
    assert_eq!(story.query(FIVE), (5, [0, 0, 2, 0, 0]));
    assert_eq!(story.list(insert_event(FIVE, 1, 2)).1, [(36, FIVE), (37, 1), (38, 2), (35, 1281)]);
    story.refused(Event::Recover, 12);
}

// ---- Bits that are of no slot.

#[test]
fn bits_of_no_slot_are_kept() {
    for stray in [1 << 4, 1 << 7, 0xf0, 1 << 40, 1 << 63, 0xffff_ff00_0000_00f0] {
        let story = with_token(1281 + stray);
        assert_eq!(story.query(FIVE), (0, [10, 20, 1, 36, 0]));
        assert_eq!(story.list(insert_event(SEVEN, 1, 2)).1[3], (35, 460035 + stray));
        assert_eq!(story.list(update_event(FIVE, 1, 2)).1[3], (35, 327682 + stray));
        assert_eq!(story.list(Event::Delete { key: FIVE }), (0, vec![(35, stray)]));
        story.refused(Event::Recover, 12);
    }
}

/// Empty means that no token bit is set.
#[test]
fn an_interim_level_with_upper_bits_alone_is_empty() {
    for token in [1 << 4, 5 << 8, 255 << 32, 1 << 40, u64::MAX - 15] {
        let mut story = Story::marked_in(2);
        story.whole(Event::Begin);
        story.table[9] = token;
        story.refused(Event::Step, 11);
        assert_eq!(story.list(Event::End), (0, vec![(4, 2)]));
        story.refused(Event::Recover, 12);
    }
}

#[test]
fn levels_not_in_use_have_no_bits_at_all() {
    // Buckets 3 to 6 are not in use.
    for token in [1, 16, 5 << 8, 1 << 39, 1 << 40, 1 << 63] {
        let mut story = with_token(1281);
        story.table[9 + 13 * 4] = token;
        story.refused(Event::Recover, 12);
    }
    // Not even with a tag that would be right in a level in use.
    let mut story = with_token(1281);
    story.table.copy_within(35..39, 61);
    story.refused(Event::Recover, 12);
}

/// The full bucket is told by the token bits; the tags do not matter.
#[test]
fn a_bucket_with_all_bits_set_is_full() {
    let mut story = Story::marked_in(2);
    story.table[35] = u64::MAX;
    // The top place of 1 is full, so that it goes to the bottom.
    assert_eq!(story.list(insert_event(1, 7, 8)).1, [(10, 1), (11, 7), (12, 8), (9, 1)]);
    // Slot 2 holds the key with tag 255 and record (7, 8). It is hidden: 2^64 − 1 − 4 − 255·2^24.
    let key = (255 << 24) + 1;
    story.table[42..45].copy_from_slice(&[key, 7, 8]);
    assert_eq!(story.query(key), (0, [7, 8, 1, 42, 0]));
    assert_eq!(story.list(Event::Delete { key }).1, [(35, u64::MAX - 4 - (255 << 24))]);
    assert_eq!(story.list(update_event(key, 3, 4)).1[0], (6, 42));
}

/// A form 1 table with the same words reads them modulo 16, as before.
#[test]
fn form_1_has_no_tags() {
    for token in [1, 1281, 1537, 1 + (9 << 16), 17, 1 + (1 << 40), u64::MAX - 14] {
        let mut story = with_token(token);
        story.table[0] = 1;
        assert_eq!(story.query(FIVE), (0, [10, 20, 1, 36, 0]));
        assert_eq!(story.list(insert_event(SEVEN, 1, 2)).1[3], (35, 3));
        assert_eq!(story.list(update_event(FIVE, 1, 2)).1[3], (35, 2));
        assert_eq!(story.list(Event::Delete { key: FIVE }), (0, vec![(35, 0)]));
        assert_eq!(story.list(Event::Recover).0, if token == 1 { 0 } else { 12 });
    }
}

// ---- Any damage.

/// A table of form 2 in any phase whose token words were sound, and are damaged in some buckets: a tag, a bit of no
/// slot, a token bit, or the whole word.
fn damaged_table(round: u64, mut garbage: impl FnMut() -> u64) -> (Story, Vec<u64>) {
    let (way, c) = (BOTH_WAYS[round as usize / 2 % 2], 2 + round % 2);
    let mut story = crowded_table_in(2, way, c, round % 3 == 0, &mut garbage);
    let mut keys: Vec<u64> = map_of(&story.table).into_keys().collect();
    keys.push(garbage());
    for bucket in 0..(2 << c) - 1 {
        let token = &mut story.table[9 + 13 * bucket];
        match garbage() % 12 {
            0 => *token ^= (1 + garbage() % 255) << (8 + garbage() % 4 * 8),
            1 => *token ^= 1 << (4 + garbage() % 4),
            2 => *token ^= 1 << (40 + garbage() % 24),
            3 => *token ^= 1 << (garbage() % 4),
            4 => *token = garbage(),
            _ => {}
        }
    }
    (story, keys)
}

fn changes_of(key: u64) -> [Event; 7] {
    let changes = [insert_event(key, 1, 2), update_event(key, 3, 4), Event::Delete { key }];
    let steps = [Event::Step, Event::StepFrom { from: key % 4 }, Event::End, Event::Recover];
    [changes[0], changes[1], changes[2], steps[0], steps[1], steps[2], steps[3]]
}

/// Makes the stores of a list one by one. Each token store must be the word before it with the slots shown and hidden
/// whose token bits it changes, by the keys that stand there then.
fn assert_token_stores_keep_other_bits(story: &Story, event: Event) -> usize {
    let (_, pairs) = story.list(event);
    let mut now = story.table.clone();
    let mut token_stores = 0;
    for (index, new_word) in pairs {
        let index = index as usize;
        if index >= 9 && (index - 9) % 13 == 0 {
            token_stores += 1;
            let bucket = (index - 9) / 13;
            let changed: Vec<usize> =
                (0..4).filter(|slot| (now[index] ^ new_word) >> slot & 1 == 1).collect();
            assert!(!changed.is_empty());
            for slot in changed {
                now[index] = match by_hand::is_taken(&now, bucket, slot) {
                    true => by_hand::token_without(&now, bucket, slot),
                    false => by_hand::token_with(&now, bucket, slot, by_hand::key_at(&now, bucket, slot)),
                };
            }
            assert_eq!(now[index], new_word, "{event:?}");
        }
        now[index] = new_word;
    }
    token_stores
}

#[test]
fn on_damaged_tables_queries_go_by_tag_and_stores_keep_other_bits() {
    let mut garbage = garbage_words();
    let (mut hidden_by_tag, mut token_stores) = (0, 0);
    for round in 0..400 {
        let (story, keys) = damaged_table(round, &mut garbage);
        for key in keys {
            let answer = story.query(key);
            assert_eq!(answer, by_hand::query_by_tag(&story.table, key));
            hidden_by_tag += u32::from(answer != by_hand::query_reading_every_slot(&story.table, key));
            let present = answer.0 == SUCCESS;
            assert_eq!(story.list(insert_event(key, 1, 2)).0 == 4, present);
            assert_eq!(story.list(update_event(key, 1, 2)).0, answer.0);
            assert_eq!(story.list(Event::Delete { key }).0, answer.0);
            for event in changes_of(key) {
                token_stores += assert_token_stores_keep_other_bits(&story, event);
            }
        }
    }
    assert!(hidden_by_tag > 100 && token_stores > 1000, "{hidden_by_tag}, {token_stores}");
}

#[test]
fn on_damaged_tables_a_step_is_told_by_inserts() {
    let mut garbage = garbage_words();
    let mut accepted = 0;
    for round in 0..400 {
        let (story, _keys) = damaged_table(round, &mut garbage);
        // An interim key that also stands in top or bottom would be refused by insert with 4: those are left out.
        let doubled = interim_items(&story.table).into_iter().any(|item| {
            let key = story.table[item.token_word + 1 + 3 * item.slot];
            let mut without = Story { table: story.table.clone() };
            let buckets = interim_buckets(&story.table).len();
            clear_interim(&mut without.table, 0..buckets);
            without.query(key).0 == SUCCESS
        });
        if doubled {
            continue;
        }
        let told = step_told_by_inserts(&story.table, 0);
        assert_eq!(story.step_from(0), (told.number, told.bucket, told.stores));
        accepted += u32::from(told.number == SUCCESS);
    }
    assert!(accepted > 50, "{accepted}");
}

/// Recovery tests whole words: a sound table with any other upper bits in one token word is refused.
#[test]
fn recovery_refuses_all_other_upper_bits() {
    let mut garbage = garbage_words();
    for round in 0..300 {
        let (way, c) = (BOTH_WAYS[round % 2], 2 + round as u64 % 3);
        let sound = crowded_table_in(2, way, c, round % 3 == 0, &mut garbage);
        sound.assert_sound();
        for bit in (4..64).map(|bit| 1 << bit).chain([garbage() << 4 | 16]) {
            let mut damaged = Story { table: sound.table.clone() };
            damaged.table[9 + 13 * (garbage() as usize % ((2 << c) - 1))] ^= bit;
            damaged.refused(Event::Recover, 12);
        }
    }
}

/// What the crate tells of tags and meant words is what the words say.
#[test]
fn tags_and_meant_words_are_told() {
    let mut garbage = garbage_words();
    for round in 0..100 {
        let (mut story, _keys) = damaged_table(round, &mut garbage);
        for form in BOTH_FORMS {
            story.table[0] = form;
            let table = Table::read(&story.table).unwrap();
            for bucket in 0..(story.table.len() - 9) / 13 {
                let word = story.table[9 + 13 * bucket];
                assert_eq!([table.raw_token(bucket), table.token(bucket)], [word, word % 16]);
                assert_eq!(table.meant_token(bucket), by_hand::meant_token(&story.table, bucket));
                for number in 0..4 {
                    let tag = if form == 2 { u64::from(word.to_le_bytes()[1 + number]) } else { 0 };
                    assert_eq!(table.tag_in(Slot { bucket, number }), tag);
                }
            }
            assert_eq!(untidy_buckets(&table).is_empty(), by_hand::all_tokens_are_meant(&story.table));
        }
    }
}
