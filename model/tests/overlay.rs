//! Request i) of document 02: a newer table over an older one. All words are worked out from the layout of document 01:
//! bucket j starts at word 9 + 13j with its token, and the key of its slot s stands 1 + 3s behind that.

mod common;
use common::by_hand::{meant_token, places_in_probe_order};
use common::overlay::*;
use common::*;
use ragansils_model::*;

// ---- Two tables told by hand.

/// c = 2 and k = 1: the top is buckets 1 and 2, the bottom bucket 0. Key 1 is the first of bucket 2, at word 36, and key 9
/// finds that bucket full and is the first of bucket 0, at word 10.
fn small() -> Story {
    let mut story = Story::marked();
    story.insert_keys([1, 3, 5, 7, 9]);
    story
}

/// c = 3 and k = 3: the top is buckets 7 to 14, the bottom buckets 3 to 6. Key 1 is in its first place, bucket 8, at word
/// 114, with another record than in the small table. Key 2 is in bucket 9, at word 127.
fn large() -> Story {
    let mut story = Story::with(3, 3, MARKED_1, MARKED_2);
    story.whole(insert_event(1, 11, 12));
    story.whole(insert_event(2, 21, 22));
    story
}

#[test]
fn a_key_of_the_newer_table_alone() {
    let (newer, older) = (small().table, large().table);
    assert_eq!(ask(&newer, &older, 9), Answer::found(NEWER, 2, 10));
    assert_eq!(part(&newer, &older, 9), [9, 109, 209]);
    assert_eq!(ask(&newer, &older, 7), Answer::found(NEWER, 1, 45));
}

#[test]
fn a_key_of_the_older_table_alone() {
    let (newer, older) = (small().table, large().table);
    // Key 2 has one place in each level of the small table, and one bucket of the large one is looked at.
    assert_eq!(ask(&newer, &older, 2), Answer::found(OLDER, 2 + 1, 127));
    assert_eq!(part(&newer, &older, 2), [2, 21, 22]);
    // The other way round: key 9 has the places 1 and 3 of eight and of four.
    assert_eq!(ask(&older, &newer, 9), Answer::found(OLDER, 4 + 2, 10));
    assert_eq!(part(&older, &newer, 9), [9, 109, 209]);
}

#[test]
fn the_newer_table_hides_a_key_of_the_older() {
    let (newer, older) = (small().table, large().table);
    assert_eq!(ask(&newer, &older, 1), Answer::found(NEWER, 1, 36));
    assert_eq!(part(&newer, &older, 1), [1, 101, 201]);
    assert_eq!(ask(&older, &newer, 1), Answer::found(NEWER, 1, 114));
    assert_eq!(part(&older, &newer, 1), [1, 11, 12]);
}

#[test]
fn five_names_the_older_with_both_counts() {
    let (newer, older) = (small().table, large().table);
    // Key 4 has one place in each level of both tables. Key 11 has the places 3 and 1 of eight and of four.
    for (key, buckets) in [(4, 2 + 2), (11, 2 + 4)] {
        assert_eq!(ask(&newer, &older, key), Answer::refused(5, OLDER, buckets));
        assert_eq!(ask(&older, &newer, key), Answer::refused(5, OLDER, buckets));
    }
}

#[test]
fn a_key_that_is_deleted_from_the_newer_table_is_no_longer_hidden() {
    let (mut newer, older) = (small(), large());
    newer.whole(Event::Delete { key: 1 });
    // It stays behind as a stale key, which hides nothing.
    assert_eq!(newer.table[36], 1);
    assert_eq!(ask(&newer.table, &older.table, 1), Answer::found(OLDER, 2 + 1, 114));
    newer.whole(insert_event(1, 31, 32));
    assert_eq!(ask(&newer.table, &older.table, 1), Answer::found(NEWER, 1, 36));
    assert_eq!(part(&newer.table, &older.table, 1), [1, 31, 32]);
}

#[test]
fn equal_records_hide_each_other_too() {
    let (newer, older) = (small().table, small().table);
    assert_eq!(ask(&newer, &older, 9), Answer::found(NEWER, 2, 10));
}

#[test]
fn one_table_may_be_lent_twice() {
    let table = small().table;
    assert_eq!(ask(&table, &table, 9), Answer::found(NEWER, 2, 10));
    assert_eq!(ask(&table, &table, 4), Answer::refused(5, OLDER, 2 + 2));
}

#[test]
fn records_of_any_words_and_any_key() {
    for key in [0, 1 << 63, u64::MAX] {
        let mut with_key = Story::marked();
        with_key.whole(insert_event(key, u64::MAX, 0));
        let without_key = Story::marked();
        let pairs = [(&with_key, &without_key, NEWER), (&without_key, &with_key, OLDER)];
        for (newer, older, name) in pairs {
            assert_eq!(part(&newer.table, &older.table, key), [key, u64::MAX, 0]);
            assert_eq!(ask(&newer.table, &older.table, key), ask_by_hand(&newer.table, &older.table, key));
            assert_eq!(asked(&newer.table, &older.table, key).name, name);
        }
    }
}

// ---- Tables of different c, form, phase and multipliers.

/// With the multipliers 1 and 2^32 + 1 its hashes are 2 and 3 in form 1, and 2 and 2 + (1 ^ 2) = 5 in form 2. So it has two
/// places in every level of two buckets or more.
const KEY: u64 = (2 << 32) + 1;

/// Tables without items, of both forms, in each phase, and with up to six places for the key.
fn empty_tables() -> Vec<Story> {
    let mut stories = vec![];
    for form in BOTH_FORMS {
        for (c, states) in [(1, vec![1]), (2, vec![1, 2, 258, 513]), (3, vec![1, 2, 3, 258, 259, 513, 514])] {
            for (state, [mul1, mul2]) in
                states.iter().flat_map(|&state| MULTIPLIERS.map(|muls| (state, muls)))
            {
                let mut story = Story::in_form(form, c, 1, mul1, mul2);
                story.table[word::STATE] = state;
                stories.push(story);
            }
        }
    }
    stories
}

const MULTIPLIERS: [[u64; 2]; 3] = [[1, MARKED_1], [MARKED_1, MARKED_2], [MARKED_1, MARKED_1]];

/// The table with the key in slot `slot` of its place number `place` in probe order, and the word where it stands.
fn with_key(empty: &Story, place: usize, slot: usize) -> (Story, usize) {
    let mut story = Story { table: empty.table.clone() };
    let (_level, bucket) = places_in_probe_order(&story.table, KEY)[place];
    put(&mut story, bucket, slot, [KEY, 1000 + place as u64, 2000 + slot as u64]);
    story.table[9 + 13 * bucket] = meant_token(&story.table, bucket);
    story.assert_sound();
    (story, 9 + 13 * bucket + 1 + 3 * slot)
}

fn place_count(story: &Story) -> u64 {
    places_in_probe_order(&story.table, KEY).len() as u64
}

#[test]
fn every_pair_without_the_key_gives_both_counts() {
    let tables = empty_tables();
    let mut counts = vec![];
    for newer in &tables {
        for older in &tables {
            let buckets = place_count(newer) + place_count(older);
            assert_eq!(ask(&newer.table, &older.table, KEY), Answer::refused(5, OLDER, buckets));
            counts.push(buckets);
        }
    }
    // "at most the sum of both bounds": with six places in each table it is reached.
    assert_eq!([counts.iter().min(), counts.iter().max()], [Some(&4), Some(&12)]);
}

#[test]
fn every_place_of_every_pair_is_told() {
    let tables = empty_tables();
    for (round, newer) in tables.iter().enumerate() {
        // Each table has all others beside it in turn, and all its places are tried with one slot each.
        for (shift, older) in tables.iter().enumerate() {
            let slot = (round + shift) % 4;
            for place in 0..place_count(newer) as usize {
                let (newer, word) = with_key(newer, place, slot);
                let told = Answer::found(NEWER, place as u64 + 1, word);
                assert_eq!(ask(&newer.table, &older.table, KEY), told);
                // And hidden, wherever it stands in the older table.
                let (older, _) = with_key(older, shift % place_count(older) as usize, 3 - slot);
                assert_eq!(ask(&newer.table, &older.table, KEY), told);
            }
            for place in 0..place_count(older) as usize {
                let (older, word) = with_key(older, place, slot);
                let told = Answer::found(OLDER, place_count(newer) + place as u64 + 1, word);
                assert_eq!(ask(&newer.table, &older.table, KEY), told);
                let record = [KEY, 1000 + place as u64, 2000 + slot as u64];
                assert_eq!(part(&newer.table, &older.table, KEY), record);
            }
        }
    }
}

#[test]
fn the_last_words_of_a_table_may_be_the_part() {
    // Bucket 510 is the last of c = 8; its last record is words 6649 to 6651.
    let mut story = Story::with(8, 8, MARKED_1, MARKED_1);
    put(&mut story, 510, 3, [255, 11, 12]);
    let other = Story::marked();
    assert_eq!(ask(&story.table, &other.table, 255), Answer::found(NEWER, 1, 6649));
    assert_eq!(ask(&other.table, &story.table, 255), Answer::found(OLDER, 2 + 1, 6649));
    assert_eq!(part(&other.table, &story.table, 255), &story.table[6649..]);
}

// ---- Refusals 1 and 3.

/// The ways in which a table is good or refused, and the number it is refused with.
#[derive(Clone, Copy, Debug)]
enum Damage {
    None,
    BadHeader,
    Flag,
    /// 1 comes before 3.
    Both,
}

const DAMAGES: [Damage; 4] = [Damage::None, Damage::BadHeader, Damage::Flag, Damage::Both];

impl Damage {
    fn number(self) -> u64 {
        match self {
            Damage::None => 0,
            Damage::BadHeader | Damage::Both => 1,
            Damage::Flag => 3,
        }
    }

    fn of(self, story: &Story) -> Vec<u64> {
        let mut table = story.table.clone();
        if matches!(self, Damage::BadHeader | Damage::Both) {
            table[word::STATE] = 768;
        }
        if matches!(self, Damage::Flag | Damage::Both) {
            table[word::FLAG] = 1;
        }
        table
    }
}

/// Key 1 stands in both tables, 9 in the newer and 2 in the older one alone, and 4 in neither.
const KEYS_OF_EACH_KIND: [u64; 4] = [1, 9, 2, 4];

#[test]
fn the_first_of_newer_1_newer_3_older_1_older_3_is_told() {
    for newer_damage in DAMAGES {
        for older_damage in DAMAGES {
            let (newer, older) = (newer_damage.of(&small()), older_damage.of(&large()));
            for key in KEYS_OF_EACH_KIND {
                let told = match (newer_damage.number(), older_damage.number()) {
                    (0, 0) => ask_by_hand(&newer, &older, key),
                    (0, number) => Answer::refused(number, OLDER, 0),
                    (number, _) => Answer::refused(number, NEWER, 0),
                };
                assert_eq!(ask(&newer, &older, key), told, "{newer_damage:?} {older_damage:?} {key}");
            }
        }
    }
}

/// A newer flag comes before an older header, though 3 is the larger number.
#[test]
fn both_of_the_newer_come_first() {
    let (newer, older) = (Damage::Flag.of(&small()), Damage::BadHeader.of(&large()));
    assert_eq!(ask(&newer, &older, 1), Answer::refused(3, NEWER, 0));
    assert_eq!(ask(&older, &newer, 1), Answer::refused(1, NEWER, 0));
}

/// Key 1 is in the newer table, and yet the older one is tested.
#[test]
fn a_hidden_table_is_tested_before_any_lookup() {
    let newer = small().table;
    assert_eq!(ask(&newer, &Damage::BadHeader.of(&large()), 1), Answer::refused(1, OLDER, 0));
    assert_eq!(ask(&newer, &Damage::Flag.of(&large()), 1), Answer::refused(3, OLDER, 0));
}

fn assert_refused_on_both_sides(table: &[u64], number: u64) {
    for good in [small(), large()] {
        for key in KEYS_OF_EACH_KIND {
            assert_eq!(ask(table, &good.table, key), Answer::refused(number, NEWER, 0));
            assert_eq!(ask(&good.table, table, key), Answer::refused(number, OLDER, 0));
            assert_eq!(ask(table, table, key), Answer::refused(number, NEWER, 0));
        }
    }
}

#[test]
fn every_bad_header_word_is_1_on_both_sides() {
    let bad_words: [(usize, &[u64]); 5] = [
        (word::FORM, &[0, 3, u64::MAX]),
        (word::CAPACITY, &[0, 1, 3, 21, u64::MAX]),
        (word::MULTIPLIER_1, &[0, 2, u64::MAX - 1]),
        (word::MULTIPLIER_2, &[0, 2, u64::MAX - 1]),
        (word::STATE, &[0, 3, 256, 257, 259, 512, 514, 768, 769, u64::MAX]),
    ];
    for (index, values) in bad_words {
        for &value in values {
            let mut story = small();
            story.table[index] = value;
            assert_refused_on_both_sides(&story.table, 1);
        }
    }
}

#[test]
fn every_bad_length_is_1_on_both_sides() {
    let mut table = small().table;
    table.push(0);
    for length in (0..=101).rev().filter(|&length| length != 100) {
        table.resize(length, 0);
        assert_refused_on_both_sides(&table, 1);
    }
}

#[test]
fn every_flag_is_3_on_both_sides() {
    for flag in [1, 2, 256, u64::MAX] {
        let mut story = small();
        story.table[word::FLAG] = flag;
        // The update target of a cut update is no answer.
        story.table[word::UPDATE_TARGET] = 36;
        assert_refused_on_both_sides(&story.table, 3);
    }
}

/// The empty part starts at word 0 of the table that is named, also where that table has no words.
#[test]
fn an_empty_part_starts_with_its_table() {
    let (newer, older) = (small().table, large().table);
    let no_words = [];
    let starts_with = |part: &[u64], table: &[u64]| part.is_empty() && part.as_ptr() == table.as_ptr();
    assert!(starts_with(part(&newer, &older, 4), &older));
    assert!(starts_with(part(&newer, &newer[..99], 1), &newer));
    assert!(starts_with(part(&newer[1..], &older, 1), &newer[1..]));
    assert!(starts_with(part(&no_words, &older, 1), &no_words));
    assert!(starts_with(part(&newer, &no_words, 1), &no_words));
}

/// A part lives as long as both tables, and not only as long as the question.
#[test]
fn parts_of_several_questions_live_beside_each_other() {
    let (newer, older) = (small().table, large().table);
    let parts = KEYS_OF_EACH_KIND.map(|key| part(&newer, &older, key));
    assert_eq!(parts, [&newer[36..39], &newer[10..13], &older[127..130], &[]]);
}

// ---- Damaged tables with a good header.

#[test]
fn what_no_lookup_meets_hides_nothing() {
    let older = large().table;
    let told = Answer::found(OLDER, 2 + 1, 114);
    // In bucket 1, which is no place of key 1, and in bucket 4, whose level is not in use.
    for bucket in [1, 4] {
        let mut newer = Story::marked();
        put(&mut newer, bucket, 0, [1, 7, 8]);
        assert_eq!(ask(&newer.table, &older, 1), told);
    }
    // In form 2 with a wrong tag: key 1 has tag 0.
    let mut newer = Story::marked_in(2);
    put(&mut newer, 2, 0, [1, 7, 8]);
    assert_eq!(ask(&newer.table, &older, 1), Answer::found(NEWER, 1, 36));
    newer.table[35] += 3 << 8;
    assert_eq!(ask(&newer.table, &older, 1), told);
}

#[test]
fn the_first_of_two_copies_is_told_in_either_table() {
    let mut twice = Story::marked();
    put(&mut twice, 0, 2, [1, 5, 6]);
    put(&mut twice, 2, 3, [1, 7, 8]);
    let without = Story::marked();
    assert_eq!(ask(&twice.table, &without.table, 1), Answer::found(NEWER, 1, 45));
    assert_eq!(ask(&without.table, &twice.table, 1), Answer::found(OLDER, 2 + 1, 45));
}

const FEW_KEYS: usize = 12;

/// A table in any good state with any records. Its keys are of a few, and most token words fit them, so that many keys are
/// met in some place, and many stand twice, outside their places or in free slots.
fn damaged_table(keys: [u64; FEW_KEYS], mut garbage: impl FnMut() -> u64) -> Vec<u64> {
    let c = 1 + garbage() % 4;
    let buckets = (2 << c) - 1;
    let mut table: Vec<u64> = (0..9 + 13 * buckets).map(|_| garbage()).collect();
    let state = match garbage() % 3 {
        1 if c > 1 => 256 + 2 + garbage() % (c - 1),
        2 if c > 1 => 512 + 1 + garbage() % (c - 1),
        _ => 1 + garbage() % c,
    };
    table[..6].copy_from_slice(&[1 + garbage() % 2, c, garbage() | 1, garbage() | 1, state, 0]);
    for bucket in 0..buckets {
        let token = 9 + 13 * bucket;
        for slot in 0..4 {
            table[token + 1 + 3 * slot] = keys[garbage() as usize % FEW_KEYS];
        }
        if garbage() % 4 > 0 {
            table[token] = meant_token(&table, bucket);
        }
    }
    table
}

#[test]
fn any_two_tables_answer_as_their_words_say() {
    let mut garbage = garbage_words();
    let [mut in_newer_alone, mut in_older_alone, mut hidden, mut in_neither] = [0; 4];
    for _ in 0..2000 {
        let keys = [(); FEW_KEYS].map(|_| garbage());
        let [newer, older] = [(); 2].map(|_| damaged_table(keys, &mut garbage));
        for key in keys {
            let told = ask_by_hand(&newer, &older, key);
            assert_eq!(ask(&newer, &older, key), told);
            *match (told.number, told.name, query(&older, key).0) {
                (SUCCESS, NEWER, SUCCESS) => &mut hidden,
                (SUCCESS, NEWER, _) => &mut in_newer_alone,
                (SUCCESS, _, _) => &mut in_older_alone,
                _ => &mut in_neither,
            } += 1;
        }
    }
    let tally = [in_newer_alone, in_older_alone, hidden, in_neither];
    assert!(tally.iter().all(|&count| count > 1000), "{tally:?}");
}

/// Words of any length, of which many make a good header or nearly one.
fn any_words(mut garbage: impl FnMut() -> u64) -> Vec<u64> {
    let length = [0, 1, 9, 47, 48, 100][garbage() as usize % 6];
    let mut words: Vec<u64> = (0..length).map(|_| garbage()).collect();
    let header = [1 + garbage() % 2, garbage() % 3, garbage() | 1, garbage() | 1, 1, garbage() % 4 / 2];
    words.iter_mut().zip(header).for_each(|(word, of_header)| *word = of_header);
    words
}

#[test]
fn any_words_of_any_length_are_answered() {
    let mut garbage = garbage_words();
    let mut refused = vec![];
    for _ in 0..5000 {
        let [newer, older] = [(); 2].map(|_| any_words(&mut garbage));
        let key = garbage();
        let told = match [&newer, &older].map(|table| query(table, key).0) {
            [number @ (1 | 3), _] => Answer::refused(number, NEWER, 0),
            [_, number @ (1 | 3)] => Answer::refused(number, OLDER, 0),
            _ => ask_by_hand(&newer, &older, key),
        };
        assert_eq!(ask(&newer, &older, key), told);
        refused.push((told.name, told.number));
    }
    refused.sort_unstable();
    refused.dedup();
    // A random key is in no table.
    assert_eq!(refused, [(NEWER, 1), (NEWER, 3), (OLDER, 1), (OLDER, 3), (OLDER, 5)]);
}
