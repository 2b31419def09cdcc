//! Request e) of document 02: where the answer stood. All words are worked out from the layout of document 01: bucket j
//! starts at word 9 + 13j with its token, and the key of its slot s stands 1 + 3s behind that.

mod common;
use common::by_hand::{buckets_of, levels_in_use};
use common::resizing::{crowded_table, map_of, try_inserts, Way, BOTH_WAYS};
use common::*;
use ragansils_model::{word, Event, SUCCESS};

// ---- One key and its six places.

/// With these multipliers the first hash of a key is its upper half, and the second the sum of its halves.
const UPPER_HALF: u64 = 1;
const SUM_OF_HALVES: u64 = (1 << 32) + 1;

/// Its hashes are 1 and 2.
const KEY: u64 = (1 << 32) + 1;

/// c = 3 with levels of eight, buckets 7 to 14, of four, buckets 3 to 6, and of two, buckets 1 and 2. Growing, these are
/// top, bottom and interim level. Shrinking, the interim level is the first, the top the second and the bottom the third.
fn empty_table(way: Way) -> Story {
    let mut story = Story::with(3, 3, UPPER_HALF, SUM_OF_HALVES);
    story.table[word::STATE] = match way {
        Way::Growth => 256 + 3,
        Way::Shrink => 512 + 2,
    };
    story
}

/// Without its phase the state is at rest with the same top and bottom.
fn put_at_rest(story: &mut Story) {
    story.table[word::STATE] %= 256;
}

/// Where the key may stand in a level: the token word and the four key words of a bucket, first place, then second.
type Places = [(usize, [usize; 4]); 2];
const PLACES_OF_EIGHT: Places = [
    (113, [114, 117, 120, 123]), // bucket 8, place 1
    (126, [127, 130, 133, 136]), // bucket 9, place 2
];
const PLACES_OF_FOUR: Places = [
    (61, [62, 65, 68, 71]), // bucket 4, place 1
    (74, [75, 78, 81, 84]), // bucket 5, place 2
];
const PLACES_OF_TWO: Places = [
    (35, [36, 39, 42, 45]), // bucket 2, place 1
    (22, [23, 26, 29, 32]), // bucket 1, place 0
];

/// By top, bottom, interim.
fn places(way: Way) -> [Places; 3] {
    match way {
        Way::Growth => [PLACES_OF_EIGHT, PLACES_OF_FOUR, PLACES_OF_TWO],
        Way::Shrink => [PLACES_OF_FOUR, PLACES_OF_TWO, PLACES_OF_EIGHT],
    }
}

/// The buckets that are no places of the key. Bucket 0 is in no level in use.
const OTHER_BUCKETS: [usize; 9] = [0, 3, 6, 7, 10, 11, 12, 13, 14];

const ABSENT: (u64, [u64; 5]) = (5, [0, 0, 6, 0, 0]);

/// One slot in which the key may stand.
#[derive(Clone, Copy, Debug)]
struct Stand {
    probes: u64,
    level: u64,
    token_word: usize,
    slot: usize,
    key_word: usize,
}

/// All of them in probe order.
fn stands(way: Way) -> Vec<Stand> {
    let buckets = (0..).zip(places(way)).flat_map(|(level, places)| places.map(|place| (level, place)));
    let slots = (1..).zip(buckets).flat_map(|(probes, (level, (token_word, key_words)))| {
        let slots = (0..).zip(key_words);
        slots.map(move |(slot, key_word)| Stand { probes, level, token_word, slot, key_word })
    });
    slots.collect()
}

impl Stand {
    /// Function and place. No two stands have the same, so that an answer tells which one it is about.
    fn record(self) -> [u64; 2] {
        [1000, 2000].map(|base| base + self.key_word as u64)
    }

    /// Writes the key and its record; the slot stays as free or taken as it was.
    fn write(self, story: &mut Story) {
        let [function, place] = self.record();
        story.table[self.key_word..self.key_word + 3].copy_from_slice(&[KEY, function, place]);
    }

    fn take(self, story: &mut Story) {
        self.write(story);
        story.table[self.token_word] |= 1 << self.slot;
    }

    /// What a query answers when it meets the key here.
    fn told(self) -> (u64, [u64; 5]) {
        let [function, place] = self.record();
        (0, [function, place, self.probes, self.key_word as u64, self.level])
    }
}

fn with_the_key_at(way: Way, stand: Stand) -> Story {
    let mut story = empty_table(way);
    stand.take(&mut story);
    story
}

#[test]
fn every_slot_of_every_place_is_told() {
    for way in BOTH_WAYS {
        for stand in stands(way) {
            assert_eq!(with_the_key_at(way, stand).query(KEY), stand.told(), "{way:?} {stand:?}");
        }
    }
}

#[test]
fn at_rest_top_and_bottom_are_told_and_no_interim_level() {
    for way in BOTH_WAYS {
        for stand in stands(way) {
            let mut story = with_the_key_at(way, stand);
            put_at_rest(&mut story);
            let told = if stand.level == 2 { (5, [0, 0, 4, 0, 0]) } else { stand.told() };
            assert_eq!(story.query(KEY), told, "{way:?} {stand:?}");
        }
    }
}

// ---- With a refusal both are 0.

#[test]
fn one_tells_nothing_of_a_key_that_stands_there() {
    for way in BOTH_WAYS {
        let bad_words = [
            (word::FORM, 3),
            (word::CAPACITY, 4),
            (word::MULTIPLIER_1, 2),
            (word::MULTIPLIER_2, 0),
            (word::STATE, 256 + 4),
            (word::STATE, 512 + 3),
        ];
        for stand in stands(way) {
            for (index, bad_word) in bad_words {
                let mut story = with_the_key_at(way, stand);
                story.table[index] = bad_word;
                assert_eq!(story.query(KEY), (1, [0; 5]), "{way:?} {stand:?}");
            }
            let mut story = with_the_key_at(way, stand);
            story.table.push(0);
            assert_eq!(story.query(KEY), (1, [0; 5]), "{way:?} {stand:?}");
            story.table.truncate(203);
            assert_eq!(story.query(KEY), (1, [0; 5]), "{way:?} {stand:?}");
        }
    }
}

#[test]
fn three_tells_nothing_of_a_key_that_stands_there() {
    for way in BOTH_WAYS {
        for stand in stands(way) {
            for flag in [1, 2, u64::MAX] {
                let mut story = with_the_key_at(way, stand);
                story.table[word::FLAG] = flag;
                // The update target of a cut update is no answer either.
                story.table[word::UPDATE_TARGET] = stand.key_word as u64;
                assert_eq!(story.query(KEY), (3, [0; 5]), "{way:?} {stand:?}");
            }
        }
    }
}

#[test]
fn five_tells_no_word_beside_its_count() {
    for way in BOTH_WAYS {
        let mut story = empty_table(way);
        assert_eq!(story.query(KEY), ABSENT);
        // All slots are taken, with other keys.
        for bucket in 0..15 {
            (0..4).for_each(|slot| put(&mut story, bucket, slot, [KEY + 1, 7, 8]));
        }
        assert_eq!(story.query(KEY), ABSENT);
        put_at_rest(&mut story);
        assert_eq!(story.query(KEY), (5, [0, 0, 4, 0, 0]));
    }
}

// ---- Damaged tables.

#[test]
fn the_first_of_two_in_probe_order_is_told() {
    for way in BOTH_WAYS {
        let stands = stands(way);
        for (index, earlier) in stands.iter().enumerate() {
            for later in &stands[index + 1..] {
                let mut story = with_the_key_at(way, *later);
                earlier.take(&mut story);
                assert_eq!(story.query(KEY), earlier.told(), "{earlier:?} {later:?}");
            }
        }
    }
}

#[test]
fn a_key_that_stands_everywhere_is_told_and_deleted_in_probe_order() {
    for way in BOTH_WAYS {
        let mut story = empty_table(way);
        stands(way).iter().for_each(|stand| stand.take(&mut story));
        for stand in stands(way) {
            assert_eq!(story.query(KEY), stand.told());
            // The slots before this one are free by now.
            let token_left = [14, 12, 8, 0][stand.slot];
            assert_eq!(story.whole(Event::Delete { key: KEY }), [(stand.token_word as u64, token_left)]);
        }
        assert_eq!(story.query(KEY), ABSENT);
    }
}

#[test]
fn recovery_may_clear_the_slot_that_was_told() {
    // Probed are bucket 2, then bucket 1; recovery clears the later one by bucket.
    let mut story = empty_table(Way::Growth);
    put(&mut story, 1, 0, [KEY, 7, 8]);
    put(&mut story, 2, 0, [KEY, 7, 8]);
    assert_eq!(story.query(KEY), (0, [7, 8, 5, 36, 2]));
    assert_eq!(story.whole(Event::Recover), [(35, 0)]);
    assert_eq!(story.query(KEY), (0, [7, 8, 6, 23, 2]));
}

#[test]
fn a_stale_key_in_a_free_slot_is_not_told() {
    for way in BOTH_WAYS {
        let mut stale = empty_table(way);
        stands(way).iter().for_each(|stand| stand.write(&mut stale));
        assert_eq!(stale.query(KEY), ABSENT);
        for stand in stands(way) {
            // The one taken slot is told, with the stale key before and behind it.
            let mut story = Story { table: stale.table.clone() };
            stand.take(&mut story);
            assert_eq!(story.query(KEY), stand.told());
            // And a free one is not, with another key in the taken slots around it.
            let mut story = empty_table(way);
            for (token_word, _) in places(way).concat() {
                story.table[token_word] = 15;
            }
            stand.write(&mut story);
            story.table[stand.token_word] = 15 - (1 << stand.slot);
            assert_eq!(story.query(KEY), ABSENT);
        }
    }
}

#[test]
fn high_bits_of_a_token_word_do_not_count() {
    for way in BOTH_WAYS {
        for stand in stands(way) {
            let mut story = with_the_key_at(way, stand);
            for high_bits in [16, 240, 1 << 63, !15] {
                story.table[stand.token_word] = high_bits + (1 << stand.slot);
                assert_eq!(story.query(KEY), stand.told());
                // They take no slot.
                story.table[stand.token_word] = high_bits;
                assert_eq!(story.query(KEY), ABSENT);
            }
        }
    }
}

#[test]
fn a_taken_slot_outside_its_places_is_not_told() {
    for way in BOTH_WAYS {
        let mut misplaced = empty_table(way);
        for bucket in OTHER_BUCKETS {
            (0..4).for_each(|slot| put(&mut misplaced, bucket, slot, [KEY, 7, 8]));
        }
        assert_eq!(misplaced.query(KEY), ABSENT);
        for stand in stands(way) {
            let mut story = Story { table: misplaced.table.clone() };
            stand.take(&mut story);
            assert_eq!(story.query(KEY), stand.told());
        }
    }
}

// ---- Places that coincide, and levels that change their names.

#[test]
fn both_places_coincide() {
    // Key 5 has place 5 of eight, 1 of four and 1 of two: buckets 12, 4 and 2, which start at words 165, 61 and 35.
    let mut story = Story::with(3, 3, MARKED_1, MARKED_1);
    story.table[word::STATE] = 256 + 3;
    assert_eq!(story.query(5), (5, [0, 0, 3, 0, 0]));
    put(&mut story, 2, 0, [5, 11, 12]);
    assert_eq!(story.query(5), (0, [11, 12, 3, 36, 2]));
    put(&mut story, 4, 1, [5, 21, 22]);
    assert_eq!(story.query(5), (0, [21, 22, 2, 65, 1]));
    put(&mut story, 12, 2, [5, 31, 32]);
    assert_eq!(story.query(5), (0, [31, 32, 1, 172, 0]));
}

#[test]
fn both_places_coincide_below_the_top_alone() {
    // The hashes are 1 and 5: places 1 and 5 of eight, buckets 8 and 12, but only place 1 of four and of two.
    let key = (1 << 32) + 4;
    let mut story = empty_table(Way::Growth);
    assert_eq!(story.query(key), (5, [0, 0, 4, 0, 0]));
    put(&mut story, 2, 3, [key, 11, 12]);
    assert_eq!(story.query(key), (0, [11, 12, 4, 45, 2]));
    put(&mut story, 4, 0, [key, 21, 22]);
    assert_eq!(story.query(key), (0, [21, 22, 3, 62, 1]));
    put(&mut story, 12, 0, [key, 31, 32]);
    assert_eq!(story.query(key), (0, [31, 32, 2, 166, 0]));
}

#[test]
fn a_slot_keeps_its_word_when_its_level_changes_its_name() {
    // Bucket 2 is place 1 of two. Key 1 has places 1 and 3 of eight and of four.
    let mut story = Story::with(3, 1, MARKED_1, MARKED_2);
    put(&mut story, 2, 0, [1, 11, 12]);
    let told = [
        (1, (0, [11, 12, 1, 36, 0])),
        (2, (0, [11, 12, 3, 36, 1])),
        (256 + 2, (0, [11, 12, 3, 36, 1])),
        (256 + 3, (0, [11, 12, 5, 36, 2])),
        (3, (5, [0, 0, 4, 0, 0])),
        // Shrinking, a level of two is the top or the bottom; as the interim level it would need k = 0.
        (512 + 1, (0, [11, 12, 1, 36, 0])),
        (512 + 2, (0, [11, 12, 3, 36, 1])),
    ];
    for (state, answer) in told {
        story.table[word::STATE] = state;
        assert_eq!(story.query(1), answer, "{state}");
    }
}

#[test]
fn the_first_and_the_last_slot_of_all() {
    // Bucket 0 is the bottom of the smallest table; its first key stands at word 10.
    let mut smallest = Story::with(1, 1, MARKED_1, MARKED_1);
    put(&mut smallest, 0, 0, [6, 11, 12]);
    assert_eq!(smallest.query(6), (0, [11, 12, 2, 10, 1]));
    // Bucket 510 is the last of c = 8; its last record ends with the last word, 6651.
    let mut story = Story::with(8, 8, MARKED_1, MARKED_1);
    put(&mut story, 510, 3, [255, 11, 12]);
    assert_eq!(story.table[6649..], [255, 11, 12]);
    assert_eq!(story.query(255), (0, [11, 12, 1, 6649, 0]));
}

// ---- Tables as calls leave them.

#[test]
fn an_item_is_told_where_each_call_has_put_it() {
    let mut story = Story::marked();
    story.insert_keys([1, 3, 5, 7, 9]);
    assert_eq!(story.query(7), (0, [107, 207, 1, 45, 0])); // bucket 2, the top
    assert_eq!(story.query(9), (0, [109, 209, 2, 10, 1])); // bucket 0, the bottom
    story.whole(Event::Begin);
    assert_eq!(story.query(7), (0, [107, 207, 3, 45, 1]));
    assert_eq!(story.query(9), (0, [109, 209, 4, 10, 2]));
    story.whole(Event::Step);
    assert_eq!(story.query(9), (0, [109, 209, 1, 62, 0])); // bucket 4, the new top
    story.whole(Event::End);
    assert_eq!(story.query(9), (0, [109, 209, 1, 62, 0]));
    // An update beside a free slot goes to the next slot; one in a full bucket stays, and word 6 names the word told.
    story.whole(update_event(9, 1, 2));
    assert_eq!(story.query(9), (0, [1, 2, 1, 65, 0]));
    assert_eq!(story.whole(update_event(7, 3, 4))[0], (6, 45));
    assert_eq!(story.query(7), (0, [3, 4, 3, 45, 1]));
    // A deleted key stays behind as a stale one.
    story.whole(Event::Delete { key: 9 });
    assert_eq!((story.table[65], story.query(9)), (9, (5, [0, 0, 3, 0, 0])));
}

#[test]
fn a_moved_item_is_told_at_its_new_slot() {
    // E9: key 8 moves from the bottom to the top, and key 15 takes its old slot.
    let mut story = Story::marked();
    story.insert_keys([0, 2, 4, 6, 8]);
    story.whole(Event::Delete { key: 0 });
    story.insert_keys([1, 3, 5, 7, 9, 11, 13]);
    assert_eq!(story.query(8), (0, [108, 208, 2, 10, 1]));
    story.insert_keys([15]);
    assert_eq!(story.query(8), (0, [108, 208, 1, 23, 0]));
    assert_eq!(story.query(15), (0, [115, 215, 2, 10, 1]));
}

// ---- Any table, read from its words alone.

/// "the product K·Ai modulo 2^64, divided by 2^32, rounded down".
fn hash(key: u64, multiplier: u64) -> usize {
    let product = u128::from(key) * u128::from(multiplier) % (1 << 64);
    (product / (1 << 32)) as usize
}

/// The buckets that a search for a key looks at until it meets it.
fn buckets_in_probe_order(table: &[u64], key: u64) -> Vec<usize> {
    let mut buckets = vec![];
    for level in levels_in_use(table) {
        let level_buckets = buckets_of(table, level);
        for multiplier in [table[2], table[3]] {
            let bucket = level_buckets.start + hash(key, multiplier) % level_buckets.len();
            if !buckets.contains(&bucket) {
                buckets.push(bucket);
            }
        }
    }
    buckets
}

/// How far behind the token word the keys of a bucket stand.
const KEY_OFFSETS: [usize; 4] = [1, 4, 7, 10];

/// A slot as its bucket and its number in it.
type BucketSlot = (usize, usize);

fn slots_of(buckets: &[usize]) -> impl Iterator<Item = BucketSlot> + '_ {
    buckets.iter().flat_map(|&bucket| [0, 1, 2, 3].map(|slot| (bucket, slot)))
}

/// The slot whose key word this is; it must be one.
fn slot_at(key_word: usize) -> BucketSlot {
    let (bucket, offset) = ((key_word - 9) / 13, (key_word - 9) % 13);
    let slot = KEY_OFFSETS.iter().position(|&key_offset| key_offset == offset);
    (bucket, slot.unwrap_or_else(|| panic!("word {key_word} is no key word")))
}

/// The slot is taken, with this key.
fn holds(table: &[u64], (bucket, slot): BucketSlot, key: u64) -> bool {
    let token_word = 9 + 13 * bucket;
    table[token_word] >> slot & 1 == 1 && table[token_word + KEY_OFFSETS[slot]] == key
}

/// What must be true of an answer 0.
fn assert_stood_there(table: &[u64], key: u64, [function, place, probes, word, level]: [u64; 5]) {
    let key_word = word as usize;
    let slot = slot_at(key_word);
    let (bucket, _) = slot;
    assert!(holds(table, slot, key));
    assert!(levels_in_use(table).contains(&level) && buckets_of(table, level).contains(&bucket));

    let buckets = buckets_in_probe_order(table, key);
    let looked_at = &buckets[..probes as usize];
    assert_eq!(looked_at.last(), Some(&bucket));
    let mut before = slots_of(looked_at).take_while(|earlier| *earlier != slot);
    assert!(before.all(|earlier| !holds(table, earlier, key)));
    assert_eq!([function, place], table[key_word + 1..key_word + 3]);
}

/// What must be true of an answer 5.
fn assert_absent(table: &[u64], key: u64, words: [u64; 5]) {
    let buckets = buckets_in_probe_order(table, key);
    assert!(slots_of(&buckets).all(|slot| !holds(table, slot, key)));
    assert_eq!(words, [0, 0, buckets.len() as u64, 0, 0]);
}

/// How often each level was told, and how often none.
#[derive(Debug, Default)]
struct Tally {
    levels: [u32; 3],
    absent: u32,
}

impl Tally {
    /// Checks the answer for a key on a table with a good header and flag 0, and counts it. Answers the number.
    fn check(&mut self, story: &Story, key: u64) -> u64 {
        let (number, words) = story.query(key);
        if number == SUCCESS {
            assert_stood_there(&story.table, key, words);
            self.levels[words[4] as usize] += 1;
        } else {
            assert_eq!(number, 5);
            assert_absent(&story.table, key, words);
            self.absent += 1;
        }
        number
    }

    fn assert_all_above(&self, least: u32) {
        assert!(self.levels.iter().chain([&self.absent]).all(|&count| count > least), "{self:?}");
    }
}

const FEW_KEYS: usize = 8;

/// A table in any good state with any tokens and records. Its keys are of a few, so that most are met in some place,
/// and many stand twice, outside their places or in free slots.
fn damaged_table(mut garbage: impl FnMut() -> u64) -> (Story, [u64; FEW_KEYS]) {
    let c = 1 + garbage() % 4;
    let buckets = (2 << c) - 1;
    let mut table: Vec<u64> = (0..9 + 13 * buckets).map(|_| garbage()).collect();
    let keys = [(); FEW_KEYS].map(|_| garbage());
    for key_word in (0..buckets).flat_map(|bucket| KEY_OFFSETS.map(|offset| 9 + 13 * bucket + offset)) {
        table[key_word] = keys[garbage() as usize % FEW_KEYS];
    }
    let mul1 = garbage() | 1;
    let mul2 = if garbage() % 4 == 0 { mul1 } else { garbage() | 1 };
    table[..6].copy_from_slice(&[1, c, mul1, mul2, any_state(c, &mut garbage), 0]);
    (Story { table }, keys)
}

fn any_state(c: u64, mut garbage: impl FnMut() -> u64) -> u64 {
    match garbage() % 3 {
        1 if c > 1 => 256 + 2 + garbage() % (c - 1),
        2 if c > 1 => 512 + 1 + garbage() % (c - 1),
        _ => 1 + garbage() % c,
    }
}

#[test]
fn on_damaged_tables_the_answer_stood_where_it_says() {
    let mut garbage = garbage_words();
    let mut tally = Tally::default();
    for _ in 0..3000 {
        let (story, keys) = damaged_table(&mut garbage);
        for key in keys {
            tally.check(&story, key);
        }
    }
    tally.assert_all_above(1000);
}

#[test]
fn on_damaged_tables_a_bad_header_and_a_flag_tell_nothing() {
    let mut garbage = garbage_words();
    for _ in 0..500 {
        let (mut story, keys) = damaged_table(&mut garbage);
        story.table[5] = 1 + garbage() % 3;
        keys.iter().for_each(|&key| assert_eq!(story.query(key), (3, [0; 5])));
        // So much more makes a multiplier even, and form, c and state too large.
        let spoilt = &mut story.table[garbage() as usize % 5];
        *spoilt = spoilt.wrapping_add((1 << 63) + 1);
        keys.iter().for_each(|&key| assert_eq!(story.query(key), (1, [0; 5])));
    }
}

/// A sound table at rest, growing or shrinking, and the keys that were deleted from it.
fn sound_table(round: u64, mut garbage: impl FnMut() -> u64) -> (Story, Vec<u64>) {
    let c = 2 + round % 3;
    let mut story = match round % 4 {
        0 => table_at_rest(c, &mut garbage),
        _ => crowded_table(BOTH_WAYS[round as usize / 4 % 2], c, round % 2 == 0, &mut garbage),
    };
    for _ in 0..garbage() % 8 {
        if story.list(Event::Step).0 == SUCCESS {
            story.whole(Event::Step);
        }
    }
    let deleted = delete_some(&mut story, &mut garbage);
    assert_eq!(story.list(Event::Recover), (SUCCESS, vec![]));
    (story, deleted)
}

fn table_at_rest(c: u64, mut garbage: impl FnMut() -> u64) -> Story {
    let mut story = Story::with(c, 1 + garbage() % c, garbage() | 1, garbage() | 1);
    try_inserts(&mut story, 4 << c, &mut garbage);
    story
}

/// Deletes about every fourth key. They stay behind as stale ones.
fn delete_some(story: &mut Story, mut garbage: impl FnMut() -> u64) -> Vec<u64> {
    let mut keys: Vec<u64> = map_of(&story.table).into_keys().collect();
    keys.retain(|_| garbage() % 4 == 0);
    keys.iter().for_each(|&key| drop(story.whole(Event::Delete { key })));
    keys
}

#[test]
fn on_sound_tables_the_answer_stood_where_it_says() {
    let mut garbage = garbage_words();
    let mut tally = Tally::default();
    for round in 0..600 {
        let (story, deleted) = sound_table(round, &mut garbage);
        for key in map_of(&story.table).into_keys() {
            assert_eq!(tally.check(&story, key), SUCCESS);
        }
        for key in deleted.into_iter().chain([garbage()]) {
            assert_eq!(tally.check(&story, key), 5);
        }
    }
    tally.assert_all_above(500);
}

// ---- The other calls rest on the same search.

/// Delete clears the slot told, update works on it, and insert is refused exactly where there is one.
fn assert_changes_agree(story: &Story, key: u64) {
    let (number, [.., word, _level]) = story.query(key);
    if number != SUCCESS {
        story.refused(Event::Delete { key }, 5);
        story.refused(update_event(key, 1, 2), 5);
        assert_ne!(story.list(insert_event(key, 1, 2)).0, 4);
        return;
    }
    story.refused(insert_event(key, 1, 2), 4);
    let (bucket, slot) = slot_at(word as usize);
    let token_word = 9 + 13 * bucket;
    let token = story.table[token_word] % 16;
    let cleared = token - (1 << slot);
    assert_eq!(story.list(Event::Delete { key }), (SUCCESS, vec![(token_word as u64, cleared)]));
    let updated = story.list(update_event(key, 1, 2)).1;
    match (0..4).find(|free| token >> free & 1 == 0) {
        Some(free) => assert_eq!(updated[3], (token_word as u64, cleared + (1 << free))),
        None => assert_eq!([updated[0], updated[4], updated[5]], [(6, word), (word + 1, 1), (word + 2, 2)]),
    }
}

#[test]
fn delete_update_and_insert_go_by_the_slot_told() {
    let mut garbage = garbage_words();
    for round in 0..600 {
        let (story, keys) = damaged_table(&mut garbage);
        keys.iter().for_each(|&key| assert_changes_agree(&story, key));
        let (story, deleted) = sound_table(round, &mut garbage);
        let keys = map_of(&story.table).into_keys().chain(deleted);
        keys.for_each(|key| assert_changes_agree(&story, key));
    }
}
