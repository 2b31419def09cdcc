//! Growing and shrinking tables, with items that have a place and items that have none, and what a step has to answer
//! on them.

use super::*;
use std::collections::BTreeMap;
use std::ops::Range;

/// The two ways in which a table is resized.
#[derive(Clone, Copy, Debug, PartialEq, Eq)]
pub enum Way {
    Growth,
    Shrink,
}

pub const BOTH_WAYS: [Way; 2] = [Way::Growth, Way::Shrink];

/// c = 2, growing to a top of buckets 3 to 6, with bottom buckets 1 and 2 and interim bucket 0.
/// Bucket 1 holds 0, 4, 8, 12, and bucket 3, the top place of them all, holds 32, 36, 40, 44. So a multiple
/// of 4 has no place, while a key of 2 modulo 4 has one in bucket 5. `interim` are even keys.
pub fn one_interim_bucket(interim: &[u64]) -> Story {
    let mut story = Story::with(2, 1, MARKED_1, MARKED_1);
    story.insert_keys([0, 4, 8, 12]);
    story.insert_keys(interim.iter().copied());
    story.whole(Event::Begin);
    story.insert_keys([32, 36, 40, 44]);
    story
}

/// As above with 16 stuck, and with odd keys: bucket 2 holds 1, 5, 9, 3 and bucket 4, the top place of the
/// first three, holds 33, 37, 41, 45. So 17 has a place only by the move of 3 to bucket 6.
pub fn one_interim_bucket_with_a_move(interim: &[u64]) -> Story {
    let mut story = Story::with(2, 1, MARKED_1, MARKED_1);
    story.insert_keys([0, 4, 8, 12, 1, 5, 9, 3]);
    story.insert_keys(interim.iter().copied());
    story.whole(Event::Begin);
    story.insert_keys([32, 36, 40, 44, 33, 37, 41, 45]);
    story
}

/// c = 3, growing to a top of buckets 7 to 14, with bottom buckets 3 to 6 and interim buckets 1 and 2.
/// Keys of 0 modulo 8 fill buckets 3 and 7, keys of 1 modulo 8 fill buckets 4 and 8: such keys have no place.
/// Keys of 4 modulo 8 have one in bucket 11, keys of 5 modulo 8 in bucket 12.
/// `interim` are keys of 0 modulo 4, for bucket 1, and of 1 modulo 4, for bucket 2.
pub fn two_interim_buckets(interim: &[u64]) -> Story {
    let mut story = Story::with(3, 2, MARKED_1, MARKED_1);
    story.insert_keys([0, 8, 16, 24, 1, 9, 17, 25]);
    story.insert_keys(interim.iter().copied());
    story.whole(Event::Begin);
    story.insert_keys([64, 72, 80, 88, 65, 73, 81, 89]);
    story
}

/// The taken slots of all buckets, read from the words alone: function and place by key.
pub fn map_of(table: &[u64]) -> BTreeMap<u64, [u64; 2]> {
    let mut map = BTreeMap::new();
    for bucket in table[9..].chunks(13) {
        for slot in (0..4).filter(|slot| bucket[0] >> slot & 1 == 1) {
            let [key, function, place] = [1, 2, 3].map(|offset| bucket[3 * slot + offset]);
            assert_eq!(map.insert(key, [function, place]), None, "key {key} stands twice");
        }
    }
    map
}

/// What an accepted event, made whole, leaves of a map.
pub fn map_after(map: &BTreeMap<u64, [u64; 2]>, event: Event) -> BTreeMap<u64, [u64; 2]> {
    let mut after = map.clone();
    match event {
        Event::Insert { key, function, place } | Event::Update { key, function, place } => {
            after.insert(key, [function, place]);
        }
        Event::Delete { key } => {
            after.remove(&key);
        }
        _ => {}
    }
    after
}

/// What `insert_keys` leaves of some keys.
pub fn map_with(keys: impl IntoIterator<Item = u64>) -> BTreeMap<u64, [u64; 2]> {
    keys.into_iter().map(|key| (key, [key + 100, key + 200])).collect()
}

/// Keys of one residue modulo 256, in the order of their inserts at rest: four that fill one bucket of the
/// top, which becomes the bottom, then four that go to the bottom, which becomes the interim level. Those of
/// residue 0 are all multiples of 512.
pub fn keys_of_residue(residue: u64) -> [[u64; 4]; 2] {
    match residue {
        0 => [[0, 512, 1024, 1536], [2048, 2560, 3072, 3584]],
        _ => [0, 1024].map(|start| [0, 256, 512, 768].map(|more| residue + start + more)),
    }
}

/// c = 9, growing to a top of buckets 511 to 1022, with bottom buckets 255 to 510 and interim buckets 127 to 254.
/// All 512 interim slots are taken. Bucket 127 holds 2048, 2560, 3072, 3584, whose places, buckets 255 and 511,
/// are filled by multiples of 512; the 508 items behind them have room in the top.
pub fn hundreds_behind_four() -> Story {
    let mut story = Story::with(9, 8, MARKED_1, MARKED_1);
    for residue in 0..128 {
        story.insert_keys(keys_of_residue(residue).concat());
    }
    assert_eq!(story.whole(Event::Begin), [(4, 256 + 9)]);
    story.insert_keys([4096, 4608, 5120, 5632]);
    story
}

/// A table of c = 5 that has any words. Growing, it has a top of buckets 31 to 62, with bottom buckets 15 to 30 and
/// interim buckets 7 to 14. Shrinking, it has a top of buckets 15 to 30, with bottom buckets 7 to 14 and interim buckets
/// 31 to 62. At most `free` slots of top and bottom are free; any slots of the interim level are taken.
pub fn garbage_table(way: Way, free: u64, interim_empty: bool, mut garbage: impl FnMut() -> u64) -> Story {
    let (state, top_and_bottom) = match way {
        Way::Growth => (256 + 5, 15..63),
        Way::Shrink => (512 + 4, 7..31),
    };
    let mut table: Vec<u64> = (0..828).map(|_| garbage()).collect();
    for bucket in top_and_bottom.clone() {
        table[9 + 13 * bucket] |= 15;
    }
    for _ in 0..free {
        let bucket = top_and_bottom.start + garbage() as usize % top_and_bottom.len();
        table[9 + 13 * bucket] &= !(1 << (garbage() % 4));
    }
    table[..6].copy_from_slice(&[1, 5, garbage() | 1, garbage() | 1, state, 0]);
    if interim_empty {
        let buckets = interim_buckets(&table).len();
        clear_interim(&mut table, 0..buckets);
    }
    Story { table }
}

/// A sound table of form 1 and capacity exponent `c`, 2 or more, that grows to its last level or shrinks from it. With
/// one place for each key many items are stuck.
pub fn crowded_table(way: Way, c: u64, one_place: bool, garbage: impl FnMut() -> u64) -> Story {
    crowded_table_in(1, way, c, one_place, garbage)
}

pub fn crowded_table_in(
    form: u64,
    way: Way,
    c: u64,
    one_place: bool,
    mut garbage: impl FnMut() -> u64,
) -> Story {
    let mul1 = garbage() | 1;
    let mul2 = if one_place { mul1 } else { garbage() | 1 };
    match way {
        Way::Growth => crowded_growth(Story::in_form(form, c, c - 1, mul1, mul2), c, &mut garbage),
        Way::Shrink => crowded_shrink(Story::in_form(form, c, c, mul1, mul2), c, &mut garbage),
    }
}

/// It was filled at rest with as many keys as find a place, and while growing with some more.
fn crowded_growth(mut story: Story, c: u64, mut garbage: impl FnMut() -> u64) -> Story {
    // At rest there are 3 slots for each bucket of the last level, and that level has 4 in each bucket.
    try_inserts(&mut story, 6 << c, &mut garbage);
    story.whole(Event::Begin);
    let tries = (2 << c) + garbage() % (4 << c);
    try_inserts(&mut story, tries, &mut garbage);
    story
}

/// It was filled at rest with any load, and while shrinking with some more. Steps were made and items deleted, so that
/// few slots of top and bottom are free: only then are moves needed.
fn crowded_shrink(mut story: Story, c: u64, mut garbage: impl FnMut() -> u64) -> Story {
    // At rest there are 6 slots for each bucket of the last level, and 3 are left for all items after the shrink.
    let tries = (1 << c) + garbage() % (5 << c);
    try_inserts(&mut story, tries, &mut garbage);
    story.whole(Event::Shrink);
    let tries = garbage() % (2 << c);
    try_inserts(&mut story, tries, &mut garbage);
    for _ in 0..garbage() % (4 << c) {
        if story.list(Event::Step).0 == SUCCESS {
            story.whole(Event::Step);
        }
    }
    delete_some(&mut story, &mut garbage);
    story
}

/// Deletes about one of eight items.
pub fn delete_some(story: &mut Story, mut garbage: impl FnMut() -> u64) {
    for key in map_of(&story.table).into_keys().filter(|_| garbage() % 8 == 0) {
        story.whole(Event::Delete { key });
    }
}

/// Inserts so many new keys, each where it finds a place.
pub fn try_inserts(story: &mut Story, tries: u64, mut garbage: impl FnMut() -> u64) {
    for _ in 0..tries {
        let event = insert_event(garbage(), garbage(), garbage());
        match story.list(event).0 {
            SUCCESS => drop(story.whole(event)),
            number => assert_eq!(number, 6),
        }
    }
}

/// The interim buckets of a growing or shrinking table, read from its state word alone.
pub fn interim_buckets(table: &[u64]) -> Range<usize> {
    let (phase, k) = (table[4] / 256, table[4] % 256);
    let size = match phase {
        1 => 1 << (k - 2),
        2 => 1 << (k + 1),
        _ => panic!("there is no interim level in phase {phase}"),
    };
    size - 1..2 * size - 1
}

/// How many interim buckets there are: M.
pub fn interim_size(table: &[u64]) -> u64 {
    interim_buckets(table).len() as u64
}

/// Clears the token bits, and in form 2 the tags, in some interim buckets, counted from 0 in the level.
pub fn clear_interim(table: &mut [u64], numbers: Range<usize>) {
    let first = interim_buckets(table).start;
    let own_bits_of_slots = if table[0] == 2 { 0xff_ffff_ff0f } else { 15 };
    for number in numbers {
        table[9 + 13 * (first + number)] &= !own_bits_of_slots;
    }
}

/// A taken interim slot: the number of its bucket, counted from 0 in the level, the word index of its token, the slot.
#[derive(Clone, Copy, Debug, PartialEq, Eq)]
pub struct InterimItem {
    pub bucket: u64,
    pub token_word: usize,
    pub slot: usize,
}

/// All interim items, by bucket, then slot.
pub fn interim_items(table: &[u64]) -> Vec<InterimItem> {
    let buckets = interim_buckets(table).enumerate();
    let slots = buckets.flat_map(|(number, bucket)| {
        [0, 1, 2, 3].map(|slot| InterimItem { bucket: number as u64, token_word: 9 + 13 * bucket, slot })
    });
    slots.filter(|item| table[item.token_word] >> item.slot & 1 == 1).collect()
}

/// The interim items that have no place: insert into the table without interim items refuses them.
pub fn stuck_items(table: &[u64]) -> Vec<InterimItem> {
    let without_interim = without_interim_items(table);
    let stuck = |item: &InterimItem| without_interim.list(insert_of(table, *item)).0 == 6;
    interim_items(table).into_iter().filter(stuck).collect()
}

fn without_interim_items(table: &[u64]) -> Story {
    let mut story = Story { table: table.to_vec() };
    clear_interim(&mut story.table, 0..interim_buckets(table).len());
    story
}

fn insert_of(table: &[u64], item: InterimItem) -> Event {
    let [key, function, place] = [1, 2, 3].map(|offset| table[item.token_word + 3 * item.slot + offset]);
    insert_event(key, function, place)
}

/// What a step has to answer, and how many items it passed over.
pub struct Told {
    pub number: u64,
    pub bucket: u64,
    pub stores: Vec<(u64, u64)>,
    pub passed_over: usize,
}

/// What a step over the interim buckets from one on has to answer, told by inserts into the table without its interim
/// items: the first item from there on that insert takes, with insert's stores, then its token cleared.
pub fn step_told_by_inserts(table: &[u64], from: u64) -> Told {
    let without_interim = without_interim_items(table);
    let mut passed_over = 0;
    for item in interim_items(table).into_iter().filter(|item| item.bucket >= from) {
        let (number, mut stores) = without_interim.list(insert_of(table, item));
        if number == SUCCESS {
            let bucket = (item.token_word - 9) / 13;
            stores.push((item.token_word as u64, by_hand::token_without(table, bucket, item.slot)));
            return Told { number, bucket: item.bucket, stores, passed_over };
        }
        assert_eq!(number, 6);
        passed_over += 1;
    }
    Told { number: if passed_over > 0 { 6 } else { 11 }, bucket: 0, stores: vec![], passed_over }
}
