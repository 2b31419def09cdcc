//! Damage to tables: every way we know for a table to be other than sound.
//! Each kind takes any words at all; where it does not fit it does nothing. The tags of what is put in are right; `tag_damage` has what
//! damages them.

use ragansils_model::{
    make, word, Event, Level, Phase, Slot, State, Table, LEAST_LIST_WORDS, SLOTS_PER_BUCKET,
};

use crate::chain::{key_of, Chain};
use crate::history::any_item;
use crate::layout::{token_word, TAGGED};
use crate::random::Random;
use crate::tag_damage;

type Kind = fn(&mut Random, &mut [u64]);

const KINDS: [Kind; 24] = [
    any_word,
    header_word,
    token_above_15,
    token_in_unused_level,
    misplaced_item,
    equal_double,
    equal_double,
    unequal_double,
    treble,
    two_doubles,
    flagged_update,
    flagged_update,
    odd_flag,
    flagged_double,
    bad_state,
    other_good_state,
    empty_interim,
    crowd,
    crowd,
    room_for_one_item,
    room_for_one_item,
    half_made_change,
    few_depths_of_one_address,
    few_depths_of_one_address,
];

/// What only a table of form 2 has.
const KINDS_OF_TAGS: [Kind; 10] = [
    tag_damage::wrong_tag,
    tag_damage::wrong_tags_of_bucket,
    tag_damage::wrong_tags_everywhere,
    tag_damage::tags_of_free_slots,
    tag_damage::bits_4_to_7,
    tag_damage::bits_40_and_up,
    tag_damage::two_tags_of_one_key,
    tag_damage::two_tags_of_one_key,
    tag_damage::whole_word,
    tag_damage::right_word_in_unused_level,
];

/// One kind of damage in so many, to a table of form 2, is one of tags.
const TAGS_ONE_IN: u64 = 3;

pub fn damage(random: &mut Random, words: &mut Vec<u64>) {
    let times = random.pick(&[1, 1, 1, 1, 1, 1, 2, 2, 2, 3]);
    for _ in 0..times {
        let has_tags = words.first() == Some(&TAGGED);
        let kinds = if has_tags && random.one_in(TAGS_ONE_IN) { &KINDS_OF_TAGS[..] } else { &KINDS };
        random.pick(kinds)(random, words);
    }
    if random.one_in(20) {
        bad_length(random, words);
    }
}

fn any_word(random: &mut Random, words: &mut [u64]) {
    if !words.is_empty() {
        let index = random.index(words.len());
        words[index] = random.any_word();
    }
}

fn header_word(random: &mut Random, words: &mut [u64]) {
    let index = random.pick(&[
        word::FORM,
        word::CAPACITY,
        word::MULTIPLIER_1,
        word::MULTIPLIER_2,
        word::UPDATE_TARGET,
    ]);
    if let Some(header_word) = words.get_mut(index) {
        *header_word = match random.below(3) {
            0 => header_word.wrapping_add(1),
            1 => header_word.wrapping_sub(1),
            _ => random.any_word(),
        };
    }
}

fn token_above_15(random: &mut Random, words: &mut [u64]) {
    let levels = levels(words, |_, _| true);
    if let Some(bucket) = any_bucket(random, &levels) {
        let (high_bit, high_bits) = (1 << (4 + random.below(60)), random.any_word() & !15);
        let high_part = random.pick(&[16, high_bit, high_bits]);
        let low_part = random.pick(&[0, 15, 15]) & words[token_word(bucket)];
        words[token_word(bucket)] = high_part | low_part;
    }
}

fn token_in_unused_level(random: &mut Random, words: &mut [u64]) {
    let unused = levels(words, |table, level| !table.levels_in_use().contains(&level));
    if let Some(bucket) = any_bucket(random, &unused) {
        words[token_word(bucket)] = 1 + random.below(16);
    }
}

fn misplaced_item(random: &mut Random, words: &mut [u64]) {
    let in_use = levels_in_use(words);
    if let Some(bucket) = any_bucket(random, &in_use) {
        let number = random.index(SLOTS_PER_BUCKET);
        let record = [random.word(), random.any_word(), random.any_word()];
        put(words, Slot { bucket, number }, record);
    }
}

fn equal_double(random: &mut Random, words: &mut [u64]) {
    if let Some(slot) = any_item(random, words) {
        copy_item(random, words, slot);
    }
}

fn unequal_double(random: &mut Random, words: &mut [u64]) {
    let item = any_item(random, words);
    if let Some(copy) = item.and_then(|slot| copy_item(random, words, slot)) {
        let index = random.pick(&[copy.function_word(), copy.place_word()]);
        words[index] = words[index].wrapping_add(1 << random.below(64));
    }
}

fn treble(random: &mut Random, words: &mut [u64]) {
    if let Some(slot) = any_item(random, words) {
        copy_item(random, words, slot);
        copy_item(random, words, slot);
    }
}

fn two_doubles(random: &mut Random, words: &mut [u64]) {
    equal_double(random, words);
    equal_double(random, words);
}

/// Flag 1 and an update target of every kind: an item's key word, or close to one, or wild.
fn flagged_update(random: &mut Random, words: &mut [u64]) {
    let all_buckets = levels(words, |_, _| true);
    let bucket = match any_bucket(random, &all_buckets) {
        Some(bucket) => bucket,
        None => return,
    };
    let any_slot = Slot { bucket, number: random.index(SLOTS_PER_BUCKET) };
    let item = any_item(random, words).unwrap_or(any_slot);
    let length = words.len() as u64;
    words[word::FLAG] = 1;
    words[word::UPDATE_FUNCTION] = random.any_word();
    words[word::UPDATE_PLACE] = random.any_word();
    let key_word = item.key_word() as u64;
    words[word::UPDATE_TARGET] = match random.below(10) {
        0..=2 => key_word,
        // A neighbour of the item, often a free slot.
        3 => Slot { number: random.index(SLOTS_PER_BUCKET), ..item }.key_word() as u64,
        4 => any_slot.key_word() as u64,
        5 => item.token_word() as u64,
        6 => key_word + 1 + random.below(2),
        7 => key_word + random.pick(&[1 << 32, 1 << 63, 1 << 16]),
        8 => length - random.below(20),
        _ => random.any_word(),
    };
}

/// A table that is sound but for an update that was cut.
pub fn flagged_item(random: &mut Random, words: &mut [u64]) {
    if let Some(item) = any_item(random, words) {
        words[word::FLAG] = 1;
        words[word::UPDATE_TARGET] = item.key_word() as u64;
        words[word::UPDATE_FUNCTION] = random.any_word();
        words[word::UPDATE_PLACE] = random.any_word();
    }
}

fn odd_flag(random: &mut Random, words: &mut [u64]) {
    if words.len() > word::FLAG {
        flagged_update(random, words);
        words[word::FLAG] = random.pick(&[2, 3, 256, 257, 1 << 32, (1 << 32) + 1, u64::MAX]);
    }
}

fn flagged_double(random: &mut Random, words: &mut [u64]) {
    flagged_update(random, words);
    equal_double(random, words);
}

fn bad_state(random: &mut Random, words: &mut [u64]) {
    let table = match Table::read(words) {
        Ok(table) => table,
        Err(_) => return,
    };
    let (k, c) = (table.state.k, table.capacity());
    words[word::STATE] = match random.below(9) {
        0 => 0,
        1 => c + 1,
        2 => 256 + random.below(2),
        3 => 256 + c + 1,
        4 => 512,
        5 => 512 + c + random.below(2),
        6 => k + 768,
        7 => table.state.word() + (1 << random.pick(&[10, 16, 32, 63])),
        _ => random.any_word(),
    };
}

/// A good state, but not the one the items were placed under.
fn other_good_state(random: &mut Random, words: &mut [u64]) {
    let table = match Table::read(words) {
        Ok(table) => table,
        Err(_) => return,
    };
    let c = table.capacity();
    let resizing = (c > 1).then(|| any_resizing(random, c)).filter(|_| !random.one_in(3));
    let state = resizing.unwrap_or_else(|| State::at_rest(1 + random.below(c)));
    words[word::STATE] = state.word();
}

/// A good state of a table that grows or shrinks; there is none with c = 1.
fn any_resizing(random: &mut Random, c: u64) -> State {
    let from_0 = random.below(c - 1);
    random.pick(&[
        State { k: 2 + from_0, phase: Phase::Growing },
        State { k: 1 + from_0, phase: Phase::Shrinking },
    ])
}

/// Growing or shrinking with an interim level that is empty, though its token words may not be 0.
fn empty_interim(random: &mut Random, words: &mut [u64]) {
    let table = match Table::read(words) {
        Ok(table) => table,
        Err(_) => return,
    };
    let c = table.capacity();
    if c < 2 {
        return;
    }
    let state = any_resizing(random, c);
    words[word::STATE] = state.word();
    let interim = state.interim_exponent().map(Level::with_exponent);
    for bucket in interim.into_iter().flat_map(|level| level.buckets()) {
        words[token_word(bucket)] = if random.one_in(3) { random.any_word() & !15 } else { 0 };
    }
}

fn bad_length(random: &mut Random, words: &mut Vec<u64>) {
    let length = words.len();
    let new_length = match random.below(6) {
        0 => length.saturating_sub(1),
        1 => length + 1,
        2 => length + 13,
        3 => random.index(10),
        4 => length / 2,
        _ => random.index(length + 1),
    };
    let filling = random.any_word();
    words.resize(new_length, filling);
}

/// Nearly all slots are taken, by keys from here and there, so that moves are looked for.
fn crowd(random: &mut Random, words: &mut [u64]) {
    if random.one_in(3) {
        other_good_state(random, words);
    }
    let in_use = levels_in_use(words);
    let key_bound = random.pick(&[16, 1 << 20, u64::MAX]);
    let room = random.pick(&[2, 6, 20]);
    for bucket in in_use.iter().flat_map(|level| level.buckets()) {
        for slot in Slot::all_of(bucket) {
            if random.one_in(3) {
                words[slot.key_word()] = random.below(key_bound);
            }
        }
        words[token_word(bucket)] = if random.one_in(room) { random.below(16) } else { 15 };
    }
    mend_tags_often(random, words);
}

/// All keys are of one address and of few depths, so that many a chain is whole, with keys that stand twice or out of place.
pub fn few_depths_of_one_address(random: &mut Random, words: &mut [u64]) {
    let first_key = any_item(random, words).map_or(random.word(), |slot| words[slot.key_word()]);
    let address = Chain::of_key(first_key).address;
    // Without depth 0 every chain is broken, and often only there.
    let (lowest, depths) = (random.below(2), 1 + random.below(8));
    for bucket in levels_in_use(words).iter().flat_map(|level| level.buckets()) {
        for slot in Slot::all_of(bucket) {
            words[slot.key_word()] = key_of(address, lowest + random.below(depths));
        }
    }
    mend_tags_often(random, words);
}

/// Without their tags the keys are there, and no call finds them; that is seen too.
fn mend_tags_often(random: &mut Random, words: &mut [u64]) {
    if !random.one_in(4) {
        tag_damage::mend_tags(words);
    }
}

/// Top and bottom are full but for the top places of one bottom item, so that
/// only a move up can make room, and to which of the two shows.
fn room_for_one_item(random: &mut Random, words: &mut [u64]) {
    let table = match Table::read(words) {
        Ok(table) => table,
        Err(_) => return,
    };
    let (top, bottom) = (table.top(), table.bottom());
    for bucket in [top, bottom].iter().flat_map(|level| level.buckets()) {
        for slot in Slot::all_of(bucket) {
            if words[slot.token_word()] & slot.token_bit() == 0 {
                put(words, slot, [random.word(), random.any_word(), random.any_word()]);
            }
        }
    }
    let bucket = bottom.buckets().start + random.index(bottom.size);
    let key = words[Slot { bucket, number: random.index(SLOTS_PER_BUCKET) }.key_word()];
    let places = Table::read(words).map_or(vec![], |table| table.places(key, top));
    for bucket in places {
        words[token_word(bucket)] = random.below(15);
    }
    mend_tags_often(random, words);
}

/// A change whose recovery was forgotten.
pub fn half_made_change(random: &mut Random, words: &mut [u64]) {
    let key = any_item(random, words).map_or(0, |slot| words[slot.key_word()]);
    let (function, place) = (random.any_word(), random.any_word());
    let update = Event::Update { key, function, place };
    let insert = Event::Insert { key: key.wrapping_add(random.below(9)), function, place };
    let event = random.pick(&[update, update, insert, Event::Step]);
    let mut list = [0; LEAST_LIST_WORDS];
    let (_, stores) = event.list_stores(words, &mut list);
    make(words, &list, random.below(stores + 1));
}

fn put(words: &mut [u64], slot: Slot, [key, function, place]: [u64; 3]) {
    words[slot.key_word()] = key;
    words[slot.function_word()] = function;
    words[slot.place_word()] = place;
    tag_damage::show(words, slot);
}

/// Copies an item to another slot where its key may stand, a free one by preference.
pub fn copy_item(random: &mut Random, words: &mut [u64], item: Slot) -> Option<Slot> {
    let table = Table::read(words).ok()?;
    let record = table.record(item);
    let level = random.pick(&table.levels_in_use());
    let bucket = random.pick(&table.places(record[0], level));
    let any_slot = Slot { bucket, number: random.index(SLOTS_PER_BUCKET) };
    let copy = table.lowest_free_slot(bucket).unwrap_or(any_slot);
    put(words, copy, record);
    Some(copy)
}

fn levels(words: &[u64], wanted: impl Fn(&Table, Level) -> bool) -> Vec<Level> {
    match Table::read(words) {
        Ok(table) => table.all_levels().into_iter().filter(|&level| wanted(&table, level)).collect(),
        Err(_) => vec![],
    }
}

fn levels_in_use(words: &[u64]) -> Vec<Level> {
    levels(words, |table, level| table.levels_in_use().contains(&level))
}

fn any_bucket(random: &mut Random, levels: &[Level]) -> Option<usize> {
    let buckets: Vec<usize> = levels.iter().flat_map(|level| level.buckets()).collect();
    (!buckets.is_empty()).then(|| random.pick(&buckets))
}
