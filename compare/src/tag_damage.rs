//! Damage to the token words of form 2. Each kind takes any words at all; where it does not fit, or the table is of form 1, it does
//! nothing.

use ragansils_model::{Level, Slot, Table, SLOTS_PER_BUCKET};

use crate::damage::copy_item;
use crate::history::any_item;
use crate::layout::{token_word, without_slot, TAGGED};
use crate::random::Random;

/// The bits of no slot: those between the token bits and the tags, and those above the tags.
pub const BITS_4_TO_7: u64 = 0xf0;
pub const BITS_40_AND_UP: u64 = !0 << 40;

/// The tag of an item is another than its key's.
pub fn wrong_tag(random: &mut Random, words: &mut [u64]) {
    if let Some(slot) = any_item(random, words) {
        put_wrong_tag(random, words, slot);
    }
}

/// Every item of a bucket has another tag than its key's, so that the next step meets one.
pub fn wrong_tags_of_bucket(random: &mut Random, words: &mut [u64]) {
    if let Some(item) = any_item(random, words) {
        Slot::all_of(item.bucket).for_each(|slot| put_wrong_tag(random, words, slot));
    }
}

/// All tags of all items are wrong, so that no key is found, and every item that moves has one.
pub fn wrong_tags_everywhere(random: &mut Random, words: &mut [u64]) {
    for slot in buckets_in_use(words).into_iter().flat_map(Slot::all_of) {
        put_wrong_tag(random, words, slot);
    }
}

/// Tags stand on free slots, of one bucket or of all.
pub fn tags_of_free_slots(random: &mut Random, words: &mut [u64]) {
    for slot in one_bucket_or_all(random, words).into_iter().flat_map(Slot::all_of) {
        if words[slot.token_word()] & 1 << slot.number == 0 {
            let tag = 1 + random.below(255);
            put_tag(words, slot, tag);
        }
    }
}

pub fn bits_4_to_7(random: &mut Random, words: &mut [u64]) {
    stray_bits(random, words, BITS_4_TO_7);
}

pub fn bits_40_and_up(random: &mut Random, words: &mut [u64]) {
    stray_bits(random, words, BITS_40_AND_UP);
}

/// Some of these bits, in one bucket or in all.
fn stray_bits(random: &mut Random, words: &mut [u64], bits: u64) {
    for bucket in one_bucket_or_all(random, words) {
        let (lowest, highest) = (1 << bits.trailing_zeros(), 1 << (63 - bits.leading_zeros()));
        let some = random.word() & bits;
        words[token_word(bucket)] |= random.pick(&[lowest, highest, bits, some]);
    }
}

/// A key stands twice, and one copy of it has another tag.
pub fn two_tags_of_one_key(random: &mut Random, words: &mut [u64]) {
    let item = any_item(random, words);
    let copy = item.and_then(|slot| copy_item(random, words, slot));
    if let (Some(item), Some(copy)) = (item, copy) {
        let slot = random.pick(&[item, copy]);
        put_wrong_tag(random, words, slot);
    }
}

/// A token word is another altogether.
pub fn whole_word(random: &mut Random, words: &mut [u64]) {
    if let Some(bucket) = any_bucket(random, words) {
        let other = random.word();
        words[token_word(bucket)] = random.pick(&[other, other, u64::MAX, u64::MAX - 15]);
    }
}

/// The token word that would be right, but in a level that is not in use.
pub fn right_word_in_unused_level(random: &mut Random, words: &mut [u64]) {
    let (bucket, token) = match Table::read(words) {
        Ok(table) if table.form() == TAGGED => {
            let in_use = table.levels_in_use();
            let unused = table.all_levels().into_iter().filter(|level| !in_use.contains(level));
            let buckets: Vec<usize> = unused.flat_map(|level| level.buckets()).collect();
            if buckets.is_empty() {
                return;
            }
            let slot = Slot { bucket: random.pick(&buckets), number: random.index(SLOTS_PER_BUCKET) };
            (slot.bucket, 1 << slot.number | table.tag_of(table.key(slot)) << (8 + 8 * slot.number))
        }
        _ => return,
    };
    words[token_word(bucket)] = token;
}

/// Gives every taken slot of the levels in use its key's tag, so that other damage than that of tags is seen.
pub fn mend_tags(words: &mut [u64]) {
    for slot in buckets_in_use(words).into_iter().flat_map(Slot::all_of) {
        let table = Table::read(words).ok().filter(|table| table.is_taken(slot));
        if let Some(tag) = table.map(|table| table.tag_of(table.key(slot))) {
            put_tag(words, slot, tag);
        }
    }
}

/// Takes a slot in: its token bit, and in form 2 its key's tag.
pub fn show(words: &mut [u64], slot: Slot) {
    let tag = Table::read(words).map_or(0, |table| table.tag_of(table.key(slot)));
    words[slot.token_word()] |= 1 << slot.number;
    if words[0] == TAGGED {
        put_tag(words, slot, tag);
    }
}

/// Some other tag than the key's; one bit of it is other, or all may be.
fn put_wrong_tag(random: &mut Random, words: &mut [u64], slot: Slot) {
    let right = match Table::read(words) {
        Ok(table) if table.form() == TAGGED && table.is_taken(slot) => table.tag_of(table.key(slot)),
        _ => return,
    };
    let (one_bit, some_bits) = (1 << random.below(8), 1 + random.below(255));
    let zero_or_other = if right == 0 { some_bits } else { 0 };
    let wrong = random.pick(&[right ^ one_bit, right ^ some_bits, zero_or_other]);
    put_tag(words, slot, wrong);
}

fn put_tag(words: &mut [u64], slot: Slot, tag: u64) {
    let token = &mut words[slot.token_word()];
    let taken = *token & 1 << slot.number;
    *token = without_slot(TAGGED, *token, slot.number) | taken | tag << (8 + 8 * slot.number);
}

/// The buckets of the levels in use of a table of form 2.
fn buckets_in_use(words: &[u64]) -> Vec<usize> {
    match Table::read(words) {
        Ok(table) if table.form() == TAGGED => {
            table.levels_in_use().into_iter().flat_map(Level::buckets).collect()
        }
        _ => vec![],
    }
}

fn one_bucket_or_all(random: &mut Random, words: &[u64]) -> Vec<usize> {
    match random.one_in(2) {
        true => buckets_in_use(words),
        false => any_bucket(random, words).into_iter().collect(),
    }
}

fn any_bucket(random: &mut Random, words: &[u64]) -> Option<usize> {
    let buckets = buckets_in_use(words);
    (!buckets.is_empty()).then(|| random.pick(&buckets))
}

#[cfg(test)]
mod tests {
    use super::*;
    use crate::history::{Setting, MARKED_1};
    use crate::layout::check_tokens;
    use crate::tags::{kinds_in, Kind};
    use crate::test_table::table_after;
    use ragansils_model::Event;

    fn table(form: u64) -> Vec<u64> {
        let keys = (0..20u64).map(|key| key << 24 | key << 40 | key);
        let inserts = keys.map(|key| Event::Insert { key, function: 1, place: 2 });
        table_after(Setting { form, c: 3, k: 2, mul1: MARKED_1, mul2: 11400714819323198485 }, inserts)
    }

    type Damage = fn(&mut Random, &mut [u64]);

    const EACH: [(Damage, Kind); 8] = [
        (wrong_tag, Kind::WrongTag),
        (wrong_tags_of_bucket, Kind::WrongTag),
        (wrong_tags_everywhere, Kind::WrongTag),
        (tags_of_free_slots, Kind::TagOfFreeSlot),
        (bits_4_to_7, Kind::Bits4To7),
        (bits_40_and_up, Kind::Bits40AndUp),
        (two_tags_of_one_key, Kind::TwoTagsOfOneKey),
        (whole_word, Kind::WholeWord),
    ];

    /// Chance may choose a full bucket, or bits that are all 0, but not always.
    #[test]
    fn each_damage_is_of_its_kind() {
        let mut random = Random::new(1);
        for (damage, kind) in EACH {
            let mut is_met = || {
                let mut words = table(TAGGED);
                damage(&mut random, &mut words);
                kinds_in(&words).contains(&kind)
            };
            let met = (0..40).filter(|_| is_met()).count();
            assert!(met >= 20, "{kind}: {met} of 40");
        }
    }

    #[test]
    fn form_1_has_no_tags_to_damage() {
        let mut random = Random::new(1);
        for (damage, kind) in EACH.into_iter().filter(|(_, kind)| *kind != Kind::TwoTagsOfOneKey) {
            let mut words = table(1);
            damage(&mut random, &mut words);
            assert_eq!(words, table(1), "{kind}");
        }
    }

    #[test]
    fn mended_tags_are_right() {
        let mut words = table(TAGGED);
        wrong_tags_everywhere(&mut Random::new(1), &mut words);
        assert!(check_tokens(&words).is_err());
        mend_tags(&mut words);
        assert_eq!(words, table(TAGGED));
    }

    #[test]
    fn a_right_word_in_an_unused_level_is_damage() {
        let mut words = table(TAGGED);
        right_word_in_unused_level(&mut Random::new(1), &mut words);
        assert!(check_tokens(&words).is_err() && kinds_in(&words).is_empty());
    }
}
