//! Which of the three kinds recovery accepts a table is, if any. The first of them is what a conversion asks for.

use std::collections::BTreeMap;

use crate::layout::{word, Level, Slot};
use crate::table::Table;

#[derive(Clone, Copy, Debug, PartialEq, Eq)]
pub enum Kind {
    Sound,
    /// One key stands twice with equal records; this is the later slot.
    Doubled(Slot),
    /// An update of a full bucket's slot was cut.
    Flagged(Slot),
}

pub fn judge(table: &Table) -> Option<Kind> {
    // "the words are tested before copies are looked for": of two copies with different tags one has a wrong tag.
    if !untidy_buckets(table).is_empty() || !misplaced_items(table).is_empty() {
        return None;
    }
    let doubled = keys_in_several_slots(table);
    match (table.word(word::FLAG), doubled.as_slice()) {
        (0, []) => Some(Kind::Sound),
        (0, [slots]) => equal_pair(table, slots).map(Kind::Doubled),
        (1, []) => update_target(table).map(Kind::Flagged),
        _ => None,
    }
}

/// "Sound: good header; flag 0; every token word at most 15, and 0 in levels not in use; each taken slot in a place of
/// its key; no key in two taken slots." Request g) asks for the whole token word.
pub fn is_sound(table: &Table) -> bool {
    judge(table) == Some(Kind::Sound)
}

/// The buckets whose whole token word is not what their taken slots and keys say, or not 0 in a level not in use. In
/// form 1 the first is the same as "above 15".
pub fn untidy_buckets(table: &Table) -> Vec<usize> {
    let in_use = table.levels_in_use();
    let untidy = |level: Level| {
        let is_in_use = in_use.contains(&level);
        level.buckets().filter(move |&bucket| {
            let meant = if is_in_use { table.meant_token(bucket) } else { 0 };
            table.raw_token(bucket) != meant
        })
    };
    table.all_levels().into_iter().flat_map(untidy).collect()
}

/// The taken slots that are in no place of their key.
pub fn misplaced_items(table: &Table) -> Vec<Slot> {
    let misplaced = |level: Level| {
        let items = table.taken_slots(&[level]).into_iter();
        items.filter(move |&slot| !table.places(table.key(slot), level).contains(&slot.bucket))
    };
    table.levels_in_use().into_iter().flat_map(misplaced).collect()
}

/// The slots of each key that stands in more than one, in the order of clearing.
pub fn keys_in_several_slots(table: &Table) -> Vec<Vec<Slot>> {
    let mut slots_by_key: BTreeMap<u64, Vec<Slot>> = BTreeMap::new();
    for slot in table.taken_slots(&table.levels_in_use()) {
        slots_by_key.entry(table.key(slot)).or_default().push(slot);
    }
    slots_by_key.into_values().filter(|slots| slots.len() > 1).collect()
}

/// The later slot of exactly two with equal records.
fn equal_pair(table: &Table, slots: &[Slot]) -> Option<Slot> {
    match *slots {
        [earlier, later] if table.record(earlier) == table.record(later) => Some(later),
        _ => None,
    }
}

/// The taken slot in a level in use whose key word the update target names.
pub fn update_target(table: &Table) -> Option<Slot> {
    let target = table.word(word::UPDATE_TARGET);
    let items = table.taken_slots(&table.levels_in_use());
    items.into_iter().find(|slot| slot.key_word() as u64 == target)
}
