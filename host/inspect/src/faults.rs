//! What is unsound in a table with a good header, in plain words.

use ragansils::Key;
use ragansils_model::{
    keys_in_several_slots, misplaced_items, untidy_buckets, update_target, word, Slot, Table,
};

use crate::{levels, tags};

/// So many of a kind are told one by one.
const TOLD: usize = 8;

pub fn lines(table: &Table) -> Vec<String> {
    let mut lines = vec![];
    lines.extend(flag_line(table));
    token_lines(&mut lines, table);
    told(&mut lines, &misplaced_items(table), |&slot| {
        format!("{} stands in {}, which is none of its places", key_in(table, slot), slot_words(table, slot))
    });
    told(&mut lines, &keys_in_several_slots(table), |slots| copies_line(table, slots));
    lines
}

/// The key in a slot, as it is told.
pub fn key_in(table: &Table, slot: Slot) -> Key {
    Key::from(table.key(slot))
}

pub fn slot_words(table: &Table, slot: Slot) -> String {
    format!("slot {} of {} bucket {}", slot.number, levels::name_of(table, slot), slot.bucket)
}

fn told<T>(lines: &mut Vec<String>, faults: &[T], line: impl Fn(&T) -> String) {
    lines.extend(faults.iter().take(TOLD).map(line));
    if faults.len() > TOLD {
        lines.push(format!("and {} more of this kind", faults.len() - TOLD));
    }
}

fn flag_line(table: &Table) -> Option<String> {
    let target = table.word(word::UPDATE_TARGET);
    match table.word(word::FLAG) {
        0 => None,
        1 => Some(match update_target(table) {
            Some(slot) => {
                format!("the update flag is 1: an update of {} was cut", key_in(table, slot))
            }
            None => {
                format!("the update flag is 1, and the update target {target} is no taken slot's key word")
            }
        }),
        flag => Some(format!("the update flag is {flag}, which is neither 0 nor 1")),
    }
}

fn is_in_use(table: &Table, bucket: usize) -> bool {
    table.levels_in_use().iter().any(|level| level.buckets().contains(&bucket))
}

/// Of form 2 a token word in a level in use can be wrong in three ways, each of which is told where it is.
fn token_lines(lines: &mut Vec<String>, table: &Table) {
    let by_tags = |bucket: &usize| tags::are_kept(table) && is_in_use(table, *bucket);
    let (tagged, others): (Vec<usize>, Vec<usize>) = untidy_buckets(table).into_iter().partition(by_tags);
    told(lines, &others, |&bucket| token_line(table, bucket));
    let slots = || tagged.iter().flat_map(|&bucket| Slot::all_of(bucket));
    let wrong: Vec<Slot> = slots().filter(|&slot| tags::is_wrong(table, slot)).collect();
    told(lines, &wrong, |&slot| wrong_tag_line(table, slot));
    let left_over: Vec<Slot> = slots().filter(|&slot| tags::is_left_over(table, slot)).collect();
    told(lines, &left_over, |&slot| {
        let tag = tags::hexadecimal(table.tag_in(slot));
        format!("{} is free and has tag {tag}; a free slot has tag 0x00", slot_words(table, slot))
    });
    let with_stray_bits = |bucket: &usize| {
        let words = tags::stray_words(&tags::stray_bits(table, *bucket));
        words.map(|words| {
            format!("of the token word of bucket {bucket}, {}, {words}", table.raw_token(*bucket))
        })
    };
    let stray: Vec<String> = tagged.iter().filter_map(with_stray_bits).collect();
    told(lines, &stray, String::clone);
}

fn wrong_tag_line(table: &Table, slot: Slot) -> String {
    let key = key_in(table, slot);
    let (tag, own) = (tags::hexadecimal(table.tag_in(slot)), tags::hexadecimal(table.tag_of(key.word())));
    format!(
        "{key} has tag {tag} in {}, and its own tag is {own}: no call finds it there",
        slot_words(table, slot)
    )
}

fn token_line(table: &Table, bucket: usize) -> String {
    let token = table.raw_token(bucket);
    if is_in_use(table, bucket) {
        format!("the token word of bucket {bucket} is {token}, which is above 15")
    } else {
        format!("the token word of bucket {bucket} is {token}, and its level is not in use")
    }
}

fn copies_line(table: &Table, slots: &[Slot]) -> String {
    let places: Vec<String> = slots.iter().map(|&slot| slot_words(table, slot)).collect();
    let records = slots.iter().map(|&slot| table.record(slot));
    let alike = records.clone().zip(records.skip(1)).all(|(one, next)| one == next);
    let key = slots.first().map_or(Key::from(0), |&slot| key_in(table, slot));
    let alike = if alike { "equal records" } else { "records that differ" };
    format!("{key} stands in {} slots with {alike}: {}", slots.len(), places.join(", "))
}
