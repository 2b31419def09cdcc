//! A bucket drawn as text, with its slots.

use ragansils_model::{Slot, Table, SLOTS_PER_BUCKET};

use crate::faults::key_in;
use crate::tags;

/// How a slot is drawn.
const FREE: char = '.';
const TAKEN: char = '#';
pub const MARKED: char = '*';

/// The slots of a bucket as one picture; the one whose key stands in this word is marked.
pub fn picture(table: &Table, bucket: usize, marked: Option<usize>) -> String {
    let drawn = |slot: Slot| match table.is_taken(slot) {
        _ if marked == Some(slot.key_word()) => MARKED,
        true => TAKEN,
        false => FREE,
    };
    let slots: String = Slot::all_of(bucket).map(drawn).collect();
    format!("[{slots}]")
}

/// The token word as it stands, and as calls read it: of form 1 the lowest four bits, of form 2 all of it.
pub fn token_words(table: &Table, bucket: usize) -> String {
    let (token, read) = (table.raw_token(bucket), table.token(bucket));
    let at = Slot { bucket, number: 0 }.token_word();
    if tags::are_kept(table) {
        let stray = tags::stray_words(&tags::stray_bits(table, bucket));
        let stray = stray.map_or(String::new(), |words| format!(", where {words}"));
        // In hexadecimal digits the tags can be read off; without any the word is short.
        let digits = if token == read { String::new() } else { format!(" ({token:#x})") };
        return format!("its token, word {at}, is {token}{digits}{stray}");
    }
    match token == read {
        true => format!("its token, word {at}, is {token}"),
        false => format!("its token, word {at}, is {token}, and read as {read}"),
    }
}

/// What stands in each slot, with the same mark.
pub fn slot_lines(table: &Table, bucket: usize, marked: Option<usize>) -> [String; SLOTS_PER_BUCKET] {
    [0, 1, 2, 3].map(|number| {
        let slot = Slot { bucket, number };
        let mark = if marked == Some(slot.key_word()) { MARKED } else { ' ' };
        let tag = tag_in(table, slot);
        format!("{mark} slot {number}, word {}{tag}: {}", slot.key_word(), content(table, slot))
    })
}

/// The tag of a taken slot; of a free one only where there is one, which is wrong.
fn tag_in(table: &Table, slot: Slot) -> String {
    let is_told = tags::are_kept(table) && (table.is_taken(slot) || tags::is_left_over(table, slot));
    match is_told {
        true => format!(", tag {}", tags::hexadecimal(table.tag_in(slot))),
        false => String::new(),
    }
}

fn content(table: &Table, slot: Slot) -> String {
    let [_, function, place] = table.record(slot);
    let key = key_in(table, slot);
    let own_tag = match tags::is_wrong(table, slot) {
        true => format!("; the key's own tag is {}", tags::hexadecimal(table.tag_of(key.word()))),
        false => String::new(),
    };
    match table.is_taken(slot) {
        true => format!("{key}, function {function}, place {place}{own_tag}"),
        false => "free".to_string(),
    }
}
