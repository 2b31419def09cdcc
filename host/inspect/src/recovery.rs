//! What the proved recovery would do, in plain words.

use ragansils::{Store, StoreList};
use ragansils_model::Table;

use crate::faults::{key_in, slot_words};

/// The stores in words, then each as it is listed.
pub fn lines(table: &Table, list: &StoreList) -> Vec<String> {
    let stores: Vec<Store> = list.stores().collect();
    let meaning = match stores.as_slice() {
        [] => "would do nothing".to_string(),
        [cleared] => clearing(table, *cleared),
        [function, place, _] => rewriting(table, *function, *place),
        // No recovery lists another number of stores.
        more => format!("would make {} stores", more.len()),
    };
    let listed = stores.iter().map(|store| format!("word {} becomes {}", store.index, store.value));
    std::iter::once(meaning).chain(listed).collect()
}

/// One key stands twice, and the token of the later one is cleared.
fn clearing(table: &Table, store: Store) -> String {
    let items = table.taken_slots(&table.levels_in_use());
    let goes =
        items.iter().find(|slot| slot.token_word() == store.index && store.value & slot.token_bit() == 0);
    match goes {
        Some(&slot) => {
            let key = key_in(table, slot);
            format!("would clear the later of two equal copies of {key}: {}", slot_words(table, slot))
        }
        None => "would clear a slot".to_string(),
    }
}

/// An update was cut, and its record is written again from the log.
fn rewriting(table: &Table, function: Store, place: Store) -> String {
    let items = table.taken_slots(&table.levels_in_use());
    let (function_value, place_value) = (function.value, place.value);
    match items.iter().find(|slot| slot.function_word() == function.index) {
        Some(&slot) => format!(
            "would write function {function_value} and place {place_value} of {} again, in {}, and clear the update flag",
            key_in(table, slot),
            slot_words(table, slot)
        ),
        None => format!("would write function {function_value} and place {place_value} again"),
    }
}
