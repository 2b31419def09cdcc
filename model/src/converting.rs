//! Request h) of document 02: what a table holds, in a second table of the other form.

use crate::calls::create;
use crate::event::Event;
use crate::layout::word;
use crate::recovery::is_sound;
use crate::refusal::{Refusal, SUCCESS};
use crate::table::Table;

/// "Given a sound table at rest and a second lent table, create the other form there with the same c, k and multipliers,
/// and insert every item". Answers a number, and with 6 the key of the item that found no place, otherwise 0. The source
/// is only read. What the second table held before plays no part.
pub fn convert(source: &[u64], second: &mut [u64]) -> (u64, u64) {
    let source = match check(source, second.len()) {
        Ok(source) => source,
        Err(refusal) => return (refusal.number(), 0),
    };
    create_other_form(&source, second);
    match insert_items(&source, second) {
        Ok(()) => (SUCCESS, 0),
        Err((number, key)) => {
            // "leave the second table freshly created, the one refusal that changes a buffer".
            create_other_form(&source, second);
            (number, key)
        }
    }
}

/// What refuses a conversion before anything is written: 12, 7 and 13, "in that order after 1 of the source". "A set flag
/// is 12 here, not 3."
fn check(source: &[u64], second_words: usize) -> Result<Table<'_>, Refusal> {
    let table = Table::read(source)?;
    if !is_sound(&table) {
        return Err(Refusal::NotRecoverable);
    }
    table.state.refuse_resizing()?;
    if second_words != source.len() {
        return Err(Refusal::BadCreation);
    }
    Ok(table)
}

fn create_other_form(source: &Table, second: &mut [u64]) {
    let [mul1, mul2] = [word::MULTIPLIER_1, word::MULTIPLIER_2].map(|index| source.word(index));
    let created = create(second, source.other_form(), source.capacity(), source.state.k, mul1, mul2);
    // The source's own header is good, and the length was checked.
    debug_assert_eq!(created, SUCCESS);
}

/// Inserts every item "in probe-level order, bucket and slot ascending". A refusal comes with the key of its item.
fn insert_items(source: &Table, second: &mut [u64]) -> Result<(), (u64, u64)> {
    // At rest these are top and bottom.
    for item in source.taken_slots(&source.levels_in_use()) {
        let [key, function, place] = source.record(item);
        let number = Event::Insert { key, function, place }.perform_whole(second);
        if number != SUCCESS {
            return Err((number, key));
        }
    }
    Ok(())
}
