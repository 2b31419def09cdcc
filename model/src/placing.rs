//! Where a new item goes: a free slot, one move of another item, or nothing.

use crate::layout::{Level, Slot};
use crate::table::Table;

#[derive(Clone, Copy, Debug, PartialEq, Eq)]
pub enum Placing {
    Free(Slot),
    /// The item at `from` moves to `to`; the new item takes `from`.
    Move {
        from: Slot,
        to: Slot,
    },
}

/// Placing uses top and bottom only, also while resizing.
pub fn find_placing(table: &Table, key: u64) -> Option<Placing> {
    free_slot(table, key, table.top())
        .or_else(|| free_slot(table, key, table.bottom()))
        .map(Placing::Free)
        .or_else(|| find_move(table, key))
}

/// The lowest free slot of the place with fewer taken slots; the first place on a tie.
fn free_slot(table: &Table, key: u64, level: Level) -> Option<Slot> {
    let places = table.places(key, level);
    // `min_by_key` gives the first of several equal ones.
    let emptier = places.into_iter().min_by_key(|&bucket| table.taken_count(bucket))?;
    table.lowest_free_slot(emptier)
}

fn find_move(table: &Table, key: u64) -> Option<Placing> {
    let (top, bottom) = (table.top(), table.bottom());
    let top_items = items_in_places(table, key, top);
    let bottom_items = items_in_places(table, key, bottom);

    first_movable(table, &top_items, |item| other_place(table, item, top))
        .or_else(|| first_movable(table, &bottom_items, |item| other_place(table, item, bottom)))
        .or_else(|| first_movable(table, &bottom_items, |item| table.places(table.key(item), top)))
}

/// All slots of a key's places. They are all taken where a move is looked for.
fn items_in_places(table: &Table, key: u64, level: Level) -> Vec<Slot> {
    table.places(key, level).into_iter().flat_map(Slot::all_of).collect()
}

/// The item's first place that is not the bucket it stands in, if there is one.
/// On an unsound table the item may stand in neither of its places.
fn other_place(table: &Table, item: Slot, level: Level) -> Vec<usize> {
    let places = table.places(table.key(item), level);
    places.into_iter().filter(|&bucket| bucket != item.bucket).take(1).collect()
}

/// The first item with a free slot in one of its targets, tried in order.
fn first_movable(table: &Table, items: &[Slot], targets: impl Fn(Slot) -> Vec<usize>) -> Option<Placing> {
    items.iter().find_map(|&from| {
        let to = targets(from).into_iter().find_map(|bucket| table.lowest_free_slot(bucket))?;
        Some(Placing::Move { from, to })
    })
}
