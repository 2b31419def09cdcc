//! Small sound tables for tests.

use ragansils_model::{create, make, table_words, Event, LEAST_LIST_WORDS, SUCCESS};

use crate::history::{Setting, MARKED_1, MARKED_2};

/// With these records: key, function and place.
pub fn table_of(records: &[[u64; 3]]) -> Vec<u64> {
    let inserts = records.iter().map(|&[key, function, place]| Event::Insert { key, function, place });
    table_after(Setting { form: 1, c: 2, k: 1, mul1: MARKED_1, mul2: MARKED_2 }, inserts)
}

/// The table after events that it does not refuse.
pub fn table_after(setting: Setting, events: impl IntoIterator<Item = Event>) -> Vec<u64> {
    let Setting { form, c, k, mul1, mul2 } = setting;
    let mut table = vec![0; table_words(c).expect("the capacity is good")];
    create(&mut table, form, c, k, mul1, mul2);
    for event in events {
        change(&mut table, event);
    }
    table
}

/// Makes an event that the table does not refuse.
pub fn change(table: &mut [u64], event: Event) {
    let mut list = [0; LEAST_LIST_WORDS];
    let (number, stores) = event.list_stores(table, &mut list);
    assert_eq!(number, SUCCESS, "{event:?}");
    make(table, &list, stores);
}
