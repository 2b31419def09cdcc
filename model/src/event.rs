//! The changing calls and recovery, as values.

use crate::calls;
use crate::layout::LEAST_LIST_WORDS;
use crate::refusal::SUCCESS;

/// The bucket that a step from a start tells is answered by the call alone, not by its event.
#[derive(Clone, Copy, Debug, PartialEq, Eq)]
pub enum Event {
    Insert { key: u64, function: u64, place: u64 },
    Update { key: u64, function: u64, place: u64 },
    Delete { key: u64 },
    Begin,
    Shrink,
    Back,
    Step,
    StepFrom { from: u64 },
    End,
    Recover,
}

impl Event {
    /// Lists the event's stores and answers the number and how many they are;
    /// the table is left as it is.
    pub fn list_stores(self, table: &[u64], list: &mut [u64]) -> (u64, u64) {
        match self {
            Event::Insert { key, function, place } => calls::insert(table, key, function, place, list),
            Event::Update { key, function, place } => calls::update(table, key, function, place, list),
            Event::Delete { key } => calls::delete(table, key, list),
            Event::Begin => calls::begin(table, list),
            Event::Shrink => calls::shrink(table, list),
            Event::Back => calls::back(table, list),
            Event::Step => calls::step(table, list),
            Event::StepFrom { from } => {
                let (number, [stores, _bucket]) = calls::step_from(table, from, list);
                (number, stores)
            }
            Event::End => calls::end(table, list),
            Event::Recover => calls::recover(table, list),
        }
    }

    /// Lists the event's stores and makes so many of them at most. Answers the number, then the stores listed and made.
    pub(crate) fn perform(self, most_made: u64, table: &mut [u64]) -> (u64, [u64; 2]) {
        let mut list = [0; LEAST_LIST_WORDS];
        let (number, stores) = self.list_stores(table, &mut list);
        let kept = stores.min(most_made);
        // The call's own stores always fit its own table.
        let made = calls::make(table, &list, kept);
        debug_assert_eq!(made, SUCCESS);
        (number, [stores, kept])
    }

    /// Makes all stores of the event; answers the number.
    pub(crate) fn perform_whole(self, table: &mut [u64]) -> u64 {
        let (number, _stores) = self.perform(u64::MAX, table);
        number
    }
}
