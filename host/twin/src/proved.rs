//! The proved library's side.

use ragansils::{raw, Lookup};
use ragansils_compare::history::Setting;
use ragansils_compare::library::list_event;
use ragansils_model::{Event, LEAST_LIST_WORDS, SUCCESS};

use crate::Side;

/// With the list that is lent to its calls.
#[derive(Default)]
pub struct Proved {
    list: [u64; LEAST_LIST_WORDS],
    stores: u64,
}

impl Proved {
    /// Lists an event's stores and answers its number.
    #[inline(always)]
    pub fn list_stores(&mut self, table: &[u64], event: Event) -> u64 {
        let (words, length) = (table.as_ptr(), table.len());
        let (list, list_length, stores) = (self.list.as_mut_ptr(), self.list.len(), &mut self.stores);
        // SAFETY: each pointer is valid for the length beside it, and no two buffers overlap.
        unsafe { list_event(event, words, length, list, list_length, stores) }
    }

    /// Lists the stores of a step from an interim bucket on; answers its number and the bucket told.
    #[inline(always)]
    pub fn list_step_from(&mut self, table: &[u64], from: u64) -> (u64, u64) {
        let (words, length) = (table.as_ptr(), table.len());
        let (list, list_length, mut answer) = (self.list.as_mut_ptr(), self.list.len(), [u64::MAX; 2]);
        // SAFETY: each pointer is valid for the length beside it, the answer has two words, and no two buffers overlap.
        let number = unsafe { raw::ragansils_step_from(words, length, from, list, list_length, &mut answer) };
        let [stores, bucket] = answer;
        self.stores = stores;
        (number, bucket)
    }

    /// The number of stores that the last change listed.
    pub fn stores(&self) -> u64 {
        self.stores
    }

    /// The chain of an address: the number, and the buckets looked at.
    #[inline(always)]
    pub fn chain(&self, table: &[u64], address: u64, depth: u64, records: &mut [u64]) -> (u64, u64) {
        let (words, length) = (table.as_ptr(), table.len());
        let (lent, lent_length, mut buckets) = (records.as_mut_ptr(), records.len(), 0);
        // SAFETY: each pointer is valid for the length beside it, and no two buffers overlap.
        let number =
            unsafe { raw::ragansils_chain(words, length, address, depth, lent, lent_length, &mut buckets) };
        (number, buckets)
    }

    /// Makes the first `n` of the stores listed last.
    #[inline(always)]
    pub fn make(&self, table: &mut [u64], n: u64) -> u64 {
        let (list, list_length) = (self.list.as_ptr(), self.list.len());
        // SAFETY: each pointer is valid for the length beside it, and the buffers do not overlap.
        unsafe { raw::ragansils_make(table.as_mut_ptr(), table.len(), list, list_length, n) }
    }
}

impl Side for Proved {
    fn create(&mut self, table: &mut [u64], setting: Setting) -> u64 {
        let Setting { form, c, k, mul1, mul2 } = setting;
        // SAFETY: the pointer is valid for the length beside it.
        unsafe { raw::ragansils_create(table.as_mut_ptr(), table.len(), form, c, k, mul1, mul2) }
    }

    #[inline(always)]
    fn query(&self, table: &[u64], key: u64, answer: &mut [u64; Lookup::WORDS]) -> u64 {
        // SAFETY: the table's pointer is valid for the length beside it, and the answer is a buffer of its own.
        unsafe { raw::ragansils_query(table.as_ptr(), table.len(), key, answer) }
    }

    #[inline(always)]
    fn change(&mut self, table: &mut [u64], event: Event) -> u64 {
        match self.list_stores(table, event) {
            SUCCESS => self.make(table, self.stores),
            number => number,
        }
    }

    #[inline(always)]
    fn step_from(&mut self, table: &mut [u64], from: u64) -> (u64, u64) {
        match self.list_step_from(table, from) {
            (SUCCESS, bucket) => (self.make(table, self.stores), bucket),
            refused => refused,
        }
    }
}
