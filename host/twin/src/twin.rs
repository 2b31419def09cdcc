//! The twin's side.

use ragansils::raw::ragansils_make;
use ragansils::Lookup;
use ragansils_compare::history::Setting;
use ragansils_model::{Event, LEAST_LIST_WORDS, SUCCESS};

use crate::Side;

/// As `c/twin.h` has them.
mod raw {
    use ragansils::Lookup;
    use ragansils_model::LEAST_LIST_WORDS;

    extern "C" {
        pub fn twin_create(
            table: *mut u64,
            words: usize,
            form: u64,
            c: u64,
            k: u64,
            mul1: u64,
            mul2: u64,
        ) -> u64;
        pub fn twin_query(
            table: *const u64,
            words: usize,
            key: u64,
            answer: *mut [u64; Lookup::WORDS],
        ) -> u64;
        pub fn twin_insert(table: *mut u64, words: usize, key: u64, function: u64, place: u64) -> u64;
        pub fn twin_update(table: *mut u64, words: usize, key: u64, function: u64, place: u64) -> u64;
        pub fn twin_delete(table: *mut u64, words: usize, key: u64) -> u64;
        pub fn twin_begin(table: *mut u64, words: usize) -> u64;
        pub fn twin_shrink(table: *mut u64, words: usize) -> u64;
        pub fn twin_back(table: *mut u64, words: usize) -> u64;
        pub fn twin_step(table: *mut u64, words: usize) -> u64;
        pub fn twin_step_from(table: *mut u64, words: usize, from: u64, bucket: *mut u64) -> u64;
        pub fn twin_end(table: *mut u64, words: usize) -> u64;
        pub fn twin_recover(table: *mut u64, words: usize) -> u64;
        pub fn twin_list_insert(
            table: *mut u64,
            words: usize,
            key: u64,
            function: u64,
            place: u64,
            list: *mut [u64; LEAST_LIST_WORDS],
            stores: *mut u64,
        ) -> u64;
    }
}

pub struct Twin;

impl Side for Twin {
    fn create(&mut self, table: &mut [u64], setting: Setting) -> u64 {
        let Setting { form, c, k, mul1, mul2 } = setting;
        // SAFETY: the pointer is valid for the length beside it.
        unsafe { raw::twin_create(table.as_mut_ptr(), table.len(), form, c, k, mul1, mul2) }
    }

    #[inline(always)]
    fn query(&self, table: &[u64], key: u64, answer: &mut [u64; Lookup::WORDS]) -> u64 {
        // SAFETY: the table's pointer is valid for the length beside it, and the answer is a buffer of its own.
        unsafe { raw::twin_query(table.as_ptr(), table.len(), key, answer) }
    }

    #[inline(always)]
    fn change(&mut self, table: &mut [u64], event: Event) -> u64 {
        let (words, length) = (table.as_mut_ptr(), table.len());
        // SAFETY: the pointer is valid for the length beside it.
        unsafe {
            match event {
                Event::Insert { key, function, place } => {
                    raw::twin_insert(words, length, key, function, place)
                }
                Event::Update { key, function, place } => {
                    raw::twin_update(words, length, key, function, place)
                }
                Event::Delete { key } => raw::twin_delete(words, length, key),
                Event::Begin => raw::twin_begin(words, length),
                Event::Shrink => raw::twin_shrink(words, length),
                Event::Back => raw::twin_back(words, length),
                Event::Step => raw::twin_step(words, length),
                Event::StepFrom { from } => raw::twin_step_from(words, length, from, &mut 0),
                Event::End => raw::twin_end(words, length),
                Event::Recover => raw::twin_recover(words, length),
            }
        }
    }

    #[inline(always)]
    fn step_from(&mut self, table: &mut [u64], from: u64) -> (u64, u64) {
        // No bucket, so that one which is not told is seen.
        let mut bucket = u64::MAX;
        // SAFETY: the table's pointer is valid for the length beside it, and the bucket is a word of its own.
        let number = unsafe { raw::twin_step_from(table.as_mut_ptr(), table.len(), from, &mut bucket) };
        (number, bucket)
    }
}

/// The twin, but that its inserts are listed, and the list made as the library's is.
#[derive(Default)]
pub struct ListingTwin {
    list: [u64; LEAST_LIST_WORDS],
}

impl Side for ListingTwin {
    fn create(&mut self, table: &mut [u64], setting: Setting) -> u64 {
        Twin.create(table, setting)
    }

    fn query(&self, table: &[u64], key: u64, answer: &mut [u64; Lookup::WORDS]) -> u64 {
        Twin.query(table, key, answer)
    }

    #[inline(always)]
    fn change(&mut self, table: &mut [u64], event: Event) -> u64 {
        let (key, function, place) = match event {
            Event::Insert { key, function, place } => (key, function, place),
            other => return Twin.change(table, other),
        };
        let (words, length, mut stores) = (table.as_mut_ptr(), table.len(), 0);
        let list_length = self.list.len();
        // SAFETY: each pointer is valid for the length beside it, and no two buffers overlap.
        unsafe {
            match raw::twin_list_insert(words, length, key, function, place, &mut self.list, &mut stores) {
                SUCCESS => ragansils_make(words, length, self.list.as_ptr(), list_length, stores),
                number => number,
            }
        }
    }

    fn step_from(&mut self, table: &mut [u64], from: u64) -> (u64, u64) {
        Twin.step_from(table, from)
    }
}
