//! The seventeen functions of the static library `collector`, as `include/ragansils.h` declares them.
//!
//! They are unsafe for what a compiler cannot see: a pointer must be aligned and valid for as many words as the length beside it says, and
//! no two buffers of a call may overlap, but for the two tables of `asked` and `part`. Before a call of `part` its part must be a good one
//! already, such as an empty one. [`calls`](crate::calls) has the same over slices.
#![allow(missing_docs)] // include/ragansils.h says what each answers and leaves; `calls` says it for Rust

/// Words of a table where they stand, `struct ragansils_part` of the header.
#[repr(C)]
#[derive(Clone, Copy, Debug)]
pub struct TablePart {
    pub words: *const u64,
    pub length: usize,
}

extern "C" {
    pub fn ragansils_create(
        table: *mut u64,
        words: usize,
        form: u64,
        c: u64,
        k: u64,
        mul1: u64,
        mul2: u64,
    ) -> u64;
    pub fn ragansils_query(table: *const u64, words: usize, key: u64, answer: *mut [u64; 5]) -> u64;
    pub fn ragansils_chain(
        table: *const u64,
        words: usize,
        address: u64,
        depth: u64,
        records: *mut u64,
        record_words: usize,
        buckets: *mut u64,
    ) -> u64;
    pub fn ragansils_insert(
        table: *const u64,
        words: usize,
        key: u64,
        function: u64,
        place: u64,
        list: *mut u64,
        list_words: usize,
        stores: *mut u64,
    ) -> u64;
    pub fn ragansils_update(
        table: *const u64,
        words: usize,
        key: u64,
        function: u64,
        place: u64,
        list: *mut u64,
        list_words: usize,
        stores: *mut u64,
    ) -> u64;
    pub fn ragansils_delete(
        table: *const u64,
        words: usize,
        key: u64,
        list: *mut u64,
        list_words: usize,
        stores: *mut u64,
    ) -> u64;
    pub fn ragansils_begin(
        table: *const u64,
        words: usize,
        list: *mut u64,
        list_words: usize,
        stores: *mut u64,
    ) -> u64;
    pub fn ragansils_shrink(
        table: *const u64,
        words: usize,
        list: *mut u64,
        list_words: usize,
        stores: *mut u64,
    ) -> u64;
    pub fn ragansils_back(
        table: *const u64,
        words: usize,
        list: *mut u64,
        list_words: usize,
        stores: *mut u64,
    ) -> u64;
    pub fn ragansils_step(
        table: *const u64,
        words: usize,
        list: *mut u64,
        list_words: usize,
        stores: *mut u64,
    ) -> u64;
    pub fn ragansils_step_from(
        table: *const u64,
        words: usize,
        from: u64,
        list: *mut u64,
        list_words: usize,
        answer: *mut [u64; 2],
    ) -> u64;
    pub fn ragansils_end(
        table: *const u64,
        words: usize,
        list: *mut u64,
        list_words: usize,
        stores: *mut u64,
    ) -> u64;
    pub fn ragansils_recover(
        table: *const u64,
        words: usize,
        list: *mut u64,
        list_words: usize,
        stores: *mut u64,
    ) -> u64;
    pub fn ragansils_make(table: *mut u64, words: usize, list: *const u64, list_words: usize, n: u64) -> u64;
    pub fn ragansils_convert(
        table: *const u64,
        words: usize,
        second: *mut u64,
        second_words: usize,
        key: *mut u64,
    ) -> u64;
    pub fn ragansils_asked(
        newer: *const u64,
        newer_words: usize,
        older: *const u64,
        older_words: usize,
        key: u64,
        answer: *mut [u64; 2],
    ) -> u64;
    pub fn ragansils_part(
        newer: *const u64,
        newer_words: usize,
        older: *const u64,
        older_words: usize,
        key: u64,
        part: *mut TablePart,
    );
}
