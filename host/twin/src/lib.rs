//! The proved library and its twin, behind one trait, so that one program can check that they do the same and another can
//! measure what each takes for it.
//!
//! - `proved`: the static library `collector`; a change is listed, and its list made;
//! - `twin`: the plain table in C of `c/`; a change is written at once.

mod proved;
mod twin;

pub use proved::Proved;
pub use twin::{ListingTwin, Twin};

use ragansils::{Lookup, Refusal};
use ragansils_compare::history::Setting;
use ragansils_model::Event;

/// The compiler of the twin, with its options.
pub const TWIN_COMPILER: &str = env!("RAGANSILS_TWIN_CC");

/// A side of the comparison. Every answer is a number of document 01, the paper that fixes the table; 0 is success.
pub trait Side {
    fn create(&mut self, table: &mut [u64], setting: Setting) -> u64;

    /// The words of the answer are those of `include/ragansils.h`.
    fn query(&self, table: &[u64], key: u64, answer: &mut [u64; Lookup::WORDS]) -> u64;

    /// What a query's answer means.
    #[inline(always)]
    fn look_up(&self, table: &[u64], key: u64) -> Result<Lookup, Refusal> {
        // Zeros, since an earlier library that is measured beside may write fewer words.
        let mut answer = [0; Lookup::WORDS];
        let number = self.query(table, key, &mut answer);
        Lookup::of_words(number, answer)
    }

    /// Brings the table to what it is after the whole event.
    fn change(&mut self, table: &mut [u64], event: Event) -> u64;

    /// The same of the step over the interim buckets from one of them on, counted from 0 in the level: the number, and the bucket in
    /// which the item stood, counted the same.
    fn step_from(&mut self, table: &mut [u64], from: u64) -> (u64, u64);
}
