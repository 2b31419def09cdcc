//! A change that is cut after so many of its stores.
use std::panic::{catch_unwind, resume_unwind, AssertUnwindSafe};

use ragansils::{Refusal, Table};

pub type Hook<'a> = &'a mut dyn FnMut(&u64);
pub type Change = fn(&mut Table<&mut [u64], Hook>) -> Result<u64, Refusal>;

/// Opens words with a hook that panics after so many stores; answers whether it did.
pub fn cut(words: &mut [u64], kept: u64, change: impl FnOnce(&mut Table<&mut [u64], Hook>)) -> bool {
    let mut made = 0;
    let mut hook = |_: &u64| {
        made += 1;
        if made == kept {
            // No message, unlike panic!: this one is meant.
            resume_unwind(Box::new("cut"));
        }
    };
    let run = || change(&mut Table::open(words, &mut hook as Hook).unwrap());
    catch_unwind(AssertUnwindSafe(run)).is_err()
}
