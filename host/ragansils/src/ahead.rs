//! Reading ahead in a growth or a shrink: the processor is told which buckets the next items may move to, so that these are on their way out of memory
//! when the steps come that ask for them. It is a mere hint: no answer and no store depends on it.

use std::arch::x86_64::{_mm_prefetch, _MM_HINT_T0};

use crate::phase::State;
use crate::Form;

// As document 01, the paper that fixes the table, lays its words out.
const MULTIPLIERS: [usize; 2] = [2, 3];
const HEADER_WORDS: usize = 9;
const BUCKET_WORDS: usize = 13;
const SLOT_WORDS: usize = 3;
const SLOTS: usize = 4;
const LARGEST_K: u64 = 20;

/// The words of a cache line.
const LINE_WORDS: usize = 8;

/// So many buckets are between an item that moves and those that are asked for: some ten items.
const DISTANCE: u64 = 6;

/// A step has moved an item out of an interim bucket, the one before it out of the bucket `last`. Where the steps went on, asks for the top
/// buckets of items further on. Any words and any buckets may be handed in.
#[inline]
pub(crate) fn read_ahead(words: &[u64], last: u64, bucket: u64) {
    if last < bucket {
        for passed in last.max(bucket.saturating_sub(DISTANCE))..bucket {
            ask_for_items(words, passed.saturating_add(DISTANCE));
        }
    }
}

/// Asks for the top buckets of the items of an interim bucket, counted from 0 in the level.
fn ask_for_items(words: &[u64], bucket: u64) {
    let exponents = State::of(words).and_then(|state| Some((state.k, state.interim_exponent()?)));
    let (top, interim) = match exponents {
        Some((k, e)) if k.max(e) <= LARGEST_K && bucket < 1 << e => (1 << k, 1 << e),
        _ => return,
    };
    let form = match Form::of(words) {
        Some(form) => form,
        None => return,
    };
    let items = match words.get(first_word(interim, bucket)..first_word(interim, bucket + 1)) {
        Some(items) => items,
        None => return,
    };
    for slot in (0..SLOTS).filter(|slot| items[0] >> slot & 1 == 1) {
        let key = items[1 + SLOT_WORDS * slot];
        for first in MULTIPLIERS.map(|at| first_word_of_key(form, words[at], key, top)) {
            ask_for(words, first);
        }
    }
}

/// The first word of the bucket to which a multiplier leads a key, in the level of so many buckets.
#[inline]
fn first_word_of_key(form: Form, multiplier: u64, key: u64, size: u64) -> usize {
    let hash = form.mixed(key).wrapping_mul(multiplier) >> 32;
    first_word(size, hash & (size - 1))
}

/// The first word of a bucket in the level of so many buckets.
fn first_word(size: u64, bucket: u64) -> usize {
    HEADER_WORDS + BUCKET_WORDS * (size - 1 + bucket) as usize
}

/// Both lines in which the first slots of a bucket lie.
fn ask_for(words: &[u64], first: usize) {
    for word in [first, first + LINE_WORDS].into_iter().filter_map(|at| words.get(at)) {
        // SAFETY: asking for a line changes nothing, whatever the pointer is; this one is valid.
        unsafe { _mm_prefetch((word as *const u64).cast(), _MM_HINT_T0) };
    }
}

#[cfg(test)]
mod tests {
    use super::*;
    use crate::{calls, Creation, Key, Level, Record};

    #[test]
    fn any_words_and_buckets_may_be_handed_in() {
        let lengths = [0, 1, 4, 5, 9, 22, 100, 412];
        let states = [0, 1, 2, 257, 258, 259, 260, 276, 277, 512, 513, 514, 531, 532, 767, u64::MAX];
        let buckets = [0, 1, 2, 7, 1 << 18, u64::MAX - 1, u64::MAX];
        for (length, state) in lengths.into_iter().flat_map(|length| states.map(|state| (length, state))) {
            for form in [0, 1, 2, 3] {
                let mut words = vec![u64::MAX; length];
                words.iter_mut().take(1).for_each(|word| *word = form);
                words.iter_mut().skip(4).take(1).for_each(|word| *word = state);
                for (last, bucket) in
                    buckets.into_iter().flat_map(|last| buckets.map(|bucket| (last, bucket)))
                {
                    read_ahead(&words, last, bucket);
                }
            }
        }
    }

    /// A wrong bucket would only cost time, so that nothing else shows it.
    #[test]
    fn a_key_stands_in_one_of_the_buckets_that_are_asked_for() {
        for form in Form::ALL {
            let creation = Creation { form, ..Creation::new(7, 7) };
            let mut words = vec![0; creation.words().unwrap()];
            calls::create(&mut words, &creation).unwrap();
            for address in 0..100 {
                let key = Key::new(0x5555_0000_1000 + 16 * address, 0).unwrap();
                let list = calls::insert(&words, key, Record::default()).unwrap();
                calls::make(&mut words, list.words(), list.count()).unwrap();
                let slot = calls::query(&words, key).unwrap().found.unwrap().slot;
                assert_eq!(slot.level, Level::Top);
                let firsts = MULTIPLIERS.map(|at| first_word_of_key(form, words[at], key.word(), 1 << 7));
                let holds = |first: usize| (first..first + BUCKET_WORDS).contains(&slot.word);
                assert!(firsts.into_iter().any(holds), "{form}, key {key:?}");
            }
        }
    }
}
