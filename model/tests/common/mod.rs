//! A table that events are made on, as the tests tell their stories.
#![allow(dead_code)] // each test file uses its own part

pub mod by_hand;
pub mod overlay;
pub mod resizing;
pub mod scripts;

use ragansils_model::*;

/// The multipliers of the marked examples.
pub const MARKED_1: u64 = 4294967297;
pub const MARKED_2: u64 = 12884901889;

pub const BOTH_FORMS: [u64; 2] = [1, 2];

/// A list word no call writes, to see what is left alone.
pub const UNTOUCHED: u64 = 0xdead_beef;

pub struct Story {
    pub table: Vec<u64>,
}

impl Story {
    /// The table of the marked examples: c = 2, k = 1.
    pub fn marked() -> Story {
        Story::marked_in(1)
    }

    pub fn marked_in(form: u64) -> Story {
        Story::in_form(form, 2, 1, MARKED_1, MARKED_2)
    }

    /// A table of form 1.
    pub fn with(c: u64, k: u64, mul1: u64, mul2: u64) -> Story {
        Story::in_form(1, c, k, mul1, mul2)
    }

    pub fn in_form(form: u64, c: u64, k: u64, mul1: u64, mul2: u64) -> Story {
        let mut table = vec![UNTOUCHED; table_words(c).unwrap()];
        assert_eq!(create(&mut table, form, c, k, mul1, mul2), SUCCESS);
        Story { table }
    }

    /// The number and the pairs listed; checks that nothing else was written.
    pub fn list(&self, event: Event) -> (u64, Vec<(u64, u64)>) {
        let mut list = [UNTOUCHED; 24];
        let (number, stores) = event.list_stores(&self.table, &mut list);
        (number, pairs_listed(&list, stores))
    }

    /// What a step from a bucket on answers: the number, the bucket told and the pairs listed. The event must list
    /// the same pairs.
    pub fn step_from(&self, from: u64) -> (u64, u64, Vec<(u64, u64)>) {
        let mut list = [UNTOUCHED; 24];
        let (number, [stores, bucket]) = step_from(&self.table, from, &mut list);
        let pairs = pairs_listed(&list, stores);
        assert_eq!(self.list(Event::StepFrom { from }), (number, pairs.clone()));
        (number, bucket, pairs)
    }

    /// "the bucket told with a refusal is 0".
    pub fn step_from_refused(&self, from: u64, number: u64) {
        assert_eq!(self.step_from(from), (number, 0, vec![]), "from {from}");
    }

    pub fn refused(&self, event: Event, number: u64) {
        assert_eq!(self.list(event), (number, vec![]), "{event:?}");
    }

    /// Lists an accepted event's stores and makes the first `kept`.
    pub fn cut(&mut self, event: Event, kept: usize) -> Vec<(u64, u64)> {
        let (number, pairs) = self.list(event);
        assert_eq!(number, SUCCESS, "{event:?}");
        let words: Vec<u64> = pairs.iter().flat_map(|&(index, word)| [index, word]).collect();
        assert_eq!(make(&mut self.table, &words, kept.min(pairs.len()) as u64), SUCCESS);
        pairs
    }

    pub fn whole(&mut self, event: Event) -> Vec<(u64, u64)> {
        self.cut(event, usize::MAX)
    }

    pub fn insert_keys(&mut self, keys: impl IntoIterator<Item = u64>) {
        for key in keys {
            self.whole(insert_event(key, key + 100, key + 200));
        }
    }

    pub fn query(&self, key: u64) -> (u64, [u64; 5]) {
        query(&self.table, key)
    }

    pub fn assert_sound(&self) {
        assert_eq!(self.list(Event::Recover), (SUCCESS, vec![]));
        assert!(by_hand::all_tokens_are_meant(&self.table));
    }

    /// The number, the count and the lent words at exit; each was `UNTOUCHED` before.
    pub fn chain(&self, address: u64, depth: u64, lent_words: usize) -> (u64, u64, Vec<u64>) {
        let mut records = vec![UNTOUCHED; lent_words];
        let (number, count) = chain(&self.table, address, depth, &mut records);
        (number, count, records)
    }
}

/// The first pairs of a list; checks that nothing behind them was written.
fn pairs_listed(list: &[u64], stores: u64) -> Vec<(u64, u64)> {
    let (written, rest) = list.split_at(2 * stores as usize);
    assert!(rest.iter().all(|&word| word == UNTOUCHED));
    written.chunks(2).map(|pair| (pair[0], pair[1])).collect()
}

pub fn insert_event(key: u64, function: u64, place: u64) -> Event {
    Event::Insert { key, function, place }
}

pub fn update_event(key: u64, function: u64, place: u64) -> Event {
    Event::Update { key, function, place }
}

/// The multipliers 1 and 2^32 + 1 make of it the first place `upper` and the second place `upper + lower` in form 1, and
/// in form 2 `upper` and `upper + (lower ^ upper)`.
pub fn key_with_halves(upper: u64, lower: u64) -> u64 {
    (upper << 32) + lower
}

/// Puts a taken item anywhere, fit or not.
pub fn put(story: &mut Story, bucket: usize, number: usize, record: [u64; 3]) {
    let slot = Slot { bucket, number };
    story.table[slot.key_word()] = record[0];
    story.table[slot.function_word()] = record[1];
    story.table[slot.place_word()] = record[2];
    story.table[slot.token_word()] |= slot.token_bit();
}

/// Words without a pattern, the same ones in each run.
pub fn garbage_words() -> impl FnMut() -> u64 {
    let mut word_of_garbage = 88172645463325252u64;
    move || {
        word_of_garbage ^= word_of_garbage << 13;
        word_of_garbage ^= word_of_garbage >> 7;
        word_of_garbage ^= word_of_garbage << 17;
        word_of_garbage
    }
}
