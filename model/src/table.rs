//! Reading a table whose length and header are good. Nothing else is asked of
//! it: its tokens, keys and flag may be anything.

use std::iter;

use crate::form::Form;
use crate::hashing::Hashing;
use crate::layout::{table_words, token_word, word, Level, LevelName, Slot};
use crate::refusal::Refusal;
use crate::state::State;
use crate::token::TokenWord;

/// Where a key stood.
#[derive(Clone, Copy, Debug, PartialEq, Eq)]
pub struct Found {
    pub level: LevelName,
    pub slot: Slot,
}

/// What a search for a key met.
pub struct Search {
    pub found: Option<Found>,
    /// The number of buckets looked at.
    pub probes: u64,
}

#[derive(Clone, Copy)]
pub struct Table<'a> {
    words: &'a [u64],
    form: Form,
    pub state: State,
}

impl<'a> Table<'a> {
    /// Reads the header; refuses what refusal 1 names.
    pub fn read(words: &'a [u64]) -> Result<Table<'a>, Refusal> {
        let c = *words.get(word::CAPACITY).ok_or(Refusal::BadTable)?;
        if table_words(c) != Some(words.len()) {
            return Err(Refusal::BadTable);
        }
        let odd = |multiplier: u64| multiplier % 2 == 1;
        if !odd(words[word::MULTIPLIER_1]) || !odd(words[word::MULTIPLIER_2]) {
            return Err(Refusal::BadTable);
        }
        let form = Form::from_word(words[word::FORM]).ok_or(Refusal::BadTable)?;
        let state = State::from_word(words[word::STATE], c).ok_or(Refusal::BadTable)?;
        Ok(Table { words, form, state })
    }

    pub fn word(&self, index: usize) -> u64 {
        self.words[index]
    }

    /// 1 or 2.
    pub fn form(&self) -> u64 {
        self.form.word()
    }

    /// 2 where the form is 1, and 1 where it is 2.
    pub fn other_form(&self) -> u64 {
        self.form.other().word()
    }

    pub fn capacity(&self) -> u64 {
        self.words[word::CAPACITY]
    }

    pub fn top(&self) -> Level {
        Level::with_exponent(self.state.k)
    }

    pub fn bottom(&self) -> Level {
        Level::with_exponent(self.state.k - 1)
    }

    /// The interim level, there only while resizing.
    pub fn interim(&self) -> Option<Level> {
        self.state.interim_exponent().map(Level::with_exponent)
    }

    /// The levels in use, in the order top, bottom, interim. This is no order by size: in a shrink the interim level is
    /// the largest.
    pub fn levels_in_use(&self) -> Vec<Level> {
        self.each_level_in_use().map(|(_name, level)| level).collect()
    }

    /// The same by name, without a list of its own: a search is made for every sample of a ledger.
    fn each_level_in_use(&self) -> impl Iterator<Item = (LevelName, Level)> {
        let top_and_bottom = [(LevelName::Top, self.top()), (LevelName::Bottom, self.bottom())];
        let interim = self.interim().map(|level| (LevelName::Interim, level));
        top_and_bottom.into_iter().chain(interim)
    }

    /// All levels the words have room for, in use or not.
    pub fn all_levels(&self) -> Vec<Level> {
        (0..=self.capacity()).map(Level::with_exponent).collect()
    }

    /// The token word as it stands.
    pub fn raw_token(&self, bucket: usize) -> u64 {
        self.words[token_word(bucket)]
    }

    /// The token word as calls read it.
    pub(crate) fn token_as_read(&self, bucket: usize) -> TokenWord {
        TokenWord::read(self.form, self.raw_token(bucket))
    }

    /// The bits that tell which slots are taken: below 16 in either form.
    pub fn token(&self, bucket: usize) -> u64 {
        self.token_as_read(bucket).taken_bits()
    }

    pub fn is_taken(&self, slot: Slot) -> bool {
        self.token_as_read(slot.bucket).is_taken(slot)
    }

    /// The tag that a key has in this table. 0 for every key in form 1.
    pub fn tag_of(&self, key: u64) -> u64 {
        self.hashing().tag(key)
    }

    /// The eight bits that stand in the place of the slot's tag, also where the slot is free. 0 in form 1, where calls
    /// read no more than the token bits.
    pub fn tag_in(&self, slot: Slot) -> u64 {
        self.token_as_read(slot.bucket).tag(slot)
    }

    /// What the token word should be by the bucket's taken slots and their keys. Whether its level is in use is not
    /// asked here.
    pub fn meant_token(&self, bucket: usize) -> u64 {
        let taken = Slot::all_of(bucket).filter(|&slot| self.is_taken(slot));
        taken.fold(TokenWord::EMPTY, |token, slot| token.showing(slot, self.tag_of(self.key(slot)))).word()
    }

    pub fn taken_count(&self, bucket: usize) -> u32 {
        self.token(bucket).count_ones()
    }

    pub fn lowest_free_slot(&self, bucket: usize) -> Option<Slot> {
        Slot::all_of(bucket).find(|&slot| !self.is_taken(slot))
    }

    pub fn key(&self, slot: Slot) -> u64 {
        self.words[slot.key_word()]
    }

    /// Key, function and place.
    pub fn record(&self, slot: Slot) -> [u64; 3] {
        [slot.key_word(), slot.function_word(), slot.place_word()].map(|index| self.words[index])
    }

    /// The same three words where they stand, and no copy. They live as long as the words that were lent.
    pub fn part(&self, slot: Slot) -> &'a [u64] {
        &self.words[slot.key_word()..=slot.place_word()]
    }

    /// The buckets of a level where a key may stand: first place, then second if different.
    pub fn places(&self, key: u64, level: Level) -> Vec<usize> {
        self.each_place(key, level).collect()
    }

    fn each_place(&self, key: u64, level: Level) -> impl Iterator<Item = usize> {
        // A hash is below 2^32, so that it fits the index type.
        let bucket_of = |hash: u64| level.buckets().start + hash as usize % level.size;
        let [first, second] = self.hashing().hashes(key).map(bucket_of);
        iter::once(first).chain((second != first).then_some(second))
    }

    fn hashing(&self) -> Hashing {
        let multipliers = [word::MULTIPLIER_1, word::MULTIPLIER_2].map(|index| self.words[index]);
        Hashing { form: self.form, multipliers }
    }

    /// The taken slots of some levels, by level as given, then bucket and slot ascending.
    pub fn taken_slots(&self, levels: &[Level]) -> Vec<Slot> {
        let buckets = levels.iter().flat_map(|level| level.buckets());
        buckets.flat_map(Slot::all_of).filter(|&slot| self.is_taken(slot)).collect()
    }

    /// Looks for a key in the probe order, in the taken slots whose tag fits. Every call that asks for a key rests on
    /// this one search. So a wrong tag hides a key from them all. In form 1 every tag fits, as both sides are 0.
    pub fn search(&self, key: u64) -> Search {
        let tag = self.tag_of(key);
        let fits = |slot: Slot| self.is_taken(slot) && self.tag_in(slot) == tag;
        let mut probes = 0;
        for (name, level) in self.each_level_in_use() {
            for bucket in self.each_place(key, level) {
                probes += 1;
                if let Some(slot) = Slot::all_of(bucket).find(|&slot| fits(slot) && self.key(slot) == key) {
                    return Search { found: Some(Found { level: name, slot }), probes };
                }
            }
        }
        Search { found: None, probes }
    }
}
