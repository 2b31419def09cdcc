//! Checks where a query says that its key stands against the words of the table, and counts the levels. Layout and hashes are those of
//! `layout`, so that the model is not asked.

use std::collections::BTreeMap;

use ragansils::Level;
use ragansils_model::SUCCESS;

use crate::layout::{
    bucket_and_offset, is_in_level, is_place, is_taken, tag_in, tag_of, token_word, FORM, PHASE_UNIT, SLOTS,
    SLOT_WORDS, STATE, TAGGED,
};

/// The level in which a query found its key; none with a refusal. Or says what is wrong with where it tells the key to stand.
pub fn check(table: &[u64], key: u64, number: u64, answer: &[u64]) -> Result<Option<Level>, String> {
    let (function, place, word, level) = match *answer {
        [function, place, _buckets, word, level] => (function, place, word, level),
        _ => return Err(format!("an answer of {} words", answer.len())),
    };
    if number != SUCCESS {
        let is_none = (word, level) == (0, 0);
        return if is_none { Ok(None) } else { Err(format!("word {word} and level {level} with a refusal")) };
    }
    let level = level_of(level).ok_or_else(|| format!("there is no level {level}"))?;
    let slot =
        Slot::of_key_word(table, word).ok_or_else(|| format!("word {word} is no taken slot's key word"))?;
    if slot.words != [key, function, place] {
        return Err(format!("at word {word} stand {:?}, and not the key and its record", slot.words));
    }
    let buckets = buckets_of(table[STATE], level).filter(|&buckets| is_in_level(slot.bucket, buckets));
    let buckets = buckets.ok_or_else(|| format!("word {word} is not in the {level} level"))?;
    slot.check_place(table, key, buckets)?;
    Ok(Some(level))
}

/// The level of the slot that begins with a word, where a lookup may find the key in it. Or says what is wrong with that slot.
pub fn level_of_key(table: &[u64], key: u64, word: u64) -> Result<Level, String> {
    let slot =
        Slot::of_key_word(table, word).ok_or_else(|| format!("word {word} is no taken slot's key word"))?;
    if slot.words[0] != key {
        return Err(format!("at word {word} stands {}, and not the key", slot.words[0]));
    }
    let buckets =
        |level| buckets_of(table[STATE], level).filter(|&buckets| is_in_level(slot.bucket, buckets));
    let level = Level::ALL.into_iter().find_map(|level| Some((level, buckets(level)?)));
    let (level, buckets) = level.ok_or_else(|| format!("word {word} is in no level in use"))?;
    slot.check_place(table, key, buckets)?;
    Ok(level)
}

/// The level of a number, as answers tell it.
pub fn level_of(number: u64) -> Option<Level> {
    Level::ALL.into_iter().find(|level| level.number() == number)
}

/// A taken slot.
struct Slot<'t> {
    bucket: usize,
    words: &'t [u64],
    /// What stands in the token word where form 2 has the tag.
    tag: u64,
}

impl<'t> Slot<'t> {
    /// By the index of the first of its three words.
    fn of_key_word(table: &'t [u64], word: u64) -> Option<Slot<'t>> {
        let word = usize::try_from(word).ok()?;
        let (bucket, offset) = bucket_and_offset(word)?;
        let slot = offset.checked_sub(1)? / SLOT_WORDS;
        let is_key_word = slot < SLOTS && offset == 1 + SLOT_WORDS * slot;
        let token = *table.get(token_word(bucket))?;
        let words = table.get(word..word + SLOT_WORDS).filter(|_| is_key_word && is_taken(token, slot))?;
        Some(Slot { bucket, words, tag: tag_in(token, slot) })
    }

    /// Says why the lookup of a key passes over this slot, in a level of so many buckets.
    fn check_place(&self, table: &[u64], key: u64, buckets: usize) -> Result<(), String> {
        if !is_place(table, key, self.bucket, buckets) {
            return Err(format!("bucket {} is no place of the key", self.bucket));
        }
        if table[FORM] == TAGGED && self.tag != tag_of(table, key) {
            return Err(format!(
                "the slot in bucket {} has tag {}, and not its key's",
                self.bucket, self.tag
            ));
        }
        Ok(())
    }
}

/// "The top has 2^k buckets, the bottom half that; while growing, an interim level has a quarter." In a shrink "the old top becomes the
/// interim level, the old bottom the top", so that it has twice as many as the top. None where the level is not in use.
fn buckets_of(state: u64, level: Level) -> Option<usize> {
    let (top, phase) = (1 << (state % PHASE_UNIT), state / PHASE_UNIT);
    match (level, phase) {
        (Level::Top, _) => Some(top),
        (Level::Bottom, _) => Some(top / 2),
        (Level::Interim, 1) => Some(top / 4),
        (Level::Interim, 2) => Some(2 * top),
        (Level::Interim, _) => None,
    }
}

/// In which levels queries found their keys.
#[derive(Default)]
pub struct LevelTally {
    pub found: BTreeMap<Level, u64>,
}

impl LevelTally {
    pub fn count(&mut self, level: Level) {
        *self.found.entry(level).or_default() += 1;
    }

    /// The levels in which fewer keys were found than this.
    pub fn rare(&self, least: u64) -> Vec<String> {
        let found = |level| self.found.get(&level).copied().unwrap_or(0);
        let rare = Level::ALL.into_iter().filter(|&level| found(level) < least);
        rare.map(|level| format!("{level}: {}", found(level))).collect()
    }
}

#[cfg(test)]
mod tests {
    use super::*;
    use crate::history::{Setting, MARKED_1};
    use crate::layout::FORMS;
    use crate::test_table::{change, table_after, table_of};
    use ragansils_model::Event;

    /// Keys 1, 3, 5 and 7 in bucket 2, which is of the top; 9 and 11 in bucket 0, the bottom.
    fn table() -> Vec<u64> {
        table_of(&[1, 3, 5, 7, 9, 11].map(|key| [key, 100 + key, 200 + key]))
    }

    fn told(table: &[u64], key: u64, word: u64, level: u64) -> Result<Option<Level>, String> {
        check(table, key, SUCCESS, &[100 + key, 200 + key, 1, word, level])
    }

    #[test]
    fn a_slot_is_told_by_its_word_and_level() {
        let mut table = table();
        assert_eq!(told(&table, 3, 39, 0), Ok(Some(Level::Top)));
        assert_eq!(told(&table, 11, 13, 1), Ok(Some(Level::Bottom)));
        change(&mut table, Event::Begin);
        assert_eq!(told(&table, 3, 39, 1), Ok(Some(Level::Bottom)));
        assert_eq!(told(&table, 11, 13, 2), Ok(Some(Level::Interim)));
        change(&mut table, Event::Back);
        assert_eq!(told(&table, 3, 39, 0), Ok(Some(Level::Top)));
        assert_eq!(told(&table, 11, 13, 1), Ok(Some(Level::Bottom)));
    }

    /// The interim level of a shrink is the largest: buckets 3 to 6, of which the last has words 87 to 99.
    #[test]
    fn a_slot_of_a_shrinking_table_is_told() {
        let setting = Setting { form: 1, c: 2, k: 2, mul1: MARKED_1, mul2: MARKED_1 };
        let insert = Event::Insert { key: 3, function: 103, place: 203 };
        let table = table_after(setting, [insert, Event::Shrink]);
        assert_eq!(told(&table, 3, 88, 2), Ok(Some(Level::Interim)));
        assert!(told(&table, 3, 88, 0).is_err() && told(&table, 3, 88, 1).is_err());
        let at_rest = table_after(setting, [insert]);
        assert_eq!(told(&at_rest, 3, 88, 0), Ok(Some(Level::Top)));
        assert!(told(&at_rest, 3, 88, 2).is_err());
    }

    #[test]
    fn a_wrong_word_is_found() {
        let table = table();
        // The token word, the function's word, another slot's, the header, and past the table's end.
        for word in [35, 40, 36, 6, 0, 48, 99, 100, 101, u64::MAX] {
            assert!(told(&table, 3, word, 0).is_err(), "word {word}");
        }
        // A free slot that has the same words.
        let mut free = table.clone();
        free[35] = 13;
        assert!(told(&free, 3, 39, 0).is_err() && told(&free, 5, 42, 0).is_ok());
    }

    /// Each key is where the other form would have it: 12968787970 hashes to 2 in form 1, where its upper half does not count, and to 1 in
    /// form 2. Both multipliers are alike, so that a key has one place in each level.
    #[test]
    fn a_wrong_place_is_found() {
        for form in FORMS {
            let setting = Setting { form, c: 2, k: 1, mul1: MARKED_1, mul2: MARKED_1 };
            let key = 12968787970;
            let table = table_after(setting, [Event::Insert { key, function: 5, place: 5 }]);
            let word = 10 + table[10..].iter().position(|&word| word == key).unwrap() as u64;
            let told = |table: &[u64]| check(table, key, SUCCESS, &[5, 5, 1, word, 0]);
            assert_eq!(told(&table), Ok(Some(Level::Top)), "form {form}");
            let mut of_other_form = table.clone();
            of_other_form[FORM] = 3 - form;
            assert!(told(&of_other_form).is_err(), "form {form}");
        }
    }

    #[test]
    fn a_wrong_tag_is_found() {
        let setting = Setting { form: 2, c: 2, k: 1, mul1: MARKED_1, mul2: MARKED_1 };
        let key = 5 << 24 | 1;
        let mut table = table_after(setting, [Event::Insert { key, function: 5, place: 5 }]);
        let told = |table: &[u64]| check(table, key, SUCCESS, &[5, 5, 1, 36, 0]);
        assert_eq!(told(&table), Ok(Some(Level::Top)));
        // A tag of another slot is of no matter.
        table[35] ^= 1 << 16;
        assert_eq!(told(&table), Ok(Some(Level::Top)));
        table[35] ^= 1 << 15;
        assert!(told(&table).is_err());
    }

    #[test]
    fn a_wrong_level_is_found() {
        let mut table = table();
        // The level's size, another level, and one that is not in use.
        for level in [1, 2, 3, u64::MAX] {
            assert!(told(&table, 3, 39, level).is_err(), "level {level}");
        }
        assert!(told(&table, 11, 13, 0).is_err() && told(&table, 11, 13, 2).is_err());
        change(&mut table, Event::Begin);
        assert!(told(&table, 11, 13, 1).is_err() && told(&table, 3, 39, 0).is_err());
    }

    #[test]
    fn a_wrong_record_is_found() {
        let table = table();
        assert!(check(&table, 3, SUCCESS, &[104, 203, 1, 39, 0]).is_err());
        assert!(check(&table, 3, SUCCESS, &[103, 204, 1, 39, 0]).is_err());
        assert!(check(&table, 4, SUCCESS, &[103, 203, 1, 39, 0]).is_err());
        assert!(check(&table, 3, SUCCESS, &[103, 203, 1]).is_err());
    }

    #[test]
    fn a_refusal_tells_no_slot() {
        let table = table();
        assert_eq!(check(&table, 2, 5, &[0, 0, 2, 0, 0]), Ok(None));
        assert!(check(&table, 2, 5, &[0, 0, 2, 39, 0]).is_err());
        assert!(check(&table, 2, 3, &[0, 0, 0, 0, 1]).is_err());
    }

    #[test]
    fn levels_that_were_seldom_met_are_told() {
        let mut tally = LevelTally::default();
        for level in [Level::Top, Level::Top, Level::Interim] {
            tally.count(level);
        }
        assert_eq!(tally.rare(1), ["bottom: 0"]);
        assert_eq!(tally.rare(2), ["bottom: 0", "interim: 1"]);
    }
}
