//! What two tables tell of a key, checked against the words of both and against the library's own queries. Layout and hashes are those of
//! `layout`, so that the model is not asked.

use std::collections::BTreeSet;
use std::fmt::{self, Display};

use ragansils::{raw, Level, Lookup};
use ragansils_model::{word, SUCCESS};

use crate::case::{Call, Case, Outcome};
use crate::layout::{
    buckets_of, hash, is_place, is_taken, key_word, level_of_bucket, levels_in_use, tag_in, tag_of,
    token_word, FORM, MULTIPLIERS, SLOTS, SLOT_WORDS, STATE, TAGGED,
};
use crate::told_slots::level_of_key;
use crate::two_tables::{Told, ToldPart, NEWER, OLDER};

/// The numbers that a table refuses every key with, and the one of a key that is not there.
pub const BAD_TABLE: u64 = 1;
pub const FLAG_SET: u64 = 3;
pub const KEY_ABSENT: u64 = 5;

/// The key that is asked for, and both tables; none for calls on one table.
pub fn asked_of(case: &Case) -> Option<(u64, [&[u64]; 2])> {
    match case.call {
        Call::Ask { key } => Some((key, [&case.table, &case.list])),
        Call::AskTwice { key } => Some((key, [&case.table, &case.table])),
        _ => None,
    }
}

/// The level in which the key was found; none with a refusal. Or says what is wrong with what is told.
pub fn check(case: &Case, outcome: &Outcome) -> Result<Option<Level>, String> {
    let told = Told::of_words(outcome.number, &outcome.answer);
    let (told, (key, tables)) = match (told, asked_of(case)) {
        (Some(told), Some(asked)) => (told, asked),
        _ => return Err(format!("an answer of {} words", outcome.answer.len())),
    };
    let mut by_queries = told_by_queries(tables, key);
    if let Call::AskTwice { .. } = case.call {
        by_queries.part.table = NEWER;
    }
    if told != by_queries {
        return Err(format!("told is {told:?}, and by queries of both tables {by_queries:?}"));
    }
    check_words(tables, key, &told)
}

/// What the library's own queries tell: refusals 1 and 3 of both tables come before everything else, and those of the newer first.
fn told_by_queries(tables: [&[u64]; 2], key: u64) -> Told {
    let [(newer, found), (older, found_below)] = tables.map(|table| query(table, key));
    let looked_below = found.buckets + found_below.buckets;
    match (newer, older) {
        (BAD_TABLE | FLAG_SET, _) => refused(newer, NEWER, 0),
        (_, BAD_TABLE | FLAG_SET) => refused(older, OLDER, 0),
        (SUCCESS, _) => found.told(NEWER, key, found.buckets),
        (_, SUCCESS) => found_below.told(OLDER, key, looked_below),
        _ => refused(KEY_ABSENT, OLDER, looked_below),
    }
}

fn refused(number: u64, name: u64, buckets: u64) -> Told {
    Told { number, name, buckets, part: ToldPart { table: name, word: 0, length: 0, words: [0; SLOT_WORDS] } }
}

struct Found {
    record: [u64; 2],
    buckets: u64,
    word: u64,
}

impl Found {
    fn told(&self, name: u64, key: u64, buckets: u64) -> Told {
        let [function, place] = self.record;
        let words = [key, function, place];
        Told {
            number: SUCCESS,
            name,
            buckets,
            part: ToldPart { table: name, word: self.word, length: 3, words },
        }
    }
}

fn query(table: &[u64], key: u64) -> (u64, Found) {
    let mut answer = [0; Lookup::WORDS];
    // SAFETY: the pointer is valid for the slice's length, and the answer is a buffer of its own.
    let number = unsafe { raw::ragansils_query(table.as_ptr(), table.len(), key, &mut answer) };
    let [function, place, buckets, word, _level] = answer;
    (number, Found { record: [function, place], buckets, word })
}

/// Against the words of both tables alone. Where it is answered with 0 or 5, both headers are good.
fn check_words(tables: [&[u64]; 2], key: u64, told: &Told) -> Result<Option<Level>, String> {
    let named = tables.get(told.name as usize).ok_or_else(|| format!("there is no table {}", told.name))?;
    let is_flagged = |table: &[u64]| table.get(word::FLAG).map_or(false, |&flag| flag != 0);
    match told.number {
        BAD_TABLE => return Ok(None),
        FLAG_SET if is_flagged(named) => return Ok(None),
        SUCCESS | KEY_ABSENT if !tables.into_iter().any(is_flagged) => {}
        number => return Err(format!("answer {number} does not fit the flags of both tables")),
    }
    let above = if told.name == OLDER { &tables[..1] } else { &[] };
    let passed_over = if told.number == KEY_ABSENT { &tables[..] } else { above };
    if passed_over.iter().any(|table| is_held(table, key)) {
        return Err(format!(
            "answer {} of table {}, though a table before holds the key",
            told.number, told.name
        ));
    }
    if told.number == KEY_ABSENT {
        return Ok(None);
    }
    let level = level_of_key(named, key, told.part.word)?;
    let at = told.part.word as usize;
    match named[at..at + SLOT_WORDS] == told.part.words {
        true => Ok(Some(level)),
        false => Err(format!("word {at} of table {} begins other words", told.name)),
    }
}

/// Whether a table with a good header has the key in a place where a lookup finds it.
pub fn is_held(table: &[u64], key: u64) -> bool {
    let holds = |bucket: usize, slot: usize| {
        let token = table[token_word(bucket)];
        let has_tag = table[FORM] != TAGGED || tag_in(token, slot) == tag_of(table, key);
        is_taken(token, slot) && table[key_word(bucket, slot)] == key && has_tag
    };
    levels_in_use(table[STATE]).into_iter().any(|buckets| {
        MULTIPLIERS.into_iter().any(|multiplier| {
            let place = hash(table[FORM], table[multiplier], key) as usize % buckets;
            (0..SLOTS).any(|slot| holds(buckets - 1 + place, slot))
        })
    })
}

/// Where a key stands that no lookup finds.
#[derive(Clone, Copy, Debug, PartialEq, Eq, PartialOrd, Ord)]
pub enum Astray {
    UnusedLevel,
    FreeSlot,
    OtherPlace,
    OtherTag,
}

impl Astray {
    pub const ALL: [Astray; 4] =
        [Astray::UnusedLevel, Astray::FreeSlot, Astray::OtherPlace, Astray::OtherTag];
}

impl Display for Astray {
    fn fmt(&self, out: &mut fmt::Formatter) -> fmt::Result {
        out.write_str(match self {
            Astray::UnusedLevel => "in an unused level",
            Astray::FreeSlot => "in a free slot",
            Astray::OtherPlace => "out of place",
            Astray::OtherTag => "under another tag",
        })
    }
}

/// How a key stands in a table with a good header that does not hold it.
pub fn astray(table: &[u64], key: u64) -> BTreeSet<Astray> {
    if is_held(table, key) {
        return BTreeSet::new();
    }
    let slots = (0..buckets_of(table)).flat_map(|bucket| (0..SLOTS).map(move |slot| (bucket, slot)));
    let its_own = slots.filter(|&(bucket, slot)| table[key_word(bucket, slot)] == key);
    its_own.map(|(bucket, slot)| astray_in(table, key, bucket, slot)).collect()
}

fn astray_in(table: &[u64], key: u64, bucket: usize, slot: usize) -> Astray {
    match level_of_bucket(table, bucket) {
        None => Astray::UnusedLevel,
        Some(_) if !is_taken(table[token_word(bucket)], slot) => Astray::FreeSlot,
        Some(buckets) if !is_place(table, key, bucket, buckets) => Astray::OtherPlace,
        Some(_) => Astray::OtherTag,
    }
}

#[cfg(test)]
mod tests {
    use super::*;
    use crate::case::run_model;
    use crate::history::{Setting, MARKED_1};
    use crate::layout::FORMS;
    use crate::test_table::{table_after, table_of};
    use ragansils_model::Event;

    fn case(key: u64) -> Case {
        let (newer, older) = (table_of(&[[1, 10, 20], [3, 30, 40]]), table_of(&[[3, 31, 41], [5, 50, 60]]));
        Case { call: Call::Ask { key }, table: newer, list: older }
    }

    fn checked(case: &Case, change: impl Fn(&mut Outcome)) -> Result<Option<Level>, String> {
        let mut outcome = run_model(case);
        change(&mut outcome);
        check(case, &outcome)
    }

    #[test]
    fn what_is_right_passes() {
        for (key, level) in [(1, Some(Level::Top)), (3, Some(Level::Top)), (5, Some(Level::Top)), (7, None)] {
            assert_eq!(checked(&case(key), |_| {}), Ok(level), "key {key}");
        }
        let twice = Case { call: Call::AskTwice { key: 3 }, ..case(3) };
        assert_eq!(checked(&twice, |_| {}), Ok(Some(Level::Top)));
        for (index, number) in [(0, 1), (5, 3)] {
            let mut bad = case(3);
            bad.list[index] = 9;
            assert_eq!((run_model(&bad).number, checked(&bad, |_| {})), (number, Ok(None)));
        }
    }

    /// Each word of the answer, and the number.
    #[test]
    fn what_is_wrong_is_found() {
        for key in [1, 3, 5, 7] {
            for index in 0..Told::WORDS {
                for bits in [1, 2, 3, 1 << 40] {
                    let found = checked(&case(key), |outcome| outcome.answer[index] ^= bits);
                    assert!(found.is_err(), "key {key}, answer word {index}");
                }
            }
            for number in [0, 1, 3, 5, 6] {
                let is_right = run_model(&case(key)).number == number;
                assert_eq!(checked(&case(key), |outcome| outcome.number = number).is_ok(), is_right);
            }
        }
    }

    /// As if queries were wrong too.
    #[test]
    fn the_words_tell_without_queries() {
        let Case { table, list, .. } = case(3);
        let told = |key| Told::by_model(&table, &list, key);
        let check = |key, told: &Told| check_words([&table, &list], key, told);
        let of_older = Told { name: OLDER, ..Told::by_model(&list, &list, 3) };
        assert!(check(3, &told(3)).is_ok() && check(3, &of_older).is_err());
        assert!(check(3, &told(7)).is_err() && check(7, &told(7)).is_ok());
        assert!(check(1, &told(3)).is_err() && check(3, &told(1)).is_err());
        assert!(check(3, &refused(FLAG_SET, OLDER, 0)).is_err());
    }

    #[test]
    fn a_key_is_astray_in_four_ways() {
        for form in FORMS {
            let setting = Setting { form, c: 2, k: 1, mul1: MARKED_1, mul2: MARKED_1 };
            let key = 5 << 24 | 1;
            let table = table_after(setting, [Event::Insert { key, function: 5, place: 5 }]);
            assert!(is_held(&table, key) && astray(&table, key).is_empty());
            let with_token = |token: u64| {
                let mut words = table.clone();
                words[token_word(2)] = token;
                astray(&words, key)
            };
            assert_eq!(with_token(0), BTreeSet::from([Astray::FreeSlot]));
            assert_eq!(with_token(1).contains(&Astray::OtherTag), form == TAGGED);
            let mut elsewhere = table_after(setting, []);
            elsewhere[key_word(4, 3)] = key;
            assert_eq!(astray(&elsewhere, key), BTreeSet::from([Astray::UnusedLevel]));
            (elsewhere[key_word(1, 0)], elsewhere[token_word(1)]) = (key, 1);
            assert_eq!(astray(&elsewhere, key), BTreeSet::from([Astray::OtherPlace, Astray::UnusedLevel]));
        }
    }
}
