//! What a conversion answers and leaves, checked against the words of both tables. Layout and hashes are those of `layout`, so that the
//! model is not asked.

use std::collections::HashMap;

use ragansils_model::SUCCESS;

use crate::case::{Case, Outcome};
use crate::layout::{
    check_tokens, is_place, is_taken, key_word, levels_in_use, other_form, token_word, FORM, HEADER_WORDS,
    SLOTS, SLOT_WORDS, STATE,
};
use crate::plain_map::PlainMap;

/// Refusal 6.
pub const NO_PLACE: u64 = 6;

/// A taken slot of a level in use.
pub struct Item {
    /// How many buckets its level has.
    buckets: usize,
    bucket: usize,
    /// Key, function and place.
    pub record: [u64; 3],
}

/// The items of a table with a good header, "in probe-level order, bucket and slot ascending".
pub fn items(table: &[u64]) -> Vec<Item> {
    let mut items = vec![];
    for buckets in levels_in_use(table[STATE]) {
        for bucket in buckets - 1..2 * buckets - 1 {
            let token = table[token_word(bucket)];
            for slot in (0..SLOTS).filter(|&slot| is_taken(token, slot)) {
                let words = &table[key_word(bucket, slot)..][..SLOT_WORDS];
                items.push(Item { buckets, bucket, record: [words[0], words[1], words[2]] });
            }
        }
    }
    items
}

/// Says what is wrong with a conversion's answer or with its second table. Where it is answered with 0 or 6, the source's header is good.
pub fn check(case: &Case, outcome: &Outcome) -> Result<(), String> {
    let (source, second, key) = (&case.table, &outcome.list, outcome.answer[0]);
    match outcome.number {
        SUCCESS => check_second(source, second)?,
        NO_PLACE => {
            if *second != fresh(source) {
                return Err("the second table is not freshly created".to_string());
            }
            let is_of_source = items(source).iter().any(|item| item.record[0] == key);
            return if is_of_source { Ok(()) } else { Err(format!("the source has no key {key}")) };
        }
        number if *second != case.list => return Err(format!("refusal {number} changes the second table")),
        _ => {}
    }
    if key == 0 {
        Ok(())
    } else {
        Err(format!("the key {key} comes without refusal {NO_PLACE}"))
    }
}

/// "create the other form there with the same c, k and multipliers": zeros behind the header. At rest the state is k.
fn fresh(source: &[u64]) -> Vec<u64> {
    let mut words = vec![0; source.len()];
    words[..=STATE].copy_from_slice(&source[..=STATE]);
    words[FORM] = other_form(source[FORM]);
    words
}

/// It has its header, is sound, and has the items of the source.
fn check_second(source: &[u64], second: &[u64]) -> Result<(), String> {
    if second[..HEADER_WORDS] != fresh(source)[..HEADER_WORDS] {
        return Err(format!("the second table's header is {:?}", &second[..HEADER_WORDS]));
    }
    check_tokens(second)?;
    let items_of_second = items(second);
    let is_out_of_place = |item: &&Item| !is_place(second, item.record[0], item.bucket, item.buckets);
    if let Some(item) = items_of_second.iter().find(is_out_of_place) {
        return Err(format!("in the second table key {} is out of place", item.record[0]));
    }
    match map_of(&items_of_second) {
        None => Err("a key stands twice in the second table".to_string()),
        map if map == map_of(&items(source)) => Ok(()),
        _ => Err("the second table has another map than the source".to_string()),
    }
}

/// None where a key stands twice.
fn map_of(items: &[Item]) -> Option<PlainMap> {
    let pairs = items.iter().map(|item| (item.record[0], [item.record[1], item.record[2]]));
    let map: HashMap<_, _> = pairs.collect();
    (map.len() == items.len()).then_some(map)
}

#[cfg(test)]
mod tests {
    use super::*;
    use crate::case::Call;
    use crate::history::{Setting, MARKED_1};
    use crate::layout::FORMS;
    use crate::test_table::table_after;
    use ragansils_model::{convert, Event};

    /// Each has the upper half 1 and another lower one, so that the forms put it elsewhere.
    const KEYS: [u64; 6] = [1, 2, 3, 4, 5, 6];

    fn source(form: u64) -> Vec<u64> {
        let setting = Setting { form, c: 2, k: 2, mul1: MARKED_1, mul2: 1 };
        let inserts = KEYS.map(|key| Event::Insert { key: 1 << 32 | key, function: key, place: 2 * key });
        table_after(setting, inserts)
    }

    /// A conversion into old words, as the model makes it and then as `change` leaves the answered key and the second table.
    fn checked(source: &[u64], number: u64, change: impl Fn(&mut u64, &mut Vec<u64>)) -> Result<(), String> {
        let case = Case { call: Call::Convert, table: source.to_vec(), list: vec![9; source.len()] };
        let mut second = case.list.clone();
        let (_, mut key) = convert(source, &mut second);
        change(&mut key, &mut second);
        let outcome = Outcome { number, answer: vec![key], table: source.to_vec(), list: second };
        check(&case, &outcome)
    }

    #[test]
    fn items_come_by_level_bucket_and_slot() {
        let table = source(1);
        let tokens: Vec<usize> = items(&table).iter().map(|item| token_word(item.bucket)).collect();
        let is_ascending = |part: &[usize]| part.windows(2).all(|pair| pair[0] <= pair[1]);
        let bottom = tokens.iter().position(|&word| word < token_word(3)).unwrap_or(tokens.len());
        assert!(is_ascending(&tokens[..bottom]) && is_ascending(&tokens[bottom..]));
        assert_eq!(items(&table).len(), KEYS.len());
    }

    #[test]
    fn a_right_conversion_passes() {
        for form in FORMS {
            assert_eq!(checked(&source(form), SUCCESS, |_, _| {}), Ok(()));
            let refused = checked(&source(form), NO_PLACE, |key, second| {
                (*key, *second) = (1 << 32 | 4, fresh(&source(form)));
            });
            assert_eq!(refused, Ok(()));
            assert_eq!(checked(&source(form), 12, |_, second| second.fill(9)), Ok(()));
        }
    }

    #[test]
    fn a_wrong_second_table_is_found() {
        let source = source(1);
        let mut right = vec![0; source.len()];
        convert(&source, &mut right);
        let bucket = (0..7).find(|&bucket| is_taken(right[token_word(bucket)], 0)).unwrap();
        let (token, key) = (token_word(bucket), key_word(bucket, 0));
        // Form, k, a word of the update, a tag, an item that is not there, a record, and a key.
        let changes =
            [(FORM, 3), (STATE, 3), (7, 9), (token, 1 << 12), (token, 1), (key + 2, 1), (key, 1 << 62)];
        for (index, bits) in changes {
            assert!(checked(&source, SUCCESS, |_, second| second[index] ^= bits).is_err(), "word {index}");
        }
        assert!(checked(&source, SUCCESS, |_, second| second.fill(0)).is_err());
        assert!(checked(&source, SUCCESS, |_, second| *second = fresh(&source)).is_err());
    }

    #[test]
    fn a_wrong_refusal_is_found() {
        let source = source(2);
        let fresh = fresh(&source);
        let refused = |key: u64, second: &[u64]| {
            let words = second.to_vec();
            checked(&source, NO_PLACE, move |told, left| (*told, *left) = (key, words.clone()))
        };
        let key = 1 << 32 | 4;
        assert_eq!(refused(key, &fresh), Ok(()));
        assert!(refused(4, &fresh).is_err() && refused(0, &fresh).is_err());
        let mut half_filled = fresh.clone();
        half_filled[key_word(3, 0)] = key;
        assert!(refused(key, &half_filled).is_err());
        for number in [SUCCESS, 1, 7, 12, 13] {
            assert!(checked(&source, number, |told, _| *told = key).is_err(), "a key with {number}");
        }
        assert!(checked(&source, 7, |_, second| second[30] = 1).is_err());
    }
}
