//! Sound tables that are converted, and back: the maps stay the same, whoever reads them.

use ragansils::{calls, Key};
use ragansils_model::{word, Event, LEAST_LIST_WORDS, SUCCESS};

use crate::both::{Both, Finding};
use crate::case::{is_resizing, Call, Case, Outcome};
use crate::conversion_tally::{Kind, Way};
use crate::converted::{items, NO_PLACE};
use crate::going_on::made_by_model;
use crate::history::Setting;
use crate::layout::other_form;
use crate::plain_map::{self, PlainMap};

/// Bits in which a key that is not there differs from one that is.
const OTHER_KEYS: [u64; 3] = [1, 1 << 31, 1 << 63];

/// The words that the way back is lent, where a case of its own is checked.
pub const OLD_WORD: u64 = 0x0123_4567_89ab_cdef;

/// A conversion of a sound table, and of what it left.
pub struct ThereAndBack {
    pub number: u64,
    pub second: Vec<u64>,
}

/// Checks one conversion of a sound table whose map is `map`, and the way back where it is accepted. That is lent words which hold
/// something else.
pub fn check_there_and_back(
    both: &mut Both,
    case: &Case,
    map: &PlainMap,
    old_words: Vec<u64>,
) -> Result<ThereAndBack, Finding> {
    let there = check_conversion(both, case, map)?;
    if there.number == SUCCESS {
        let way_back = Case { call: Call::Convert, table: there.list.clone(), list: old_words };
        // What is wrong on the way back is a finding of its own table.
        let number = check_conversion(both, &way_back, map)?.number;
        let kind = if number == SUCCESS { Kind::ThereAndBack } else { Kind::NoPlaceBack };
        both.tally.conversions.add((Way::of_source(&case.table), kind));
    }
    Ok(ThereAndBack { number: there.number, second: there.list })
}

fn check_conversion(both: &mut Both, case: &Case, map: &PlainMap) -> Result<Outcome, Finding> {
    let outcome = both.run(case)?;
    let number = outcome.number;
    if !answer_fits(case, number) {
        return Err(Finding::of_sound_table(case, format!("a sound table is not converted so: {number}")));
    }
    match number {
        SUCCESS => check_map(&outcome.list, map).map_err(|what| Finding::of_sound_table(case, what))?,
        NO_PLACE => check_refused_item(both, case, outcome.answer[0])?,
        _ => {}
    }
    Ok(outcome)
}

/// Whether the conversion of a sound table may be answered so.
fn answer_fits(case: &Case, number: u64) -> bool {
    if is_resizing(&case.table) {
        number == 7
    } else if case.table.len() != case.list.len() {
        number == 13
    } else {
        [SUCCESS, NO_PLACE].contains(&number)
    }
}

/// "the two maps are equal": as they stand in the words, and as queries tell them, of keys that are there and of others.
fn check_map(second: &[u64], map: &PlainMap) -> Result<(), String> {
    if plain_map::of_table(second).as_ref() != Some(map) {
        return Err("the second table does not have the plain map".to_string());
    }
    let mut keys: Vec<u64> = map.keys().copied().collect();
    // A map has no order, and the same seed must make the same calls.
    keys.sort_unstable();
    let others = keys.iter().flat_map(|key| OTHER_KEYS.map(|bit| key ^ bit)).chain(OTHER_KEYS);
    let few_others: Vec<u64> = others.take(keys.len() / 8 + OTHER_KEYS.len()).collect();
    for key in keys.into_iter().chain(few_others) {
        let looked_up = calls::query(second, Key::from(key));
        let record = looked_up.map(|answer| answer.record().map(|record| [record.function, record.place]));
        if record != Ok(map.get(&key).copied()) {
            return Err(format!(
                "the second table answers {record:?} for key {key}, and not {:?}",
                map.get(&key)
            ));
        }
    }
    Ok(())
}

/// "6 names a key of the source that has no place in the table built so far": the inserts of the items before it make that table, and its
/// own is refused.
fn check_refused_item(both: &mut Both, case: &Case, key: u64) -> Result<(), Finding> {
    let source = &case.table;
    let inserts: Vec<Event> = items(source)
        .into_iter()
        .map(|item| item.record)
        .map(|[key, function, place]| Event::Insert { key, function, place })
        .collect();
    let is_it = |event: &Event| matches!(event, Event::Insert { key: its_key, .. } if *its_key == key);
    let before = inserts.iter().take_while(|event| !is_it(event)).count();
    let built = made_by_model(other_setting(source), &inserts[..before]);
    let insert =
        Case { call: Call::Change(inserts[before]), table: built, list: vec![OLD_WORD; LEAST_LIST_WORDS] };
    match both.run(&insert)?.number {
        NO_PLACE => Ok(()),
        number => Err(Finding::of_sound_table(
            case,
            format!("an insert of key {key} is answered with {number}, and not {NO_PLACE}"),
        )),
    }
}

/// What the second table is created with; at rest the state is k.
fn other_setting(source: &[u64]) -> Setting {
    let [form, c, mul1, mul2, k] =
        [word::FORM, word::CAPACITY, word::MULTIPLIER_1, word::MULTIPLIER_2, word::STATE]
            .map(|index| source[index]);
    Setting { form: other_form(form), c, k, mul1, mul2 }
}

#[cfg(test)]
mod tests {
    use super::*;
    use crate::history::MARKED_1;
    use crate::layout::FORMS;
    use crate::tally::Tally;
    use crate::test_table::{change, table_after};

    /// With the multipliers 1 and 2^32 + 1 a key with the upper half 1 has bucket 2 of the top, and by the last bit of its lower half the
    /// other one too, in the one form or in the other.
    fn key(form: u64, number: u64) -> u64 {
        (1 << 32) + 2 * number + u64::from(form == 1)
    }

    fn table(form: u64, keys: u64) -> Vec<u64> {
        let setting = Setting { form, c: 1, k: 1, mul1: 1, mul2: MARKED_1 };
        let insert = |number| Event::Insert { key: key(form, number), function: number, place: 7 };
        table_after(setting, (0..keys).map(insert))
    }

    fn case(table: &[u64], second_words: usize) -> Case {
        Case { call: Call::Convert, table: table.to_vec(), list: vec![OLD_WORD; second_words] }
    }

    /// Whether the conversion of a table passes, with its number, and what was counted of the way there and back.
    fn went(table: &[u64], second_words: usize, map: &PlainMap) -> (Option<u64>, u64) {
        let mut tally = Tally::default();
        let mut both = Both::new(&mut tally);
        let old_words = vec![OLD_WORD; table.len()];
        let there = check_there_and_back(&mut both, &case(table, second_words), map, old_words);
        let back = (Way::of_source(table), Kind::ThereAndBack);
        (there.ok().map(|there| there.number), tally.conversions.seen(&back))
    }

    #[test]
    fn a_wrong_map_is_found() {
        for form in FORMS {
            let table = table(form, 5);
            let map = plain_map::of_table(&table).unwrap();
            assert_eq!(went(&table, 48, &map), (Some(SUCCESS), 1));
            let with = |event| plain_map::after(&map, event);
            let (key, function, place) = (key(form, 2), 2, 8);
            for wrong in [Event::Update { key, function, place }, Event::Delete { key }] {
                assert_eq!(went(&table, 48, &with(wrong)), (None, 0));
            }
        }
    }

    #[test]
    fn a_map_is_asked_for_by_queries() {
        let table = table(2, 3);
        let map = plain_map::of_table(&table).unwrap();
        assert_eq!(check_map(&table, &map), Ok(()));
        // The words have the map, but a wrong tag hides a key of it.
        let mut hidden = table.clone();
        hidden[9 + 13 * 2] ^= 1 << 15;
        let told = check_map(&hidden, &map).unwrap_err();
        assert!(told.contains("answers Ok(None)"), "{told}");
    }

    #[test]
    fn the_item_that_has_no_place_is_found_again() {
        for form in FORMS {
            let table = table(form, 9);
            let map = plain_map::of_table(&table).unwrap();
            assert_eq!(went(&table, 48, &map), (Some(NO_PLACE), 0));
            let mut tally = Tally::default();
            let mut both = Both::new(&mut tally);
            let last = items(&table)[8].record[0];
            let mut refused = |key| check_refused_item(&mut both, &case(&table, 48), key).is_ok();
            assert!(refused(last) && items(&table)[..8].iter().all(|item| !refused(item.record[0])));
        }
    }

    #[test]
    fn other_lengths_and_phases_are_refused() {
        let setting = Setting { form: 1, c: 2, k: 1, mul1: 1, mul2: MARKED_1 };
        let mut table = table_after(setting, []);
        let map = PlainMap::new();
        assert_eq!(went(&table, 48, &map), (Some(13), 0));
        change(&mut table, Event::Begin);
        assert_eq!((went(&table, 100, &map), went(&table, 48, &map)), ((Some(7), 0), (Some(7), 0)));
        let fits = |number| answer_fits(&case(&table, 100), number);
        assert!(fits(7) && ![0, 1, 6, 12, 13].into_iter().any(fits));
    }
}
