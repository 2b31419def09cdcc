//! Where a key stands: the level and the word that a query tells are those where the table's words have it.

use std::collections::BTreeMap;
use std::ops::Range;

use ragansils::{
    calls, Creation, Form, Found, Key, Level, Lookup, OrdinaryMemory, Record, Refusal, Slot, Table,
};

/// The table of document 01's marked examples.
const MARKED: Creation = Creation { multipliers: [4294967297, 12884901889], ..Creation::new(2, 1) };
/// The header's words for the state and the update flag.
const STATE: usize = 4;
const FLAG: usize = 5;

type OwnTable = Table<Vec<u64>, OrdinaryMemory>;

fn record_of(key: u64) -> Record {
    Record { function: key.wrapping_add(100), place: key.wrapping_add(200) }
}

fn created(creation: &Creation) -> OwnTable {
    Table::create(vec![0; creation.words().unwrap()], creation, OrdinaryMemory).unwrap()
}

fn filled(creation: &Creation, keys: impl IntoIterator<Item = u64>) -> OwnTable {
    let mut table = created(creation);
    for key in keys {
        table.insert(key.into(), record_of(key)).unwrap();
    }
    table
}

/// The slot of a key that is there. Its words hold the key and its record.
fn slot_of(words: &[u64], key: u64) -> Slot {
    let Found { record, slot } = calls::query(words, key.into()).unwrap().found.unwrap();
    assert_eq!(record, record_of(key));
    assert_eq!(words[slot.word..slot.word + 3], [key, record.function, record.place]);
    slot
}

/// Keys that are odd and below 8 fill one bucket of the top; the next ones go to the bottom, which a growth makes the interim level.
#[test]
fn a_key_is_told_in_each_level() {
    let mut table = filled(&MARKED, (1..16).step_by(2));
    let slot = |table: &OwnTable, key| slot_of(table.words(), key);
    assert_eq!(slot(&table, 3), Slot { word: 39, level: Level::Top });
    assert_eq!(slot(&table, 9), Slot { word: 10, level: Level::Bottom });
    assert_eq!(slot(&table, 15), Slot { word: 19, level: Level::Bottom });
    table.begin().unwrap();
    assert_eq!(slot(&table, 3), Slot { word: 39, level: Level::Bottom });
    assert_eq!(slot(&table, 9), Slot { word: 10, level: Level::Interim });
    table.step().unwrap();
    assert_eq!(slot(&table, 9), Slot { word: 62, level: Level::Top });
    for absent in [0, 2, 17, u64::MAX] {
        assert_eq!(table.query(absent.into()).unwrap().found, None);
    }
    // Turned back, the top is the interim level, and the bottom the top.
    table.back().unwrap();
    assert_eq!(slot(&table, 3), Slot { word: 39, level: Level::Top });
    assert_eq!(slot(&table, 15), Slot { word: 19, level: Level::Bottom });
    assert_eq!(slot(&table, 9), Slot { word: 62, level: Level::Interim });
}

/// The words of a level, by the layout of document 01: a level of M buckets is buckets M - 1 to 2M - 2.
fn words_of_level(words: &[u64], level: Level) -> Range<usize> {
    let buckets = 1 << (words[STATE] % 256 - level.number());
    9 + 13 * (buckets - 1)..9 + 13 * (2 * buckets - 1)
}

fn check_all(table: &OwnTable, keys: &[u64]) -> BTreeMap<Level, usize> {
    let mut seen = BTreeMap::new();
    for &key in keys {
        let slot = slot_of(table.words(), key);
        assert!(words_of_level(table.words(), slot.level).contains(&slot.word));
        *seen.entry(slot.level).or_insert(0) += 1;
    }
    seen
}

#[test]
fn every_key_of_a_table_is_told_in_its_own_slot() {
    Form::ALL.into_iter().for_each(every_key_is_told_in_its_own_slot);
}

fn every_key_is_told_in_its_own_slot(form: Form) {
    let keys: Vec<u64> =
        (0..300).map(|line| Key::new(0x5555_0000_1000 + 4 * line, 0).unwrap().word()).collect();
    let mut table = filled(&Creation { form, ..Creation::new(7, 6) }, keys.iter().copied());
    let at_rest = check_all(&table, &keys);
    assert_eq!(at_rest.keys().copied().collect::<Vec<_>>(), [Level::Top, Level::Bottom]);
    let in_bottom = at_rest[&Level::Bottom];
    assert_eq!(table.grow(1 + in_bottom as u64 / 2), Ok(false));
    let growing = check_all(&table, &keys);
    assert_eq!(growing.keys().copied().collect::<Vec<_>>(), Level::ALL);
    assert_eq!(growing[&Level::Interim], in_bottom - in_bottom / 2);
    let mut words: Vec<usize> = keys.iter().map(|&key| slot_of(table.words(), key).word).collect();
    words.sort_unstable();
    words.dedup();
    assert_eq!(words.len(), keys.len());
}

/// The largest table has 27 million words, so an index needs 25 bits.
#[test]
fn a_key_is_told_in_tables_of_every_capacity() {
    let keys = [0, 1, 1 << 32, u64::MAX];
    let mut last = 0;
    for (form, capacity) in Form::ALL.into_iter().flat_map(|form| (1..=20).map(move |c| (form, c))) {
        let creation = Creation { form, ..Creation::new(capacity, 1.max(capacity - 1)) };
        let mut table = filled(&creation, keys);
        let is_told_in =
            |table: &OwnTable, level| check_all(table, &keys) == BTreeMap::from([(level, keys.len())]);
        assert!(is_told_in(&table, Level::Top), "{form}, c = {capacity}");
        if capacity > 1 {
            table.begin().unwrap();
            assert!(is_told_in(&table, Level::Bottom), "{form}, c = {capacity}");
        }
        last = keys.iter().map(|&key| slot_of(table.words(), key).word).max().unwrap();
    }
    assert!(last > 1 << 23, "word {last}");
}

/// Power failed before the last store of a step: the key stands in the interim level too.
#[test]
fn of_a_key_that_stands_twice_the_first_slot_is_told() {
    let mut table = filled(&MARKED, (1..16).step_by(2));
    table.begin().unwrap();
    let mut words = table.into_parts().0;
    let list = calls::step(&words).unwrap();
    calls::make(&mut words, list.words(), list.count() - 1).unwrap();
    assert_eq!(slot_of(&words, 9), Slot { word: 62, level: Level::Top });
    assert_eq!(words[10], 9);
}

#[test]
fn a_refusal_tells_no_slot() {
    let mut words = filled(&MARKED, [1]).into_parts().0;
    words[FLAG] = 1;
    assert_eq!(calls::query(&words, 1.into()), Err(Refusal::FlagSet));
    words[STATE] = 0;
    assert_eq!(calls::query(&words, 1.into()), Err(Refusal::BadHeader));
}

#[test]
fn the_words_of_an_answer_are_taken_apart() {
    let record = Record { function: 7, place: 8 };
    for (number, level) in (0..).zip(Level::ALL) {
        assert_eq!(level.number(), number);
        let lookup = Lookup::of_words(0, [7, 8, 3, 36, number]).unwrap();
        let found = Found { record, slot: Slot { word: 36, level } };
        assert_eq!(lookup, Lookup { found: Some(found), buckets: 3 });
        assert_eq!(lookup.record(), Some(record));
    }
    let absent = Lookup::of_words(5, [0, 0, 4, 0, 0]);
    assert_eq!(absent, Ok(Lookup { found: None, buckets: 4 }));
    assert_eq!(absent.unwrap().record(), None);
    assert_eq!(Lookup::of_words(3, [0; Lookup::WORDS]), Err(Refusal::FlagSet));
    assert_eq!(Lookup::of_words(1, [0; Lookup::WORDS]), Err(Refusal::BadHeader));
}

#[test]
fn levels_have_names_and_an_order() {
    assert_eq!(Level::ALL.map(|level| level.to_string()), ["top", "bottom", "interim"]);
    assert_eq!(format!("{:<8}|", Level::Top), "top     |");
    assert!(Level::Top < Level::Bottom && Level::Bottom < Level::Interim);
}
