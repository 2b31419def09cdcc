//! A table over lent words: its stores, its refusals, how it grows and shrinks.

mod common;

use std::panic::{catch_unwind, resume_unwind, AssertUnwindSafe};

use ragansils::{
    calls, Creation, Key, OrdinaryMemory, Part, Phase, Record, Refusal, Step, Store, StoreList, Table,
};

use common::{cut, Change, Hook};

/// The table of the marked examples of document 01, the paper that fixes the table.
const MARKED: Creation = Creation { multipliers: [4294967297, 12884901889], ..Creation::new(2, 1) };
/// The word that holds the state.
const STATE: usize = 4;
const NEW: Record = Record { function: 30, place: 40 };

fn empty_words() -> Vec<u64> {
    let mut words = vec![0; MARKED.words().unwrap()];
    calls::create(&mut words, &MARKED).unwrap();
    words
}

fn record_of(key: u64) -> Record {
    Record { function: 100 + key, place: 200 + key }
}

/// Keys that are odd and below 8 fill one bucket of the top; the next ones go to the bottom.
fn filled_with(keys: impl IntoIterator<Item = u64>) -> Vec<u64> {
    let mut table = Table::open(empty_words(), OrdinaryMemory).unwrap();
    for key in keys {
        table.insert(key.into(), record_of(key)).unwrap();
    }
    table.into_parts().0
}

fn after(mut words: Vec<u64>, list: Lister, kept: Option<u64>) -> Vec<u64> {
    let list = list(&words).unwrap();
    calls::make(&mut words, list.words(), kept.unwrap_or(list.count())).unwrap();
    words
}

type OwnTable = Table<Vec<u64>, OrdinaryMemory>;
type Lister = fn(&[u64]) -> Result<StoreList, Refusal>;

/// A method that changes a table, beside the call whose stores it should make.
struct Row {
    words: Vec<u64>,
    list: Lister,
    change: Change,
}

/// Every change, on a sound table where it lists some stores.
fn every_change() -> Vec<Row> {
    let growing = after(filled_with([1, 3, 5, 7, 9]), calls::begin, None);
    let moved = after(growing.clone(), calls::step, None);
    let grown = after(moved.clone(), calls::end, None);
    let shrinking = after(grown.clone(), calls::shrink, None);
    let shrunk = after(shrinking.clone(), calls::step, None);
    let row = |words, list, change| Row { words, list, change };
    vec![
        row(empty_words(), |words| calls::insert(words, 1.into(), NEW), |table| table.insert(1.into(), NEW)),
        row(
            filled_with([1]),
            |words| calls::update(words, 1.into(), NEW),
            |table| table.update(1.into(), NEW),
        ),
        row(filled_with([1, 3, 5, 7]), updated_3, |table| table.update(3.into(), NEW)),
        row(filled_with([1, 3]), |words| calls::delete(words, 3.into()), |table| table.delete(3.into())),
        row(filled_with([1, 3]), calls::begin, |table| table.begin()),
        row(growing.clone(), calls::step, |table| table.step()),
        row(growing.clone(), stepped_from_0, |table| table.step_from(0).map(|step| step.stores)),
        row(moved, calls::end, |table| table.end()),
        row(grown, calls::shrink, |table| table.begin_shrink()),
        row(growing, calls::back, |table| table.back()),
        row(shrinking.clone(), calls::back, |table| table.back()),
        row(shrinking.clone(), calls::step, |table| table.step()),
        row(shrinking.clone(), stepped_from_1, |table| table.step_from(1).map(|step| step.stores)),
        row(shrinking, updated_9, |table| table.update(9.into(), NEW)),
        row(shrunk, calls::end, |table| table.end()),
    ]
}

fn stepped_from_0(words: &[u64]) -> Result<StoreList, Refusal> {
    calls::step_from(words, 0).map(|(list, _)| list)
}

fn stepped_from_1(words: &[u64]) -> Result<StoreList, Refusal> {
    calls::step_from(words, 1).map(|(list, _)| list)
}

/// While the table shrinks, key 9 stands in the interim level, which was the top.
fn updated_9(words: &[u64]) -> Result<StoreList, Refusal> {
    calls::update(words, 9.into(), NEW)
}

fn updated_3(words: &[u64]) -> Result<StoreList, Refusal> {
    calls::update(words, 3.into(), NEW)
}

/// The records of all keys that these tests use.
fn map_of(words: &[u64]) -> Vec<Option<Record>> {
    (0..20).map(|key| calls::query(words, Key::from(key)).unwrap().record()).collect()
}

#[test]
fn a_change_makes_the_listed_stores_in_order() {
    for Row { mut words, list, change } in every_change() {
        let list = list(&words).unwrap();
        let mut made = words.clone();
        calls::make(&mut made, list.words(), list.count()).unwrap();

        let first = words.as_ptr();
        let mut seen = vec![];
        // SAFETY: both point into the same words.
        let index = |word: &u64| unsafe { (word as *const u64).offset_from(first) } as usize;
        let mut hook = |word: &u64| seen.push(Store { index: index(word), value: *word });
        let mut table = Table::open(words.as_mut_slice(), &mut hook as Hook).unwrap();
        assert_eq!(change(&mut table), Ok(list.count()));
        assert_eq!(seen, list.stores().collect::<Vec<_>>());
        assert_eq!(words, made);
    }
}

#[test]
fn a_change_cut_after_any_store_is_mended_by_open() {
    for Row { words, list, change } in every_change() {
        let count = list(&words).unwrap().count();
        assert!(count > 0, "there is something to cut");
        let maps = [map_of(&words), map_of(&after(words.clone(), list, None))];
        for kept in 1..=count {
            let mut words = words.clone();
            assert!(cut(&mut words, kept, |table| assert!(change(table).is_ok())));
            let table = Table::open(words, OrdinaryMemory).unwrap();
            assert!(maps.contains(&map_of(table.words())), "cut after {kept} of {count} stores");
        }
    }
}

#[test]
fn open_mends_and_may_be_cut_too() {
    let half_updated = after(filled_with([1, 3, 5, 7]), updated_3, Some(5));
    for kept in 1..=3 {
        let mut words = half_updated.clone();
        assert!(cut(&mut words, kept, |_| ()));
        let table = Table::open(words.as_mut_slice(), OrdinaryMemory).unwrap();
        assert_eq!(table.query(3.into()).unwrap().record(), Some(NEW));
        assert_eq!(calls::recover(&words).unwrap().count(), 0);
    }
    assert!(!cut(&mut half_updated.clone(), 4, |_| ()));
}

#[test]
fn a_refused_change_leaves_everything() {
    let words = filled_with((1..16).step_by(2));
    let mut table = Table::open(words.clone(), |_: &u64| panic!("a refused change has no stores")).unwrap();
    assert_eq!(table.insert(1.into(), NEW), Err(Refusal::KeyPresent));
    assert_eq!(table.insert(17.into(), NEW), Err(Refusal::NoPlace));
    assert_eq!(table.update(2.into(), NEW), Err(Refusal::KeyAbsent));
    assert_eq!(table.delete(2.into()), Err(Refusal::KeyAbsent));
    assert_eq!(table.step(), Err(Refusal::NotResizing));
    assert_eq!(table.step_from(0), Err(Refusal::NotResizing));
    assert_eq!(table.end(), Err(Refusal::NotResizing));
    assert_eq!(table.back(), Err(Refusal::NotResizing));
    assert_eq!(table.begin_shrink(), Err(Refusal::TooSmall));
    assert_eq!(table.words(), words);
}

/// What is under way is told before what is too large or too small.
#[test]
fn a_table_that_grows_or_shrinks_begins_neither() {
    let growing = after(filled_with([1]), calls::begin, None);
    let shrinking = after(growing.clone(), calls::back, None);
    assert_eq!((growing[STATE], shrinking[STATE]), (256 + 2, 512 + 1));
    for words in [growing, shrinking] {
        let mut table = Table::open(words.clone(), OrdinaryMemory).unwrap();
        assert_eq!(table.begin(), Err(Refusal::AlreadyResizing));
        assert_eq!(table.begin_shrink(), Err(Refusal::AlreadyResizing));
        assert_eq!(table.words(), words);
    }
}

#[test]
fn words_that_are_no_table_are_refused_and_left() {
    let mut damaged = filled_with([1]);
    damaged[5] = 2;
    let mut other_form = empty_words();
    other_form[0] = 3;
    let short = empty_words()[1..].to_vec();
    let rows = [
        (damaged, Refusal::NoKind),
        (other_form, Refusal::BadHeader),
        (short, Refusal::BadHeader),
        (vec![], Refusal::BadHeader),
    ];
    for (words, refusal) in rows {
        let mut lent = words.clone();
        assert_eq!(Table::open(lent.as_mut_slice(), OrdinaryMemory).map(drop), Err(refusal));
        assert_eq!(lent, words);
    }
}

#[test]
fn a_creation_that_is_not_allowed_is_refused_and_leaves_the_words() {
    let words = vec![7; MARKED.words().unwrap()];
    let bad = [
        Creation { capacity: 0, ..MARKED },
        Creation { capacity: 3, ..MARKED },
        Creation { first_top: 3, ..MARKED },
        Creation { multipliers: [1, 2], ..MARKED },
    ];
    for creation in bad {
        let mut lent = words.clone();
        let created = Table::create(lent.as_mut_slice(), &creation, OrdinaryMemory);
        assert_eq!(created.map(drop), Err(Refusal::BadCreation));
        assert_eq!(lent, words);
    }
    assert_eq!(Creation { capacity: 0, ..MARKED }.words(), None);
    assert_eq!(Creation { capacity: 21, ..MARKED }.words(), None);
}

#[test]
fn growing_and_shrinking_go_part_by_part_and_keep_the_map() {
    let mut table = Table::open(filled_with([1, 3, 5, 7, 9, 11]), OrdinaryMemory).unwrap();
    let parts = parts_of(&mut table, Phase::Growing, Table::grow_on);
    assert_eq!(parts, [Part::Begun, Part::Moved, Part::Moved, Part::Ended]);
    assert_eq!(table.grow_on(), Err(Refusal::AtCapacity));
    // Keys 9 and 11 stand in the old top still.
    let parts = parts_of(&mut table, Phase::Shrinking, Table::shrink_on);
    assert_eq!(parts, [Part::Begun, Part::Moved, Part::Moved, Part::Ended]);
    assert_eq!(table.shrink_on(), Err(Refusal::TooSmall));
}

/// All parts, until the table is at rest again.
fn parts_of(
    table: &mut OwnTable,
    phase: Phase,
    part: fn(&mut OwnTable) -> Result<Part, Refusal>,
) -> Vec<Part> {
    let map = map_of(table.words());
    let mut parts = vec![];
    while parts.last() != Some(&Part::Ended) {
        parts.push(part(table).unwrap());
        let expected = if parts.last() == Some(&Part::Ended) { Phase::AtRest } else { phase };
        assert_eq!(table.phase(), Ok(expected));
        assert_eq!(map_of(table.words()), map);
    }
    parts
}

#[test]
fn a_part_of_the_other_kind_turns_back() {
    let mut table = Table::open(filled_with([1, 3, 5, 7, 9, 11]), OrdinaryMemory).unwrap();
    assert_eq!(table.grow(2), Ok(false));
    assert_eq!((table.shrink_on(), table.phase()), (Ok(Part::Turned), Ok(Phase::Shrinking)));
    assert_eq!((table.grow_on(), table.phase()), (Ok(Part::Turned), Ok(Phase::Growing)));
    assert_eq!(table.shrink(100), Ok(true));
    // The table that was at the beginning, but for where its items stand.
    assert_eq!(map_of(table.words()), map_of(&filled_with([1, 3, 5, 7, 9, 11])));
    assert_eq!(table.words()[STATE], 1);
}

/// The platform's act panics in the middle of an update, and the table lives on.
#[test]
fn phase_and_parts_wait_for_the_recovery_of_a_cut_update() {
    let growing = after(filled_with([1, 3, 5, 7, 9]), calls::begin, None);
    let shrinking = after(growing.clone(), calls::back, None);
    for (words, phase) in [(growing, Phase::Growing), (shrinking, Phase::Shrinking)] {
        let mut stores = 0;
        let cut_after_five = |_: &u64| {
            stores += 1;
            if stores == 5 {
                // No message, unlike panic!: this one is meant.
                resume_unwind(Box::new("cut"));
            }
        };
        let mut table = Table::open(words, cut_after_five).unwrap();
        assert!(catch_unwind(AssertUnwindSafe(|| table.update(3.into(), NEW))).is_err());
        let cut = table.words().to_vec();
        assert_eq!(table.phase(), Err(Refusal::FlagSet));
        let parts = [table.grow_on(), table.shrink_on(), table.back().map(|_| Part::Turned)];
        assert_eq!((parts, table.words()), ([Err(Refusal::FlagSet); 3], cut.as_slice()));
        table.recover().unwrap();
        assert_eq!(table.phase(), Ok(phase));
    }
}

#[test]
fn a_growth_is_paced_and_goes_on_after_open() {
    let words = filled_with([1, 3, 5, 7, 9, 11]);
    let mut table = Table::open(words, OrdinaryMemory).unwrap();
    assert_eq!(table.grow(0), Ok(false));
    assert_eq!(table.phase(), Ok(Phase::AtRest));
    assert_eq!(table.grow(2), Ok(false));
    let mut table = Table::open(table.into_parts().0, OrdinaryMemory).unwrap();
    assert_eq!(table.phase(), Ok(Phase::Growing));
    assert_eq!(table.grow(u64::MAX), Ok(true));
    assert_eq!(table.phase(), Ok(Phase::AtRest));
}

/// Document 01's E11: none of the interim items has a place.
#[test]
fn a_growth_without_a_place_goes_on_once_there_is_one() {
    let creation = Creation { multipliers: [MARKED.multipliers[0]; 2], ..MARKED };
    let words = vec![0; creation.words().unwrap()];
    let mut table = Table::create(words, &creation, OrdinaryMemory).unwrap();
    for key in (0..32).step_by(4) {
        table.insert(key.into(), NEW).unwrap();
    }
    assert_eq!(table.grow_on(), Ok(Part::Begun));
    for key in (32..48).step_by(4) {
        table.insert(key.into(), NEW).unwrap();
    }
    assert_eq!(table.grow(10), Err(Refusal::NoPlace));
    assert_eq!(table.query(0.into()).unwrap().record(), Some(NEW));
    table.delete(32.into()).unwrap();
    assert_eq!(table.grow_on(), Ok(Part::Moved));
}

/// The keys 9, 11 and 13 stand in the one bucket of the interim level.
#[test]
fn a_step_from_the_first_bucket_is_the_step_and_tells_its_bucket() {
    let mut words = after(filled_with([1, 3, 5, 7, 9, 11, 13]), calls::begin, None);
    for _ in 0..3 {
        let (list, bucket) = calls::step_from(&words, 0).unwrap();
        assert_eq!((list.words(), bucket), (calls::step(&words).unwrap().words(), 0));
        for past in [1, 2, 1 << 32, u64::MAX] {
            assert_eq!(calls::step_from(&words, past).map(drop), Err(Refusal::InterimEmpty));
        }
        calls::make(&mut words, list.words(), list.count()).unwrap();
    }
    assert_eq!(calls::step_from(&words, 0).map(drop), Err(Refusal::InterimEmpty));
}

/// With both multipliers alike a key has one place in a level of M buckets, its remainder by M: here 16, 8 and, in the interim level, 4.
#[test]
fn a_step_goes_on_from_the_bucket_that_it_is_told() {
    let creation = Creation { multipliers: [MARKED.multipliers[0]; 2], ..Creation::new(4, 3) };
    let mut table = Table::create(vec![0; creation.words().unwrap()], &creation, OrdinaryMemory).unwrap();
    for key in 0..48 {
        table.insert(key.into(), record_of(key)).unwrap();
    }
    table.begin().unwrap();
    let mut steps = vec![];
    for from in [2, 2, 0, 3, 1] {
        let Step { stores, bucket } = table.step_from(from).unwrap();
        steps.push((stores, bucket));
    }
    assert_eq!(steps, [(5, 2), (5, 2), (5, 0), (5, 3), (5, 1)]);
    assert_eq!(table.step_from(4), Err(Refusal::InterimEmpty));
    let mut from = 0;
    while let Ok(step) = table.step_from(from) {
        assert!((from..4).contains(&step.bucket));
        from = step.bucket;
    }
    assert_eq!(table.end(), Ok(1));
    assert!((0..48).all(|key| table.query(key.into()).unwrap().record() == Some(record_of(key))));
}

#[test]
fn refusals_have_the_numbers_1_to_17() {
    let numbers = Refusal::ALL.map(Refusal::number);
    assert_eq!(numbers.to_vec(), (1..=17).collect::<Vec<u64>>());
    assert!([0, 18, u64::MAX].into_iter().all(|number| Refusal::try_from(number).is_err()));
}

#[test]
fn keys_hold_56_bits_of_an_address() {
    let last = (1 << 56) - 1;
    assert_eq!(Key::new(last, 255).map(Key::word), Some(u64::MAX));
    assert_eq!(Key::new(last + 1, 0), None);
    assert_eq!(Key::new(u64::MAX, 0), None);
}
