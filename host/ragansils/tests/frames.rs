//! The frames at an address: their order, a depth that is missing, and what is refused.

use std::panic::{catch_unwind, resume_unwind, AssertUnwindSafe};

use ragansils::{calls, Creation, Form, Key, OrdinaryMemory, Part, Phase, Record, Refusal, Table};

/// A table that takes all 256 depths of an address, some of them in its bottom level, and can grow.
const CREATION: Creation = Creation::new(7, 6);
const ADDRESS: u64 = 0x5555_0000_1040;
const LAST_ADDRESS: u64 = (1 << 56) - 1;
/// No record of these tables.
const OTHER: Record = Record { function: 77, place: 88 };
/// The word that is not 0 while an update is under way.
const FLAG: usize = 5;

type OwnTable = Table<Vec<u64>, OrdinaryMemory>;

fn key_of(address: u64, depth: u8) -> Key {
    Key::new(address, depth).unwrap()
}

/// Another function and another place at each depth.
fn record_of(address: u64, depth: u8) -> Record {
    Record { function: address + 1000 * u64::from(depth), place: 7 * u64::from(depth) + 1 }
}

fn table_with(address: u64, depths: impl IntoIterator<Item = u8>) -> OwnTable {
    new_table(&CREATION, address, depths)
}

fn new_table(creation: &Creation, address: u64, depths: impl IntoIterator<Item = u8>) -> OwnTable {
    let words = vec![0; creation.words().unwrap()];
    let mut table = Table::create(words, creation, OrdinaryMemory).unwrap();
    for depth in depths {
        table.insert(key_of(address, depth), record_of(address, depth)).unwrap();
    }
    table
}

fn records_from(address: u64, depth: u8) -> Vec<Record> {
    (0..=depth).rev().map(|depth| record_of(address, depth)).collect()
}

/// The buckets that queries look at, of one depth after the other down to the last that is asked for.
fn buckets_of_queries(table: &OwnTable, address: u64, first: u8, last: u8) -> u64 {
    let looked_at = |depth| table.query(key_of(address, depth)).unwrap().buckets;
    (last..=first).map(looked_at).sum()
}

#[test]
fn frames_come_from_each_depth_down_to_0() {
    for form in Form::ALL {
        let table = new_table(&Creation { form, ..CREATION }, ADDRESS, 0..=255);
        for depth in 0..=255 {
            let frames = table.frames(ADDRESS, depth).unwrap();
            assert_eq!(frames.records(), records_from(ADDRESS, depth));
            assert_eq!(frames.buckets(), buckets_of_queries(&table, ADDRESS, depth, 0));
        }
    }
}

#[test]
fn frames_are_iterated_by_reference_and_by_value() {
    let frames = table_with(ADDRESS, 0..5).frames(ADDRESS, 4).unwrap();
    let by_reference: Vec<Record> = (&frames).into_iter().copied().collect();
    assert_eq!(by_reference, records_from(ADDRESS, 4));
    assert_eq!(frames.into_iter().collect::<Vec<_>>(), by_reference);
}

#[test]
fn only_the_frames_are_shown() {
    let frames = table_with(ADDRESS, [0]).frames(ADDRESS, 0).unwrap();
    let shown = format!("{frames:?}");
    let Record { function, place } = record_of(ADDRESS, 0);
    let records = format!("[Record {{ function: {function}, place: {place} }}]");
    assert_eq!(shown, format!("Frames {{ records: {records}, buckets: {} }}", frames.buckets()));
}

#[test]
fn depths_above_the_one_asked_for_do_not_matter() {
    let table = table_with(ADDRESS, [0, 1, 2, 9]);
    assert_eq!(table.frames(ADDRESS, 2).unwrap().records(), records_from(ADDRESS, 2));
}

/// The depth that is asked for, one in the middle, and 0; buckets are counted down to it, its own among them.
#[test]
fn a_missing_depth_refuses() {
    for missing in [20, 11, 1, 0] {
        let mut table = table_with(ADDRESS, 0..=20);
        table.delete(key_of(ADDRESS, missing)).unwrap();
        assert_eq!(table.frames(ADDRESS, 20), Err(Refusal::KeyAbsent), "without depth {missing}");
        let mut lent = [OTHER; 21];
        let chain = calls::chain(table.words(), ADDRESS, 20, &mut lent);
        assert_eq!(chain.records, Err(Refusal::KeyAbsent));
        assert_eq!(chain.buckets, buckets_of_queries(&table, ADDRESS, 20, missing));
        assert_eq!(lent, [OTHER; 21]);
    }
}

#[test]
fn the_first_of_two_missing_depths_ends_it() {
    let table = table_with(ADDRESS, [0, 1, 3, 5, 6]);
    let chain = calls::chain(table.words(), ADDRESS, 6, &mut [OTHER; 7]).buckets;
    assert_eq!(chain, buckets_of_queries(&table, ADDRESS, 6, 4));
}

#[test]
fn another_address_has_no_frames() {
    let table = table_with(ADDRESS, 0..5);
    for address in [0, ADDRESS - 1, ADDRESS + 1, LAST_ADDRESS] {
        assert_eq!(table.frames(address, 4), Err(Refusal::KeyAbsent));
    }
}

#[test]
fn the_last_address_has_all_depths() {
    let table = table_with(LAST_ADDRESS, 0..=255);
    assert_eq!(table.frames(LAST_ADDRESS, 255).unwrap().records(), records_from(LAST_ADDRESS, 255));
}

#[test]
fn an_address_of_more_than_56_bits_is_refused() {
    // The key of address 2^56 would be that of address 0.
    let table = table_with(0, 0..5);
    for address in [LAST_ADDRESS + 1, u64::MAX] {
        assert_eq!(table.frames(address, 4), Err(Refusal::BadPosition));
    }
}

#[test]
fn frames_stay_while_the_table_grows_and_shrinks_and_look_at_few_buckets() {
    let mut table = table_with(ADDRESS, 0..=255);
    frames_stay(&mut table, Table::grow_on);
    frames_stay(&mut table, Table::shrink_on);
}

fn frames_stay(table: &mut OwnTable, part: fn(&mut OwnTable) -> Result<Part, Refusal>) {
    let mut parts = vec![];
    while parts.last() != Some(&Part::Ended) {
        let frames = table.frames(ADDRESS, 255).unwrap();
        assert_eq!(frames.records(), records_from(ADDRESS, 255));
        assert_eq!(frames.buckets(), buckets_of_queries(table, ADDRESS, 255, 0));
        let most = if table.phase() == Ok(Phase::AtRest) { 4 * 256 } else { 6 * 256 };
        assert!((256..=most).contains(&frames.buckets()));
        parts.push(part(table).unwrap());
        assert_ne!(parts.last(), Some(&Part::Turned));
    }
    assert!(parts.contains(&Part::Moved));
    assert_eq!(table.frames(ADDRESS, 255).unwrap().records(), records_from(ADDRESS, 255));
}

#[test]
fn lent_records_behind_the_frames_stay() {
    let table = table_with(ADDRESS, 0..=20);
    let mut lent = [OTHER; 8];
    let chain = calls::chain(table.words(), ADDRESS, 4, &mut lent);
    assert_eq!(chain.records.unwrap(), records_from(ADDRESS, 4));
    assert_eq!(chain.buckets, buckets_of_queries(&table, ADDRESS, 4, 0));
    assert_eq!(lent[..5], records_from(ADDRESS, 4));
    assert_eq!(lent[5..], [OTHER; 3]);
}

/// Why a chain with so many lent records is refused.
fn refused(words: &[u64], address: u64, depth: u64, lent: usize) -> Refusal {
    let mut records = vec![OTHER; lent];
    let chain = calls::chain(words, address, depth, &mut records);
    assert_eq!(chain.buckets, 0);
    let refusal = chain.records.unwrap_err();
    assert!(records.iter().all(|&record| record == OTHER), "a refusal leaves what is lent: {refusal}");
    refusal
}

/// Each call would meet all later refusals too.
#[test]
fn refusals_come_in_order() {
    let sound = table_with(ADDRESS, [0]).into_parts().0;
    let mut flagged = sound.clone();
    flagged[FLAG] = 1;
    let mut bad_and_flagged = flagged.clone();
    bad_and_flagged[0] = 0;
    assert_eq!(refused(&bad_and_flagged, LAST_ADDRESS + 1, 256, 0), Refusal::BadHeader);
    assert_eq!(refused(&flagged, LAST_ADDRESS + 1, 256, 0), Refusal::FlagSet);
    assert_eq!(refused(&sound, LAST_ADDRESS + 1, 4, 0), Refusal::BadPosition);
    assert_eq!(refused(&sound, ADDRESS, 256, 0), Refusal::BadPosition);
    assert_eq!(refused(&sound, ADDRESS, 4, 4), Refusal::ShortRecords);
}

#[test]
fn no_depth_is_above_255_however_many_records_are_lent() {
    let sound = table_with(ADDRESS, [0]).into_parts().0;
    for depth in [256, 1 << 32, u64::MAX - 1, u64::MAX] {
        assert_eq!(refused(&sound, ADDRESS, depth, 600), Refusal::BadPosition);
    }
}

#[test]
fn just_enough_records_are_enough() {
    let table = table_with(ADDRESS, 0..=255);
    for depth in [0, 1, 20, 255] {
        let records = usize::from(depth) + 1;
        assert_eq!(refused(table.words(), ADDRESS, depth.into(), records - 1), Refusal::ShortRecords);
        let mut lent = vec![OTHER; records];
        let chain = calls::chain(table.words(), ADDRESS, depth.into(), &mut lent);
        assert_eq!(chain.records.unwrap(), records_from(ADDRESS, depth));
    }
}

/// The platform's act panics in the middle of an update, and the table lives on.
#[test]
fn frames_wait_for_the_recovery_of_a_cut_update() {
    // With these multipliers the odd keys fill one bucket, so that an update of one of them is logged: seven stores.
    let creation = Creation { multipliers: [4294967297, 12884901889], ..Creation::new(2, 1) };
    let table = new_table(&creation, 0, [0, 1, 3, 5, 7]);
    let mut stores = 0;
    let cut_after_five = |_: &u64| {
        stores += 1;
        if stores == 5 {
            // No message, unlike panic!: this one is meant.
            resume_unwind(Box::new("cut"));
        }
    };
    let mut table = Table::open(table.into_parts().0, cut_after_five).unwrap();
    let cut = catch_unwind(AssertUnwindSafe(|| table.update(key_of(0, 1), OTHER)));
    assert!(cut.is_err());
    assert_eq!(table.frames(0, 1), Err(Refusal::FlagSet));
    table.recover().unwrap();
    assert_eq!(table.frames(0, 1).unwrap().records(), [OTHER, record_of(0, 0)]);
}
