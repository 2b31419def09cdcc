//! A shrink for which there is no room is stuck, loses nothing, and is left in three ways: it is turned back, something is deleted, or other
//! work goes on.

use super::*;

/// The words of a shrink that is stuck, with its keys: more than the smaller table has slots.
fn stuck(k: u64) -> (OwnTable, Vec<u64>) {
    let (words, keys) = filled_of(Form::default(), k, k, 8);
    assert!(keys.len() > 6 << (k - 1));
    let mut table = opened(&words);
    assert_eq!(table.shrink(ENOUGH), Err(Refusal::NoPlace));
    assert_eq!((table.phase(), table.end()), (Ok(Phase::Shrinking), Err(Refusal::InterimTaken)));
    assert!(holds(table.words(), &keys));
    (table, keys)
}

#[test]
fn a_stuck_shrink_is_turned_back() {
    for k in 2..=9 {
        for turn in [Table::back, |table: &mut OwnTable| table.grow_on().map(|_| 1)] {
            let (mut table, keys) = stuck(k);
            assert_eq!((turn(&mut table), table.phase()), (Ok(1), Ok(Phase::Growing)));
            assert_eq!(table.grow(ENOUGH), Ok(true), "k = {k}");
            assert_eq!((table.phase(), table.words()[4]), (Ok(Phase::AtRest), k));
            assert!(holds(table.words(), &keys));
        }
    }
}

/// A level is unloaded: two of three keys go, and what is left has room.
#[test]
fn a_stuck_shrink_goes_on_once_keys_are_deleted() {
    for k in 2..=9 {
        let (mut table, mut keys) = stuck(k);
        let kept = keys.split_off(2 * keys.len() / 3);
        for key in keys {
            table.delete(key.into()).unwrap();
        }
        assert_eq!(table.shrink(ENOUGH), Ok(true), "k = {k}");
        assert_eq!((table.phase(), table.words()[4]), (Ok(Phase::AtRest), k - 1));
        assert!(holds(table.words(), &kept));
    }
}

/// A delete makes room for an item at a time, wherever the hint was.
#[test]
fn a_stuck_shrink_goes_on_with_each_delete() {
    let (mut table, mut keys) = stuck(4);
    let mut moved = 0;
    while table.phase() == Ok(Phase::Shrinking) {
        match table.shrink_on() {
            Ok(Part::Moved) => moved += 1,
            Ok(part) => assert_eq!(part, Part::Ended),
            Err(refusal) => {
                assert_eq!((refusal, table.interim_hint), (Refusal::NoPlace, 0));
                let deleted = keys.remove(0);
                table.delete(deleted.into()).unwrap();
            }
        }
        assert!(holds(table.words(), &keys));
    }
    assert!(moved > 0 && keys.len() <= 6 << 3);
}

/// Whatever the hint is, a part of a stuck shrink is refused and changes nothing, and all else works.
#[test]
fn a_stuck_shrink_lets_other_work_go_on() {
    for k in 2..=6 {
        let (mut table, keys) = stuck(k);
        for hint in hints(1 << k) {
            let words = table.words().to_vec();
            table.interim_hint = hint;
            assert_eq!((table.shrink_on(), table.words()), (Err(Refusal::NoPlace), words.as_slice()));
        }
        for &key in &keys {
            table.update(key.into(), record_of(key + 1)).unwrap();
            assert_eq!(table.query(key.into()).unwrap().record(), Some(record_of(key + 1)));
        }
        assert_eq!(calls::recover(table.words()).unwrap().count(), 0);
        table.delete(keys[0].into()).unwrap();
        assert_eq!(table.query(keys[0].into()).unwrap().record(), None);
    }
}

/// An insert that has no place while the table shrinks finds one by parts of a growth, as at rest: the first of them turns back.
#[test]
fn an_insert_without_a_place_lets_a_shrink_grow_again() {
    for k in 2..=8 {
        let (mut table, mut keys) = stuck(k);
        let (mut refused, mut turned) = (0, 0);
        for key in 1..=6 << (k - 2) {
            while table.insert(key.into(), record_of(key)) == Err(Refusal::NoPlace) {
                refused += 1;
                turned += u64::from(table.grow_on().unwrap() == Part::Turned);
            }
            keys.push(key);
        }
        assert!(refused > 0 && turned == 1, "k = {k}: {refused} refused, {turned} turned back");
        assert!(holds(table.words(), &keys));
    }
}
