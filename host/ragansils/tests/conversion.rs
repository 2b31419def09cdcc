//! Conversion to the other form, over lent words: what the second table holds, and what is refused.

mod crowded;

use crowded::{crowding_keys, LAST, MARKED};
use ragansils::{calls, Creation, Form, Key, OrdinaryMemory, Record, Refusal, Table, Unconverted};

/// What words hold that nothing has written.
const UNTOUCHED: u64 = 0x5a5a_0bad_0bad_a5a5;
/// Words of the header.
const FORM: usize = 0;
const STATE: usize = 4;
const FLAG: usize = 5;

type OwnTable = Table<Vec<u64>, OrdinaryMemory>;

fn created(creation: &Creation) -> OwnTable {
    Table::create(vec![0; creation.words().unwrap()], creation, OrdinaryMemory).unwrap()
}

fn record_of(key: Key) -> Record {
    Record { function: key.word() + 1, place: !key.word() }
}

fn filled(creation: &Creation, keys: &[Key]) -> OwnTable {
    let mut table = created(creation);
    for &key in keys {
        table.insert(key, record_of(key)).unwrap();
    }
    table
}

/// Far apart and close together, with several depths.
fn keys() -> Vec<Key> {
    let addresses = (0..100).map(|number| 0x5555_0000_1000 + 4 * number + ((number % 7) << 40));
    addresses.flat_map(|address| (0..3).map(move |depth| Key::new(address, depth).unwrap())).collect()
}

fn untouched(words: usize) -> Vec<u64> {
    vec![UNTOUCHED; words]
}

#[test]
fn a_converted_table_has_the_same_items_in_the_other_form() {
    let keys = keys();
    for form in Form::ALL {
        let creation = Creation { form, ..Creation::new(8, 6) };
        let table = filled(&creation, &keys);
        let before = table.words().to_vec();
        let second = table.convert(untouched(before.len()), OrdinaryMemory).unwrap();
        assert_eq!(table.words(), before);
        assert_eq!(second.form(), Ok(form.other()));
        assert_eq!(second.words()[FORM + 1..9], before[FORM + 1..9]);
        assert_eq!(calls::recover(second.words()).unwrap().count(), 0);
        for &key in &keys {
            assert_eq!(second.query(key).unwrap().record(), Some(record_of(key)), "{form}, {key}");
        }
        assert_eq!(second.query(1.into()).unwrap().record(), None);
    }
}

/// A converted table lives on as any other; and back in the form that it came from, it has what was changed meanwhile.
#[test]
fn a_converted_table_is_changed_grown_and_converted_back() {
    let keys = keys();
    for form in Form::ALL {
        let table = filled(&Creation { form, ..Creation::new(8, 6) }, &keys);
        let mut second = table.convert(untouched(table.words().len()), OrdinaryMemory).unwrap();
        second.delete(keys[0]).unwrap();
        second.update(keys[1], Record::default()).unwrap();
        assert_eq!(second.grow(u64::MAX), Ok(true));
        let third = second.convert(untouched(table.words().len()), OrdinaryMemory).unwrap();
        assert_eq!((third.form(), third.words()[STATE]), (Ok(form), 7));
        assert_eq!(third.query(keys[0]).unwrap().record(), None);
        assert_eq!(third.query(keys[1]).unwrap().record(), Some(Record::default()));
        for &key in &keys[2..] {
            assert_eq!(third.query(key).unwrap().record(), Some(record_of(key)), "{form}, {key}");
        }
    }
}

#[test]
fn an_empty_table_is_converted_to_a_created_one() {
    for form in Form::ALL {
        let creation = Creation { form, ..MARKED };
        let second = created(&creation).convert(untouched(100), OrdinaryMemory).unwrap();
        assert_eq!(second.words(), created(&Creation { form: form.other(), ..creation }).words());
    }
}

/// The refusal of a table with some words changed, into so many words, which stay.
fn refused(changes: &[(usize, u64)], second_words: usize) -> Unconverted {
    let mut words = filled(&MARKED, &[1, 3, 5, 7, 9].map(Key::from)).into_parts().0;
    for &(index, value) in changes {
        words[index] = value;
    }
    let mut second = untouched(second_words);
    let refused = calls::convert(&words, &mut second).unwrap_err();
    assert_eq!(second, untouched(second_words), "{refused}");
    refused
}

#[test]
fn what_cannot_be_converted_is_refused_in_order_and_changes_nothing() {
    let growing = (STATE, 256 + 2);
    let shrinking = (STATE, 512 + 1);
    assert_eq!(refused(&[(FORM, 3), (FLAG, 1), growing], 99), Unconverted::BadHeader);
    // An update that was cut, for which other calls have a refusal of its own.
    assert_eq!(refused(&[(FLAG, 1), (6, 36), growing], 99), Unconverted::NotSound);
    assert_eq!(refused(&[(FLAG, 2)], 100), Unconverted::NotSound);
    // A key that stands twice, as a cut may leave it, and one that stands in a wrong place.
    assert_eq!(refused(&[(39, 1), (40, 2), (41, !1)], 100), Unconverted::NotSound);
    assert_eq!(refused(&[(36, 2)], 100), Unconverted::NotSound);
    assert_eq!(refused(&[growing], 99), Unconverted::Resizing);
    assert_eq!(refused(&[shrinking], 100), Unconverted::Resizing);
    for length in [0, 48, 99, 101, 204] {
        assert_eq!(refused(&[], length), Unconverted::OtherLength);
    }
}

#[test]
fn an_item_without_a_place_is_told_and_the_second_table_left_empty() {
    for form in Form::ALL {
        let creation = Creation { form, ..MARKED };
        let keys = crowding_keys(form);
        let mut table = filled(&creation, &keys);
        let mut second = untouched(100);
        let refused = table.convert(second.as_mut_slice(), OrdinaryMemory).map(drop);
        assert_eq!(refused, Err(Unconverted::NoPlace(keys[LAST])));
        assert_eq!(second, created(&Creation { form: form.other(), ..creation }).words());

        // Either way out makes room.
        let mut smaller = Table::open(table.words().to_vec(), OrdinaryMemory).unwrap();
        smaller.delete(keys[0]).unwrap();
        assert!(smaller.convert(untouched(100), OrdinaryMemory).is_ok());
        assert_eq!(table.grow(u64::MAX), Ok(true));
        let larger = table.convert(untouched(100), OrdinaryMemory).unwrap();
        assert!(keys.iter().all(|&key| larger.query(key).unwrap().record() == Some(record_of(key))));
    }
}

#[test]
fn refusals_have_their_numbers_and_words() {
    let key = Key::new(0x1040, 2).unwrap();
    let told = [
        (
            Unconverted::BadHeader,
            1,
            "length, form, capacity exponent, multipliers or state are bad (refusal 1)",
        ),
        (Unconverted::NotSound, 12, "the table is not sound (refusal 12)"),
        (Unconverted::Resizing, 7, "the table is growing or shrinking (refusal 7)"),
        (Unconverted::OtherLength, 13, "the second table has another length (refusal 13)"),
        (
            Unconverted::NoPlace(key),
            6,
            "key 1064962 (address 0x1040, depth 2) has no place in the other form (refusal 6)",
        ),
    ];
    for (refused, number, words) in told {
        assert_eq!(
            (refused.refusal(), refused.to_string().as_str()),
            (Refusal::try_from(number).unwrap(), words)
        );
    }
}
