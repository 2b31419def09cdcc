//! How full a table becomes with the multipliers that the crate names, and with small ones. The figures stand in the documentation of
//! `MULTIPLIER_1` and in include/ragansils.h.

use ragansils::{Creation, Form, Key, OrdinaryMemory, Record, Refusal, Table, MULTIPLIER_1, MULTIPLIER_2};

const NAMED: [u64; 2] = [MULTIPLIER_1, MULTIPLIER_2];
const SMALL: [u64; 2] = [3, 5];

fn address_key(number: u64) -> Key {
    Key::new(0x5555_0000_1000 + 4 * number, 0).unwrap()
}

fn far_key(number: u64) -> Key {
    Key::new(0x1000 + (number << 32), 0).unwrap()
}

/// How many keys a table with a top of 2^c buckets takes before the first refusal 6, and how many slots it has.
fn taken_and_slots(form: Form, c: u64, multipliers: [u64; 2], key: fn(u64) -> Key) -> (u64, u64) {
    let creation = Creation { form, multipliers, ..Creation::new(c, c) };
    let mut table = Table::create(vec![0; creation.words().unwrap()], &creation, OrdinaryMemory).unwrap();
    let mut insert = |number| table.insert(key(number), Record { function: number, place: 0 });
    let taken = (0..).find(|&number| insert(number) == Err(Refusal::NoPlace)).unwrap();
    (taken, 4 * ((1 << c) + (1 << (c - 1))))
}

fn filled(form: Form, multipliers: [u64; 2], key: fn(u64) -> Key) -> [(u64, u64); 3] {
    [2, 8, 14].map(|c| taken_and_slots(form, c, multipliers, key))
}

#[test]
fn the_named_multipliers_fill_a_table_with_keys_of_addresses() {
    assert_eq!(filled(Form::One, NAMED, address_key), [(24, 24), (1519, 1536), (95188, 98304)]);
    assert_eq!(filled(Form::Two, NAMED, address_key), [(24, 24), (1517, 1536), (94529, 98304)]);
}

/// These keys differ in bits 40 and up alone, which form 1 does not look at in a table with a top of 2^8 buckets or fewer.
#[test]
fn form_2_takes_keys_of_addresses_that_are_far_apart() {
    assert_eq!(filled(Form::One, NAMED, far_key), [(16, 24), (16, 1536), (768, 98304)]);
    assert_eq!(filled(Form::Two, NAMED, far_key), [(24, 24), (1519, 1536), (93600, 98304)]);
}

#[test]
fn and_with_small_keys() {
    for form in Form::ALL {
        assert_eq!(filled(form, NAMED, Key::from), [(24, 24), (1430, 1536), (92280, 98304)]);
    }
}

#[test]
fn small_multipliers_do_not() {
    for form in Form::ALL {
        assert_eq!(filled(form, SMALL, Key::from), [(8, 24), (8, 1536), (8, 98304)]);
    }
}
