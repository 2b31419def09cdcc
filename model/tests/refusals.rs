//! Each refusal number, who gives it, and in which order.

mod common;
use common::*;
use ragansils_model::*;

const EVENTS: [Event; 11] = [
    Event::Insert { key: 1, function: 2, place: 3 },
    Event::Update { key: 1, function: 2, place: 3 },
    Event::Delete { key: 1 },
    Event::Begin,
    Event::Shrink,
    Event::Back,
    Event::Step,
    Event::StepFrom { from: 0 },
    Event::StepFrom { from: u64::MAX },
    Event::End,
    Event::Recover,
];

/// Two tables are asked: it is the newer one, then the older one.
fn refused_beside_a_good_table(table: &[u64], number: u64) {
    let good = Story::marked().table;
    assert_eq!(asked(table, &good, 1), Asked { number, name: 0, buckets: 0 });
    assert_eq!(asked(&good, table, 1), Asked { number, name: 1, buckets: 0 });
    assert!(part(table, &good, 1).is_empty() && part(&good, table, 1).is_empty());
}

fn every_call_refuses_with_1(table: &[u64]) {
    assert_eq!(query(table, 1), (1, [0; 5]));
    assert_eq!(chain(table, 0, 1, &mut [UNTOUCHED; 4]), (1, 0));
    refused_beside_a_good_table(table, 1);
    // Also into a second table that is too short: 1 comes before 13.
    for second_words in [table.len(), table.len() / 2] {
        let mut second = vec![UNTOUCHED; second_words];
        assert_eq!(convert(table, &mut second), (1, 0));
        assert_eq!(second, vec![UNTOUCHED; second_words]);
    }
    for event in EVENTS {
        // Also with a list that is too short: 1 comes before 2.
        for list_words in [0, 19, 20] {
            let mut list = vec![UNTOUCHED; list_words];
            assert_eq!(event.list_stores(table, &mut list), (1, 0), "{event:?}");
            assert_eq!(list, vec![UNTOUCHED; list_words]);
        }
    }
}

#[test]
fn one_for_bad_words() {
    let bad_words: [(usize, &[u64]); 5] = [
        (word::FORM, &[0, 3, 1 << 63, u64::MAX]),
        (word::CAPACITY, &[0, 1, 3, 21, 64, u64::MAX]),
        (word::MULTIPLIER_1, &[0, 2, u64::MAX - 1]),
        (word::MULTIPLIER_2, &[0, 2, u64::MAX - 1]),
        (word::STATE, &[0, 3, 256, 257, 259, 512, 514, 515, 768, 769, 770, 1 << 32 | 1, u64::MAX]),
    ];
    for (index, values) in bad_words {
        for &value in values {
            let mut story = Story::marked();
            story.table[word::FLAG] = 1; // 1 comes before 3
            story.table[index] = value;
            every_call_refuses_with_1(&story.table);
        }
    }
}

#[test]
fn one_for_bad_lengths() {
    let mut table = Story::marked().table;
    table.push(0);
    every_call_refuses_with_1(&table);
    for length in (0..100).rev() {
        table.truncate(length);
        every_call_refuses_with_1(&table);
    }
}

#[test]
fn good_states_are_taken() {
    for state in [1, 2, 258, 513] {
        let mut story = Story::marked();
        story.table[word::STATE] = state;
        assert_eq!(story.query(1).0, 5);
    }
}

#[test]
fn two_before_three() {
    let mut table = Story::marked().table;
    table[word::FLAG] = 2;
    for event in EVENTS {
        for list_words in 0..LEAST_LIST_WORDS {
            assert_eq!(event.list_stores(&table, &mut vec![0; list_words]), (2, 0));
        }
    }
}

#[test]
fn three_for_any_flag() {
    for flag in [1, 2, 256, u64::MAX] {
        let mut story = Story::marked();
        story.table[word::FLAG] = flag;
        assert_eq!(story.query(1), (3, [0; 5]));
        assert_eq!(story.chain(0, 1, 4), (3, 0, vec![UNTOUCHED; 4]));
        refused_beside_a_good_table(&story.table, 3);
        for event in EVENTS {
            // Recovery judges the flag itself: word 6 names no slot here.
            story.refused(event, if event == Event::Recover { 12 } else { 3 });
        }
    }
}

#[test]
fn four_before_six_and_five() {
    let mut story = Story::marked();
    story.insert_keys((1..=15).step_by(2));
    story.refused(insert_event(15, 0, 0), 4);
    story.refused(insert_event(17, 0, 0), 6);
    story.refused(update_event(17, 0, 0), 5);
    story.refused(Event::Delete { key: 17 }, 5);
}

#[test]
fn growth_refusals() {
    let mut story = Story::marked();
    story.insert_keys((1..=9).step_by(2));
    story.refused(Event::Step, 8);
    story.refused(Event::End, 8);
    story.whole(Event::Begin);
    story.refused(Event::Begin, 7); // before 9, though k = c
    story.refused(Event::End, 10);
    story.whole(Event::Step);
    story.refused(Event::Step, 11);
    assert_eq!(story.whole(Event::End), [(4, 2)]);
    story.refused(Event::Begin, 9);
}

#[test]
fn thirteen_changes_nothing() {
    let good = |form, c, k, mul1, mul2, words: usize| {
        let mut table = vec![UNTOUCHED; words];
        let number = create(&mut table, form, c, k, mul1, mul2);
        let unchanged = table.iter().all(|&word| word == UNTOUCHED);
        assert_eq!(unchanged, number == 13);
        assert!(unchanged || table[word::FORM] == form);
        number == 0
    };
    for form in BOTH_FORMS {
        assert!(good(form, 1, 1, 1, 1, 48));
        assert!(good(form, 2, 2, u64::MAX, 3, 100));
        assert!(!good(form, 0, 0, 1, 1, 22));
        assert!(!good(form, 0, 1, 1, 1, 22));
        assert!(!good(form, 21, 1, 1, 1, 48));
        assert!(!good(form, u64::MAX, 1, 1, 1, 48));
        assert!(!good(form, 2, 0, 1, 1, 100));
        assert!(!good(form, 2, 3, 1, 1, 100));
        assert!(!good(form, 2, 1, 2, 1, 100));
        assert!(!good(form, 2, 1, 1, 0, 100));
        assert!(!good(form, 2, 1, 1, 1, 99));
        assert!(!good(form, 2, 1, 1, 1, 101));
        assert!(!good(form, 2, 1, 1, 1, 0));
    }
    for form in [0, 3, 256 + 1, (1 << 32) + 2, 1 << 63, u64::MAX] {
        assert!(!good(form, 2, 1, 1, 1, 100));
    }
}

#[test]
fn fourteen_changes_nothing() {
    let refused = |list: &[u64], n| {
        let mut table = [7, 7];
        assert_eq!(make(&mut table, list, n), 14);
        assert_eq!(table, [7, 7]);
    };
    refused(&[], 1);
    refused(&[0], 1);
    refused(&[0, 1, 0], 2);
    refused(&[0, 1], u64::MAX);
    refused(&[0, 1], 1 << 63);
    refused(&[0, 1, 2, 1], 2);
    refused(&[0, 1, u64::MAX, 1], 2);
}

#[test]
fn make_makes_the_first_n_in_order() {
    let mut table = [7, 7];
    assert_eq!(make(&mut table, &[1, 3, 1, 4, 9, 9], 2), 0);
    assert_eq!(table, [7, 4]);
    assert_eq!(make(&mut table, &[9, 9], 0), 0);
    assert_eq!(make(&mut [], &[], 0), 0);
    assert_eq!(table, [7, 4]);
}

#[test]
fn table_lengths() {
    assert_eq!([1, 2, 8].map(table_words), [Some(48), Some(100), Some(6652)]);
    assert_eq!([0, 21, u64::MAX].map(table_words), [None; 3]);
    assert!(table_words(20).is_some());
}
