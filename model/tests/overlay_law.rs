//! The law of request i) of document 02: "With both tables sound, an insert, update or delete of a hidden key in the older
//! table, made whole, changes no record answered for any key; slots and counts of other keys may change."

mod common;
use common::overlay::*;
use common::resizing::*;
use common::*;
use ragansils_model::*;

/// What is answered for a key but for the slot and the count: the number, the table's name and the words of the part.
fn record_answered(newer: &Story, older: &Story, key: u64) -> (u64, u64, Vec<u64>) {
    let Asked { number, name, .. } = asked(&newer.table, &older.table, key);
    (number, name, part(&newer.table, &older.table, key).to_vec())
}

// ---- Cases told by hand.

/// E9 before its last insert, in the older table, and that insert's key in the newer one.
fn before_a_move() -> (Story, Story) {
    let mut newer = Story::with(3, 2, MARKED_1, MARKED_1);
    newer.whole(insert_event(15, 1, 2));
    let mut older = Story::marked();
    older.insert_keys([0, 2, 4, 6, 8]);
    older.whole(Event::Delete { key: 0 });
    older.insert_keys([1, 3, 5, 7, 9, 11, 13]);
    (newer, older)
}

/// All keys of both tables, and some more.
const KEYS_AROUND_A_MOVE: std::ops::RangeInclusive<u64> = 0..=20;

#[test]
fn slots_and_counts_of_other_keys_may_change() {
    let (newer, mut older) = before_a_move();
    // Key 8 has one place in each level of both tables. It stands in the bottom of the older one.
    assert_eq!(ask(&newer.table, &older.table, 8), Answer::found(OLDER, 2 + 2, 10));
    let before: Vec<_> = KEYS_AROUND_A_MOVE.map(|key| record_answered(&newer, &older, key)).collect();
    assert_eq!(older.whole(insert_event(15, 7, 8)).len(), 9);
    // It has moved to the top, and the hidden key stands in its old slot.
    assert_eq!(ask(&newer.table, &older.table, 8), Answer::found(OLDER, 2 + 1, 23));
    assert_eq!(older.query(15), (0, [7, 8, 2, 10, 1]));
    let after: Vec<_> = KEYS_AROUND_A_MOVE.map(|key| record_answered(&newer, &older, key)).collect();
    assert_eq!(after, before);
    assert_eq!(after[8], (0, OLDER, vec![8, 108, 208]));
    assert_eq!(after[15], (0, NEWER, vec![15, 1, 2]));
}

/// Cuts a change of a hidden key in the older table after each number of its stores. Answers how many stores it has and
/// after how many of them every question is refused with 3. All other cuts change no record answered.
fn cuts_that_are_seen(newer: &Story, older: &Story, event: Event) -> (usize, Vec<usize>) {
    let stores = older.list(event).1.len();
    let mut seen = vec![];
    for kept in 0..=stores {
        let mut cut = Story { table: older.table.clone() };
        cut.cut(event, kept);
        let mut recovered = Story { table: cut.table.clone() };
        recovered.whole(Event::Recover);
        let flagged = cut.table[word::FLAG] != 0;
        for key in KEYS_AROUND_A_MOVE {
            let before = record_answered(newer, older, key);
            // Recovery makes the change whole or leaves it unmade.
            assert_eq!(record_answered(newer, &recovered, key), before);
            let told = if flagged { (3, OLDER, vec![]) } else { before };
            assert_eq!(record_answered(newer, &cut, key), told);
        }
        seen.extend(flagged.then_some(kept));
    }
    (stores, seen)
}

/// "made whole" matters for one change only: an update in a full bucket that is cut under its flag.
#[test]
fn of_all_cuts_only_the_flag_is_seen() {
    let (newer, mut older) = before_a_move();
    let (insert, update, delete) =
        (insert_event(15, 7, 8), update_event(15, 9, 10), Event::Delete { key: 15 });
    assert_eq!(cuts_that_are_seen(&newer, &older, insert), (9, vec![]));
    older.whole(insert);
    assert_eq!(cuts_that_are_seen(&newer, &older, update), (7, vec![4, 5, 6]));
    assert_eq!(cuts_that_are_seen(&newer, &older, delete), (1, vec![]));
    // Key 13 stands in the same bucket. Without it the update finds a free slot there, and so does the insert.
    older.whole(Event::Delete { key: 13 });
    assert_eq!(cuts_that_are_seen(&newer, &older, update), (4, vec![]));
    older.whole(delete);
    assert_eq!(cuts_that_are_seen(&newer, &older, insert), (4, vec![]));
}

/// The two tables must be two. A table that is lent twice hides its own keys, and a change is a change of both.
#[test]
fn in_a_table_that_is_lent_twice_a_change_of_a_hidden_key_is_seen() {
    let mut both = Story::marked();
    both.insert_keys([1]);
    assert_eq!(record_answered(&both, &both, 1), (0, NEWER, vec![1, 101, 201]));
    both.whole(update_event(1, 7, 8));
    assert_eq!(record_answered(&both, &both, 1), (0, NEWER, vec![1, 7, 8]));
}

/// The older table must be sound: a move may bring an item from a wrong place to a right one, and then it is answered.
#[test]
fn in_an_unsound_older_table_a_hidden_key_may_show_another() {
    // c = 1: the top is buckets 1 and 2, the bottom bucket 0. All even keys have bucket 1 in the top, all odd keys bucket 2.
    let mut older = Story::with(1, 1, MARKED_1, MARKED_1);
    for slot in 0..4 {
        put(&mut older, 2, slot, [3 + 2 * slot as u64, 5, 6]);
        put(&mut older, 0, slot, [13 + 2 * slot as u64, 5, 6]);
    }
    older.table[36] = 4;
    older.refused(Event::Recover, 12);
    let mut newer = Story::marked();
    newer.insert_keys([1]);
    assert_eq!(ask(&newer.table, &older.table, 4), Answer::refused(5, OLDER, 2 + 2));
    // Key 4 moves to word 23 in bucket 1, and key 1 takes its slot.
    assert_eq!(older.whole(insert_event(1, 7, 8)).len(), 9);
    assert_eq!(ask(&newer.table, &older.table, 4), Answer::found(OLDER, 2 + 1, 23));
}

/// The key must be hidden: any other one is answered from the older table.
#[test]
fn a_key_that_is_not_hidden_is_answered_with_its_new_record() {
    let (newer, mut older) = before_a_move();
    older.whole(update_event(8, 7, 8));
    assert_eq!(record_answered(&newer, &older, 8), (0, OLDER, vec![8, 7, 8]));
    older.whole(Event::Delete { key: 8 });
    assert_eq!(record_answered(&newer, &older, 8), (5, OLDER, vec![]));
}

// ---- Any two sound tables.

/// A sound table of any form, growing, shrinking or at rest.
fn sound_table(mut garbage: impl FnMut() -> u64) -> Story {
    let form = BOTH_FORMS[garbage() as usize % 2];
    let way = BOTH_WAYS[garbage() as usize % 2];
    let c = 2 + garbage() % 3;
    if garbage() % 3 > 0 {
        return crowded_table_in(form, way, c, garbage() % 2 == 0, &mut garbage);
    }
    let mut story = Story::in_form(form, c, 1 + garbage() % c, garbage() | 1, garbage() | 1);
    try_inserts(&mut story, 4 << c, &mut garbage);
    story
}

fn keys_of(story: &Story) -> Vec<u64> {
    map_of(&story.table).into_keys().collect()
}

/// A newer and an older table with many keys in common.
fn sound_pair(mut garbage: impl FnMut() -> u64) -> (Story, Story) {
    let [mut newer, mut older] = [(); 2].map(|_| sound_table(&mut garbage));
    let (newer_keys, older_keys) = (keys_of(&newer), keys_of(&older));
    delete_some(&mut newer, &mut garbage);
    delete_some(&mut older, &mut garbage);
    for (story, keys) in [(&mut newer, older_keys), (&mut older, newer_keys)] {
        for key in keys {
            let event = insert_event(key, garbage(), garbage());
            if garbage() % 2 == 0 && story.list(event).0 == SUCCESS {
                story.whole(event);
            }
        }
        story.assert_sound();
    }
    (newer, older)
}

/// An insert of a hidden key that the older table has not, otherwise an update or delete.
fn change_of(older: &Story, key: u64, mut garbage: impl FnMut() -> u64) -> Event {
    match (older.query(key).0, garbage() % 3) {
        (5, _) => insert_event(key, garbage(), garbage()),
        (_, 0) => Event::Delete { key },
        _ => update_event(key, garbage(), garbage()),
    }
}

/// Each accepted change with its number of stores: an insert with or without a move, an update beside a free slot or under
/// the flag, and a delete. The last one counts other keys whose slot or count has changed.
#[derive(Debug, Default)]
struct Tally {
    inserts: [u32; 2],
    updates: [u32; 2],
    deletes: u32,
    changed_otherwise: u32,
}

impl Tally {
    fn count(&mut self, event: Event, stores: usize) {
        match event {
            Event::Insert { .. } => self.inserts[usize::from(stores == 9)] += 1,
            Event::Update { .. } => self.updates[usize::from(stores == 7)] += 1,
            _ => self.deletes += 1,
        }
    }

    fn assert_all_above(&self, least: u32) {
        let counts = self.inserts.iter().chain(&self.updates).chain([&self.deletes, &self.changed_otherwise]);
        assert!(counts.into_iter().all(|&count| count > least), "{self:?}");
    }

    /// Makes a change of a hidden key on the older table and compares what is answered for all keys.
    fn check(&mut self, newer: &Story, older: &mut Story, event: Event, keys: &[u64]) {
        let before = Story { table: older.table.clone() };
        self.count(event, older.whole(event).len());
        older.assert_sound();
        for &key in keys {
            assert_eq!(record_answered(newer, older, key), record_answered(newer, &before, key), "{event:?}");
            let [told_before, told] = [&before, &*older].map(|older| ask(&newer.table, &older.table, key));
            if told.name == NEWER {
                // Nothing of a hidden key changes, the changed one among them.
                assert_eq!(told, told_before);
            }
            self.changed_otherwise += u32::from(told != told_before);
        }
    }
}

#[test]
fn changes_of_hidden_keys_change_no_record_answered() {
    let mut garbage = garbage_words();
    let mut tally = Tally::default();
    for _ in 0..200 {
        let (newer, mut older) = sound_pair(&mut garbage);
        let hidden = keys_of(&newer);
        let absent = [(); 3].map(|_| garbage());
        let keys = [hidden.clone(), keys_of(&older), absent.to_vec()].concat();
        for _ in 0..12 {
            let key = hidden[garbage() as usize % hidden.len()];
            let event = change_of(&older, key, &mut garbage);
            // An insert may find no place.
            if older.list(event).0 == SUCCESS {
                tally.check(&newer, &mut older, event, &keys);
            }
        }
    }
    tally.assert_all_above(15);
}
