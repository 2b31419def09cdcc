//! Growing and shrinking part by part: a part answers as a step from the first bucket on would, whatever the hint is; all parts go through
//! the interim level once, and once more to see that nothing is left to move.

mod cuts;
mod stuck_shrinks;

use std::cell::Cell;
use std::collections::HashMap;
use std::ops::Range;
use std::panic::{catch_unwind, resume_unwind, AssertUnwindSafe};
use std::rc::Rc;

use super::*;
use crate::{Creation, Form, Key, Level, OrdinaryMemory, Record, MULTIPLIER_1};

type OwnTable = Table<Vec<u64>, OrdinaryMemory>;

fn record_of(key: u64) -> Record {
    Record { function: 100 + key, place: 200 + key }
}

fn created(creation: &Creation) -> OwnTable {
    Table::create(vec![0; creation.words().unwrap()], creation, OrdinaryMemory).unwrap()
}

fn opened(words: &[u64]) -> OwnTable {
    Table::open(words.to_vec(), OrdinaryMemory).unwrap()
}

fn holds(words: &[u64], keys: &[u64]) -> bool {
    let has = |&key: &u64| calls::query(words, key.into()).unwrap().record() == Some(record_of(key));
    keys.iter().all(has)
}

/// The two ways to resize.
#[derive(Clone, Copy, Debug)]
enum Way {
    Grow,
    Shrink,
}

impl Way {
    fn begin(self, table: &mut Table<Vec<u64>, impl Platform>) -> Result<u64, Refusal> {
        match self {
            Way::Grow => table.begin(),
            Way::Shrink => table.begin_shrink(),
        }
    }

    fn part(self, table: &mut Table<Vec<u64>, impl Platform>) -> Result<Part, Refusal> {
        match self {
            Way::Grow => table.grow_on(),
            Way::Shrink => table.shrink_on(),
        }
    }

    fn whole(self, table: &mut Table<Vec<u64>, impl Platform>) -> Result<bool, Refusal> {
        match self {
            Way::Grow => table.grow(ENOUGH),
            Way::Shrink => table.shrink(ENOUGH),
        }
    }

    /// A table of 2^k top buckets from which it begins, with so many tenths of its slots taken.
    fn from(self, form: Form, k: u64, tenths: u64) -> (Vec<u64>, Vec<u64>) {
        match self {
            Way::Grow => filled_of(form, k + 1, k, tenths),
            Way::Shrink => filled_of(form, k, k, tenths),
        }
    }

    /// Tenths that are taken before it, so that it comes to its end.
    fn tenths(self) -> [u64; 3] {
        match self {
            Way::Grow => [5, 8, 10],
            Way::Shrink => [1, 2, 3],
        }
    }

    /// The buckets of its interim level, where it began at so many top buckets.
    fn interim_buckets(self, top_buckets: u64) -> u64 {
        match self {
            Way::Grow => top_buckets / 2,
            Way::Shrink => top_buckets,
        }
    }

    /// The bound on all its stores, 20N + 2 or 40N + 2.
    fn most_stores(self, top_buckets: u64) -> u64 {
        40 * self.interim_buckets(top_buckets) + 2
    }
}

const WAYS: [Way; 2] = [Way::Grow, Way::Shrink];

/// More parts than any of these tables has: a driver that only turns back and forth does not come to its end.
const ENOUGH: u64 = 10_000;

/// The words of a table before its last growth, and its keys.
fn filled(c: u64, tenths: u64) -> (Vec<u64>, Vec<u64>) {
    filled_of(Form::default(), c, c - 1, tenths)
}

/// The words of a table of N = 2^k top buckets, with so many tenths of its slots taken or as many as it takes; and its keys.
fn filled_of(form: Form, c: u64, k: u64, tenths: u64) -> (Vec<u64>, Vec<u64>) {
    let creation = Creation { form, ..Creation::new(c, k) };
    let mut table = created(&creation);
    let slots = 6 << k;
    let keys =
        (0..slots * tenths / 10).map(|number| Key::new(0x5555_0000_1000 + 4 * number, 0).unwrap().word());
    let keys = keys.take_while(|&key| table.insert(key.into(), record_of(key)).is_ok()).collect();
    (table.into_parts().0, keys)
}

/// A growing table in which some interim buckets have no item with a place: the story of request b) of document 02. Both multipliers are
/// alike, so that a key has one place in a level of M buckets: its remainder by M.
struct Blocked {
    table: OwnTable,
    /// M, a power of two: the top has four times as many, and the bottom twice.
    interim_buckets: u64,
    stuck_buckets: Range<u64>,
}

impl Blocked {
    fn new(interim_buckets: u64, stuck_buckets: Range<u64>) -> Blocked {
        let first_top = u64::from(interim_buckets.trailing_zeros()) + 1;
        let creation = Creation { multipliers: [4294967297; 2], ..Creation::new(first_top + 1, first_top) };
        let mut blocked = Blocked { table: created(&creation), interim_buckets, stuck_buckets };
        blocked.insert(blocked.keys_at_rest());
        assert_eq!(blocked.table.grow_on(), Ok(Part::Begun));
        blocked.insert(blocked.later_keys());
        blocked
    }

    fn insert(&mut self, keys: Vec<u64>) {
        keys.into_iter().for_each(|key| assert_eq!(self.table.insert(key.into(), record_of(key)), Ok(4)));
    }

    /// These fill the top, 8 M slots, and then the bottom, 4 M slots, which is the interim level once growth has begun.
    fn keys_at_rest(&self) -> Vec<u64> {
        (0..12 * self.interim_buckets).collect()
    }

    /// Interim bucket i holds the keys 8 M + f M + i for f from 0 to 3. Each has a top bucket of its own, f M + i. Their bottom buckets were
    /// filled at rest, and the items there can only go up to these same four top buckets.
    fn interim_key(&self, bucket: u64, f: u64) -> u64 {
        (8 + f) * self.interim_buckets + bucket
    }

    fn stuck_keys(&self) -> Vec<u64> {
        (0..4)
            .flat_map(|f| self.stuck_buckets.clone().map(move |bucket| self.interim_key(bucket, f)))
            .collect()
    }

    /// Four keys that fill the top bucket of a stuck one.
    fn keys_above(&self, stuck: u64) -> [u64; 4] {
        [8, 12, 16, 20].map(|times| stuck + times * self.interim_buckets)
    }

    fn later_keys(&self) -> Vec<u64> {
        self.stuck_keys().into_iter().flat_map(|stuck| self.keys_above(stuck)).collect()
    }

    fn keys(&self) -> Vec<u64> {
        [self.keys_at_rest(), self.later_keys()].concat()
    }

    /// So many items are not stuck.
    fn free_items(&self) -> u64 {
        4 * (self.interim_buckets - (self.stuck_buckets.end - self.stuck_buckets.start))
    }

    fn is_interim(&self, key: u64) -> bool {
        let found = self.table.query(key.into()).unwrap().found;
        found.map_or(false, |found| found.slot.level == Level::Interim)
    }

    fn interim_keys(&self) -> Vec<u64> {
        self.keys().into_iter().filter(|&key| self.is_interim(key)).collect()
    }

    /// Takes out one of the keys that fill the place of a stuck one.
    fn make_room_for(&mut self, stuck: u64) -> u64 {
        let deleted = self.keys_above(stuck)[0];
        self.table.delete(deleted.into()).unwrap();
        deleted
    }
}

/// Every form, size and load from which a way is tried.
fn each_start(least_k: u64, most_k: u64) -> impl Iterator<Item = (Form, Way, u64, u64)> {
    let starts = move |(form, way): (Form, Way)| {
        (least_k..=most_k).flat_map(move |k| way.tenths().map(|tenths| (form, way, k, tenths)))
    };
    Form::ALL.into_iter().flat_map(|form| WAYS.map(|way| (form, way))).flat_map(starts)
}

#[test]
fn the_parts_leave_the_words_that_steps_leave() {
    // A table of two top buckets cannot shrink.
    let from_two_buckets =
        Form::ALL.into_iter().flat_map(|form| Way::Grow.tenths().map(|tenths| (form, Way::Grow, 1, tenths)));
    for (form, way, k, tenths) in each_start(2, 9).chain(from_two_buckets) {
        let (words, keys) = way.from(form, k, tenths);
        let mut by_steps = opened(&words);
        way.begin(&mut by_steps).unwrap();
        while by_steps.step().is_ok() {}
        by_steps.end().unwrap();
        let mut by_parts = opened(&words);
        assert_eq!(way.whole(&mut by_parts), Ok(true), "{form}, {way:?}, k = {k}, {tenths} tenths");
        assert_eq!(by_parts.words(), by_steps.words());
        assert!(holds(by_parts.words(), &keys), "{form}, {way:?}, k = {k}, {tenths} tenths");
        let sound = calls::recover(by_parts.words()).map(|list| list.count());
        assert_eq!((by_parts.phase(), sound), (Ok(Phase::AtRest), Ok(0)));
    }
}

/// The calls of `step_from` in the next part, and the interim buckets that they look at, of so many.
fn looked_at_next(table: &Table<Vec<u64>, impl Platform>, interim_buckets: u64) -> (u64, u64) {
    let from = |start: u64| match calls::step_from(table.words(), start) {
        Ok((_, bucket)) => (true, bucket - start + 1),
        Err(Refusal::NotResizing) => (true, 0),
        Err(_) => (false, interim_buckets - start),
    };
    match from(table.interim_hint) {
        (false, buckets) if table.interim_hint > 0 => (2, buckets + from(0).1),
        (_, buckets) => (1, buckets),
    }
}

/// One pass finds all items; then it is seen, from the hint and from the first bucket on, that there are no more.
#[test]
fn all_parts_go_through_the_interim_level_once() {
    for (form, way, k, tenths) in each_start(2, 10) {
        let (words, _) = way.from(form, k, tenths);
        let interim_buckets = way.interim_buckets(1 << k);
        let made = Cell::new(0);
        let mut table = Table::open(words, |_: &u64| made.set(made.get() + 1)).unwrap();
        let (mut parts, mut calls, mut buckets, mut ended) = (0, 0, 0, false);
        while !ended {
            let (next_calls, next_buckets) = looked_at_next(&table, interim_buckets);
            (parts, calls, buckets) = (parts + 1, calls + next_calls, buckets + next_buckets);
            let part = way.part(&mut table).unwrap();
            assert_ne!(part, Part::Turned);
            ended = part == Part::Ended;
        }
        let steps = parts - 2;
        assert!(calls <= parts + 1, "{calls} calls in {parts} parts");
        // Half of the slots may be in the top, so that a growth finds nothing to move.
        assert!(steps > 0 || tenths == 5, "{form}, {way:?}: nothing moves, k = {k}");
        assert!(
            buckets <= interim_buckets + steps + interim_buckets,
            "{form}, {way:?}: {buckets} buckets, {steps} steps, k = {k}"
        );
        let bounds = 5 * steps + 2..=way.most_stores(1 << k);
        assert!(bounds.contains(&made.get()), "{form}, {way:?}: {} stores, k = {k}", made.get());
    }
}

/// Right, wrong, and past the level.
fn hints(interim_buckets: u64) -> impl Iterator<Item = u64> {
    (0..=interim_buckets + 1).chain([1 << 32, u64::MAX])
}

/// What a part should answer: the driver may move another item than a step does, but only where there is one to move.
fn by_step(words: &[u64]) -> Result<Part, Refusal> {
    match calls::step(words) {
        Ok(_) => Ok(Part::Moved),
        Err(Refusal::InterimEmpty) => Ok(Part::Ended),
        Err(refusal) => Err(refusal),
    }
}

#[test]
fn whatever_the_hint_is_a_part_answers_as_a_step_does() {
    for stuck_buckets in (0..=8).flat_map(|bound| [0..bound, bound..8]) {
        let mut blocked = Blocked::new(8, stuck_buckets.clone());
        let keys = blocked.keys();
        let mut is_moving = true;
        while is_moving {
            let words = blocked.table.words().to_vec();
            for hint in hints(8) {
                let mut table = opened(&words);
                table.interim_hint = hint;
                let part = table.grow_on();
                assert_eq!(part, by_step(&words), "hint {hint}, stuck buckets {stuck_buckets:?}");
                assert_eq!(table.words() == words, part.is_err());
                assert!(holds(table.words(), &keys) && calls::recover(table.words()).unwrap().count() == 0);
            }
            is_moving = blocked.table.step().is_ok();
        }
    }
}

#[test]
fn a_growth_with_a_wrong_hint_before_each_part_ends_with_the_same_map() {
    let (words, keys) = filled(6, 10);
    let parts_of = |mut hint: Box<dyn FnMut(u64) -> u64>| {
        let mut table = opened(&words);
        let mut parts = vec![];
        while parts.last() != Some(&Part::Ended) {
            parts.push(table.grow_on().unwrap());
            table.interim_hint = hint(table.interim_hint);
        }
        assert!(holds(table.words(), &keys));
        parts
    };
    let right = parts_of(Box::new(|hint| hint));
    let mut state = 1;
    let any_bucket = move |_| {
        state = u64::wrapping_mul(state, MULTIPLIER_1);
        state >> 59
    };
    let wrong: [Box<dyn FnMut(u64) -> u64>; 4] =
        [Box::new(|_| 0), Box::new(|hint| hint + 1), Box::new(|_| u64::MAX), Box::new(any_bucket)];
    wrong.into_iter().for_each(|hint| assert_eq!(parts_of(hint), right));
}

/// 508 items behind 4 stuck ones, 256 behind 256, and nothing but stuck ones: one pass moves all that have a place, as steps do.
#[test]
fn a_growth_goes_past_items_without_a_place() {
    for stuck_buckets in [1, 64, 128] {
        let mut blocked = Blocked::new(128, 0..stuck_buckets);
        let mut by_steps = opened(blocked.table.words());
        (0..blocked.free_items()).for_each(|_| assert_eq!(by_steps.step(), Ok(5)));
        assert_eq!(by_steps.step(), Err(Refusal::NoPlace));
        for _ in 0..blocked.free_items() {
            let hint = blocked.table.interim_hint;
            assert_eq!(blocked.table.grow_on(), Ok(Part::Moved));
            assert!(hint <= blocked.table.interim_hint, "no item is looked for twice");
        }
        assert_eq!(blocked.table.grow_on(), Err(Refusal::NoPlace));
        assert_eq!((blocked.table.interim_hint, blocked.table.end()), (0, Err(Refusal::InterimTaken)));
        assert_eq!(blocked.table.words(), by_steps.words());
        assert!(holds(blocked.table.words(), &blocked.keys()));
        assert_eq!(blocked.interim_keys(), blocked.stuck_keys());
    }
}

/// Each delete makes room for one item, and the growth ends at last.
#[test]
fn a_growth_without_a_place_goes_on_with_each_delete() {
    for stuck_buckets in [1, 64] {
        let mut blocked = Blocked::new(128, 0..stuck_buckets);
        assert_eq!(blocked.table.grow(u64::MAX), Err(Refusal::NoPlace));
        let mut keys = blocked.keys();
        for stuck in blocked.stuck_keys() {
            assert_eq!(blocked.table.grow_on(), Err(Refusal::NoPlace));
            let deleted = blocked.make_room_for(stuck);
            keys.retain(|&key| key != deleted);
            assert_eq!(blocked.table.grow_on(), Ok(Part::Moved));
            assert!(!blocked.is_interim(stuck));
        }
        assert_eq!(blocked.table.grow_on(), Ok(Part::Ended));
        assert!(holds(blocked.table.words(), &keys));
    }
}

/// A delete behind the hint does not send the driver back: the item that has room now comes after all others, and before any refusal.
#[test]
fn an_item_that_gets_room_behind_the_hint_waits_for_the_end_of_the_pass() {
    let mut blocked = Blocked::new(128, 0..64);
    let free_items = blocked.free_items();
    assert_eq!(blocked.table.grow(free_items / 2), Ok(false));
    let hint = blocked.table.interim_hint;
    let waiting = [3, 10, 60].map(|bucket| (bucket, blocked.interim_key(bucket, 0)));
    for (_, key) in waiting {
        blocked.make_room_for(key);
    }
    assert_eq!((blocked.table.interim_hint, hint > 64), (hint, true));
    assert_eq!(blocked.table.grow(free_items / 2), Ok(false));
    assert!(waiting.into_iter().all(|(_, key)| blocked.is_interim(key)));
    for (bucket, key) in waiting {
        assert_eq!((blocked.table.grow_on(), blocked.table.interim_hint), (Ok(Part::Moved), bucket));
        assert!(!blocked.is_interim(key));
    }
    assert_eq!(blocked.table.grow_on(), Err(Refusal::NoPlace));
    assert_eq!(blocked.interim_keys().len(), blocked.stuck_keys().len() - waiting.len());
}

/// Inserts, updates and deletes between the parts, with a plain map beside; deletes go through the table from both ends.
#[test]
fn a_growth_goes_on_between_other_changes() {
    for (c, tenths) in (3..=9).flat_map(|c| [(c, 7), (c, 9)]) {
        let (words, mut keys) = filled(c, tenths);
        let mut map: HashMap<u64, Record> = keys.iter().map(|&key| (key, record_of(key))).collect();
        let mut table = opened(&words);
        for turn in 0.. {
            let key = 7 + 1024 * turn;
            if table.insert(key.into(), record_of(key)).is_ok() {
                keys.push(key);
                map.insert(key, record_of(key));
            }
            let updated = keys[keys.len() / 2];
            table.update(updated.into(), record_of(turn)).unwrap();
            map.insert(updated, record_of(turn));
            if turn % 3 == 0 {
                let at = if turn % 2 == 0 { 0 } else { keys.len() - 1 };
                let deleted = keys.remove(at);
                table.delete(deleted.into()).unwrap();
                map.remove(&deleted);
            }
            match table.grow_on() {
                Ok(Part::Ended) => break,
                part => assert!(part.is_ok() || part == Err(Refusal::NoPlace)),
            }
        }
        let told = |key: &u64| table.query((*key).into()).unwrap().record();
        assert!(map.iter().all(|(key, &record)| told(key) == Some(record)), "c = {c}, {tenths} tenths");
        assert_eq!(calls::recover(table.words()).unwrap().count(), 0);
    }
}

/// A table in the middle of a growth, with a hint that is not 0.
fn half_grown() -> Blocked {
    let mut blocked = Blocked::new(8, 0..2);
    assert_eq!(blocked.table.grow(blocked.free_items() / 2), Ok(false));
    assert!(blocked.table.interim_hint > 0);
    blocked
}

#[test]
fn what_changes_the_interim_level_begins_at_the_first_bucket() {
    let (words, _) = filled(5, 8);
    let mut table = opened(&words);
    assert_eq!(table.interim_hint, 0);
    table.interim_hint = 5;
    assert_eq!((table.begin(), table.interim_hint), (Ok(1), 0));
    while table.step_from(0).is_ok() {}
    for _ in 0..2 {
        table.interim_hint = 5;
        assert_eq!((table.back(), table.interim_hint), (Ok(1), 0));
    }
    table.interim_hint = 5;
    assert_eq!((table.end(), table.interim_hint), (Ok(1), 0));
    table.interim_hint = 5;
    assert_eq!((table.begin_shrink(), table.interim_hint), (Ok(1), 0));
    // A refused one leaves the growth where it is.
    let mut blocked = half_grown();
    let hint = blocked.table.interim_hint;
    for begin in [Table::begin, Table::begin_shrink] {
        assert_eq!(
            (begin(&mut blocked.table), blocked.table.interim_hint),
            (Err(Refusal::AlreadyResizing), hint)
        );
    }
    assert_eq!((blocked.table.end(), blocked.table.interim_hint), (Err(Refusal::InterimTaken), hint));
    assert_eq!((blocked.table.shrink_on(), blocked.table.interim_hint), (Ok(Part::Turned), 0));
}

#[test]
fn an_opened_table_begins_at_the_first_bucket() {
    let blocked = half_grown();
    let keys = blocked.keys();
    let table = opened(blocked.table.words());
    assert_eq!(table.interim_hint, 0);
    let mut blocked = Blocked { table, ..blocked };
    assert_eq!(blocked.table.grow(u64::MAX), Err(Refusal::NoPlace));
    assert!(holds(blocked.table.words(), &keys));
    assert_eq!(blocked.interim_keys(), blocked.stuck_keys());
}

#[cfg(all(target_os = "linux", target_pointer_width = "64"))]
#[test]
fn a_growth_goes_on_in_a_file_that_is_opened_again() {
    use crate::MappedFile;

    let folder = std::env::temp_dir().join(format!("ragansils-growth-{}", std::process::id()));
    std::fs::create_dir_all(&folder).unwrap();
    let path = folder.join("positions");
    let (words, keys) = filled(6, 8);
    let mut file = MappedFile::create(&path, &Creation::new(6, 5)).unwrap();
    file.as_mut().copy_from_slice(&words);
    drop(file);
    let mut has_ended = false;
    while !has_ended {
        let mut table = Table::open(MappedFile::open(&path).unwrap(), OrdinaryMemory).unwrap();
        assert_eq!(table.interim_hint, 0);
        has_ended = table.grow(7).unwrap();
        assert!(holds(table.words(), &keys));
    }
    std::fs::remove_dir_all(&folder).unwrap();
}

/// The platform's act panics in the middle of a part, and the table lives on.
#[test]
fn a_recovered_table_begins_at_the_first_bucket() {
    for kept in 1..=5 {
        let blocked = half_grown();
        let (hint, keys) = (blocked.table.interim_hint, blocked.keys());
        let left = Cell::new(kept);
        let cut = |_: &u64| {
            left.set(left.get() - 1);
            if left.get() == 0 {
                // No message, unlike panic!: this one is meant.
                resume_unwind(Box::new("cut"));
            }
        };
        let mut table = Table::open(blocked.table.into_parts().0, cut).unwrap();
        table.interim_hint = hint;
        assert!(catch_unwind(AssertUnwindSafe(|| table.grow_on())).is_err());
        left.set(u64::MAX);
        assert_eq!((table.interim_hint, table.recover().is_ok(), table.interim_hint), (hint, true, 0));
        assert_eq!(table.grow(u64::MAX), Err(Refusal::NoPlace));
        assert!(holds(table.words(), &keys));
    }
}
