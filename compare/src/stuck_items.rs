//! Interim items that are stuck: those that have no place. A step takes the first that has one, by request b) of document 02.

use std::collections::BTreeMap;
use std::fmt::{self, Display};

use ragansils_model::{Event, Slot, Table, LEAST_LIST_WORDS, SLOTS_PER_BUCKET, SUCCESS};

use crate::layout::without_slot;

/// What a step meets in an interim level that is not empty.
#[derive(Clone, Copy, Debug, PartialEq, Eq, PartialOrd, Ord)]
pub enum Kind {
    Takes {
        passed: Passed,
        way: Way,
    },
    /// No item has a place: refused with 6.
    AllStuck,
}

/// The stuck items that come before the one taken.
#[derive(Clone, Copy, Debug, PartialEq, Eq, PartialOrd, Ord)]
pub enum Passed {
    Nothing,
    /// One to three of its own bucket, and no others.
    ItsBucket,
    /// Some of earlier buckets, but in none of these all four.
    PartsOfBuckets,
    /// All four of one earlier bucket, and perhaps others.
    WholeBucket,
    /// All four of several, but not of many.
    WholeBuckets,
    /// All four of `MANY_BUCKETS` or more.
    ManyBuckets,
}

/// The stuck items of so many whole buckets are 32: a search that goes on only so far would give up among them.
pub const MANY_BUCKETS: usize = 8;

/// How an item finds its place.
#[derive(Clone, Copy, Debug, PartialEq, Eq, PartialOrd, Ord)]
pub enum Way {
    /// A step of 5 stores.
    FreeSlot,
    /// Another item moves first: a step of 10 stores.
    Move,
}

pub const KINDS: [Kind; 13] = [
    takes(Passed::Nothing, Way::FreeSlot),
    takes(Passed::Nothing, Way::Move),
    takes(Passed::ItsBucket, Way::FreeSlot),
    takes(Passed::ItsBucket, Way::Move),
    takes(Passed::PartsOfBuckets, Way::FreeSlot),
    takes(Passed::PartsOfBuckets, Way::Move),
    takes(Passed::WholeBucket, Way::FreeSlot),
    takes(Passed::WholeBucket, Way::Move),
    takes(Passed::WholeBuckets, Way::FreeSlot),
    takes(Passed::WholeBuckets, Way::Move),
    takes(Passed::ManyBuckets, Way::FreeSlot),
    takes(Passed::ManyBuckets, Way::Move),
    Kind::AllStuck,
];

const fn takes(passed: Passed, way: Way) -> Kind {
    Kind::Takes { passed, way }
}

impl Kind {
    pub fn passes_many_buckets(self) -> bool {
        matches!(self, Kind::Takes { passed: Passed::ManyBuckets, .. })
    }
}

impl Display for Kind {
    fn fmt(&self, out: &mut fmt::Formatter) -> fmt::Result {
        let (passed, way) = match *self {
            Kind::AllStuck => return write!(out, "all stuck"),
            Kind::Takes { passed, way } => (passed, way),
        };
        let passed = match passed {
            Passed::Nothing => "nothing",
            Passed::ItsBucket => "stuck items of its bucket",
            Passed::PartsOfBuckets => "parts of buckets",
            Passed::WholeBucket => "a whole bucket",
            Passed::WholeBuckets => "whole buckets",
            Passed::ManyBuckets => "many whole buckets",
        };
        let way = match way {
            Way::FreeSlot => "to a free slot",
            Way::Move => "by a move",
        };
        write!(out, "past {passed} {way}")
    }
}

/// What a step answers.
#[derive(Debug, PartialEq, Eq)]
pub struct Step {
    pub number: u64,
    /// The words of its list.
    pub list: Vec<u64>,
    /// The interim bucket of its item, counted from 0 in the level; 0 with a refusal.
    pub bucket: u64,
    /// None where there is no interim item.
    pub kind: Option<Kind>,
}

/// The answer of a step, found without a step: an item has a place exactly where it could be inserted if it stood nowhere, and a step is
/// that insert, and then the item's token cleared. None where the table's words keep an insert from telling it, as no sound table's do.
pub fn step_by_inserts(words: &[u64]) -> Option<Step> {
    step_from_by_inserts(words, 0)
}

/// The same for a step over the interim buckets from one of them on, counted from 0 in the level.
pub fn step_from_by_inserts(words: &[u64], from: u64) -> Option<Step> {
    let table = Table::read(words).ok()?;
    let refused = |number, kind| Some(Step { number, list: vec![], bucket: 0, kind });
    let interim = match table.interim() {
        Some(interim) => interim,
        None => return refused(8, None),
    };
    let mut items = table.taken_slots(&[interim]);
    items.retain(|item| interim.number_of(item.bucket) >= from);
    for (index, &item) in items.iter().enumerate() {
        match insert_of(words, &table, item) {
            (SUCCESS, list) => {
                let way = if list.len() == LEAST_LIST_WORDS { Way::Move } else { Way::FreeSlot };
                let kind = takes(passed(&items[..index], item), way);
                let bucket = interim.number_of(item.bucket);
                return Some(Step { number: SUCCESS, list, bucket, kind: Some(kind) });
            }
            (6, _) => {}
            _ => return None,
        }
    }
    if items.is_empty() {
        refused(11, None)
    } else {
        refused(6, Some(Kind::AllStuck))
    }
}

/// The answer of an interim item's insert into the table without it, and the list of the step that it makes.
fn insert_of(words: &[u64], table: &Table, item: Slot) -> (u64, Vec<u64>) {
    let token_without = without_slot(table.form(), table.raw_token(item.bucket), item.number);
    let mut without = words.to_vec();
    without[item.token_word()] = token_without;
    let [key, function, place] = table.record(item);
    let mut list = vec![0; LEAST_LIST_WORDS];
    let (number, stores) = Event::Insert { key, function, place }.list_stores(&without, &mut list);
    list.truncate(2 * stores as usize);
    list.extend([item.token_word() as u64, token_without]);
    (number, list)
}

/// What a run has seen of steps.
#[derive(Default)]
pub struct StepTally {
    pub kinds: BTreeMap<Kind, u64>,
}

impl StepTally {
    pub fn count(&mut self, step: &Step) {
        if let Some(kind) = step.kind {
            *self.kinds.entry(kind).or_default() += 1;
        }
    }

    pub fn unseen(&self) -> Vec<Kind> {
        KINDS.into_iter().filter(|kind| !self.kinds.contains_key(kind)).collect()
    }

    /// How many steps in this way came past stuck items.
    pub fn past_stuck_items(&self, by: Way) -> u64 {
        let passes =
            |kind| matches!(kind, Kind::Takes { passed, way } if passed != Passed::Nothing && way == by);
        self.kinds.iter().filter(|(&kind, _)| passes(kind)).map(|(_, count)| count).sum()
    }
}

/// How the stuck items before the one taken lie.
pub fn passed(stuck: &[Slot], taken: Slot) -> Passed {
    let stuck_in = |bucket| stuck.iter().filter(|item| item.bucket == bucket).count();
    // Each whole bucket has one last slot.
    let ends_whole_bucket =
        |item: &&Slot| item.number == SLOTS_PER_BUCKET - 1 && stuck_in(item.bucket) == SLOTS_PER_BUCKET;
    match stuck.iter().filter(ends_whole_bucket).count() {
        _ if stuck.is_empty() => Passed::Nothing,
        0 if stuck_in(taken.bucket) == stuck.len() => Passed::ItsBucket,
        0 => Passed::PartsOfBuckets,
        1 => Passed::WholeBucket,
        whole if whole < MANY_BUCKETS => Passed::WholeBuckets,
        _ => Passed::ManyBuckets,
    }
}

#[cfg(test)]
mod tests {
    use super::*;
    use crate::history::{Setting, MARKED_1, MARKED_2};
    use crate::test_table::{change, table_after};

    /// A table of capacity 2 after inserts, a begin, and inserts again; functions and places are 5.
    fn growing(mul2: u64, at_rest: impl Iterator<Item = u64>, later: impl Iterator<Item = u64>) -> Vec<u64> {
        let insert = |key| Event::Insert { key, function: 5, place: 5 };
        let events = at_rest.map(insert).chain([Event::Begin]).chain(later.map(insert));
        table_after(Setting { form: 1, c: 2, k: 1, mul1: MARKED_1, mul2 }, events)
    }

    fn every_fourth(from: u64, to: u64) -> impl Iterator<Item = u64> {
        (from..to).step_by(4)
    }

    #[test]
    fn the_marked_examples_e10_and_e11() {
        let e10 = growing(MARKED_2, (1..16).step_by(2), 0..0);
        let list = vec![62, 9, 63, 5, 64, 5, 61, 1, 9, 14];
        let kind = Some(takes(Passed::Nothing, Way::FreeSlot));
        assert_eq!(step_by_inserts(&e10), Some(Step { number: 0, list, bucket: 0, kind }));

        let e11 = growing(MARKED_1, every_fourth(0, 32), every_fourth(32, 48));
        let all_stuck = Step { number: 6, list: vec![], bucket: 0, kind: Some(Kind::AllStuck) };
        assert_eq!(step_by_inserts(&e11), Some(all_stuck));
    }

    /// As in E11, but that the last of the four interim items has places that are free.
    #[test]
    fn a_step_goes_past_three_stuck_items() {
        let at_rest = every_fourth(0, 28).chain(every_fourth(1, 21));
        let mut table = growing(MARKED_1, at_rest, every_fourth(32, 48));
        let list = vec![62, 17, 63, 5, 64, 5, 61, 1, 9, 7];
        let kind = Some(takes(Passed::ItsBucket, Way::FreeSlot));
        assert_eq!(step_by_inserts(&table), Some(Step { number: 0, list, bucket: 0, kind }));

        change(&mut table, Event::Delete { key: 40 });
        let kind = step_by_inserts(&table).and_then(|step| step.kind);
        assert_eq!(kind, Some(takes(Passed::Nothing, Way::FreeSlot)));
    }

    #[test]
    fn without_interim_items_a_step_has_no_kind() {
        let refused = |number| Some(Step { number, list: vec![], bucket: 0, kind: None });
        let mut table = growing(MARKED_1, 0..0, 0..0);
        assert_eq!(step_by_inserts(&table), refused(11));
        change(&mut table, Event::End);
        assert_eq!(step_by_inserts(&table), refused(8));
    }

    #[test]
    fn where_an_item_stands_twice_no_insert_tells_its_place() {
        let mut table = growing(MARKED_2, (1..16).step_by(2), 0..0);
        // The first slot of the bottom gets the record of the first interim one.
        table.copy_within(10..13, 36);
        assert_eq!(step_by_inserts(&table), None);
    }

    #[test]
    fn what_was_not_seen_is_told() {
        let mut tally = StepTally::default();
        let kinds = [None, Some(Kind::AllStuck), Some(takes(Passed::Nothing, Way::Move))];
        for kind in kinds.into_iter().chain([Some(takes(Passed::WholeBucket, Way::FreeSlot))]) {
            tally.count(&Step { number: 0, list: vec![], bucket: 0, kind });
        }
        assert_eq!((tally.unseen().len(), tally.unseen().contains(&Kind::AllStuck)), (10, false));
        assert_eq!([Way::FreeSlot, Way::Move].map(|way| tally.past_stuck_items(way)), [1, 0]);
    }
}
