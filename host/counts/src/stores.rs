//! The stores that the library lists.

use std::iter::Sum;

use ragansils_model::{Event, LEAST_LIST_WORDS, SUCCESS};
use ragansils_twin::Proved;

use crate::level::LevelTable;

/// No call lists more than fit in the shortest list, in which each takes two words.
const MOST: usize = LEAST_LIST_WORDS / 2;

/// How many calls listed each number of stores.
#[derive(Clone, Copy, Debug, Default, PartialEq, Eq)]
pub struct Stores {
    calls_with: [u64; MOST + 1],
}

impl Stores {
    /// Counts the call that the library answered last; it was not refused.
    pub fn count(&mut self, library: &Proved) {
        self.calls_with[library.stores() as usize] += 1;
    }

    /// Counts a change that is listed and not made.
    pub fn count_listed(&mut self, table: &mut LevelTable<Proved>, event: Event) -> Result<(), String> {
        match table.side.list_stores(&table.words, event) {
            SUCCESS => self.count(&table.side),
            number => return Err(format!("{event:?} was refused with {number}")),
        }
        Ok(())
    }

    pub fn calls(&self) -> u64 {
        self.calls_with.iter().sum()
    }

    pub fn calls_with(&self, stores: usize) -> u64 {
        self.calls_with[stores]
    }

    /// The share of the calls that listed so many.
    pub fn share_with(&self, stores: usize) -> f64 {
        self.calls_with(stores) as f64 / self.calls() as f64
    }

    /// Each number of stores that a call listed, and how many calls did.
    pub fn met(&self) -> impl Iterator<Item = (u64, u64)> + '_ {
        (0..).zip(self.calls_with).filter(|&(_, calls)| calls > 0)
    }

    /// The stores of all calls.
    pub fn total(&self) -> u64 {
        self.met().map(|(stores, calls)| stores * calls).sum()
    }

    pub fn average(&self) -> f64 {
        self.total() as f64 / self.calls() as f64
    }
}

impl Sum for Stores {
    fn sum<I: Iterator<Item = Stores>>(all: I) -> Stores {
        all.fold(Stores::default(), |mut sum, one| {
            for (calls, more) in sum.calls_with.iter_mut().zip(one.calls_with) {
                *calls += more;
            }
            sum
        })
    }
}

#[cfg(test)]
mod tests {
    use super::*;
    use crate::level::{full_size, OLD_FORM};
    use ragansils_compare::random::Random;

    #[test]
    fn a_listed_change_is_counted_and_not_made() {
        let mut table = LevelTable::new(Proved::default(), full_size(&mut Random::new(1), OLD_FORM, 4));
        table.fill(&[5]).unwrap();
        let before = table.words.clone();
        let mut stores = Stores::default();
        for event in [Event::Delete { key: 5 }, Event::Insert { key: 6, function: 0, place: 0 }] {
            stores.count_listed(&mut table, event).unwrap();
        }
        assert_eq!(stores.met().collect::<Vec<_>>(), [(1, 1), (4, 1)]);
        assert_eq!((stores.calls(), stores.total(), stores.average()), (2, 5, 2.5));
        assert_eq!(table.words, before);
    }

    #[test]
    fn a_refusal_is_no_call_with_stores() {
        let mut table = LevelTable::new(Proved::default(), full_size(&mut Random::new(1), OLD_FORM, 4));
        let mut stores = Stores::default();
        let refused = stores.count_listed(&mut table, Event::Delete { key: 5 });
        assert_eq!(refused, Err("Delete { key: 5 } was refused with 5".to_string()));
        assert_eq!(stores, Stores::default());
    }

    #[test]
    fn sums_are_by_number() {
        let with = |stores: usize, calls: u64| {
            let mut one = Stores::default();
            one.calls_with[stores] = calls;
            one
        };
        let sum: Stores = [with(4, 3), with(9, 1), with(4, 2)].into_iter().sum();
        assert_eq!(sum.met().collect::<Vec<_>>(), [(4, 5), (9, 1)]);
        assert_eq!(sum.share_with(9), 1.0 / 6.0);
    }
}
