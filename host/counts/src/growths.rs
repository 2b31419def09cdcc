//! Tables that grow where an insert finds no place: what each growth moved and stored.

use ragansils_compare::history::Setting;
use ragansils_compare::random::Random;
use ragansils_model::{Event, Refusal, SUCCESS};
use ragansils_twin::{Proved, Side};

use crate::keys::{Keys, Kind};
use crate::level::{full_size, slots, LevelTable, OLD_FORM};
use crate::stores::Stores;

/// A table's top has 2^k buckets for this k before its first growth.
const FIRST_K: u64 = 4;
/// Stores of a step that moved another item.
pub const MOVING_STEP: usize = 10;

/// One growth, begun where an insert was refused.
pub struct Growth {
    pub k: u64,
    pub items: u64,
    /// Of its beginning and its end.
    pub bounds: Stores,
    /// Of its steps, each of which takes one item out of the bottom that was.
    pub steps: Stores,
}

impl Growth {
    pub fn load(&self) -> f64 {
        self.items as f64 / slots(self.k) as f64
    }

    pub fn moved(&self) -> u64 {
        self.steps.calls()
    }

    /// The share of the items that it moved.
    pub fn share(&self) -> f64 {
        self.moved() as f64 / self.items as f64
    }

    pub fn moving_steps(&self) -> u64 {
        self.steps.calls_with(MOVING_STEP)
    }

    /// The stores of all its calls.
    pub fn stores(&self) -> u64 {
        self.bounds.total() + self.steps.total()
    }
}

/// A table that grows to capacity `c`, again and again, until an insert finds no place in the largest top.
pub fn growths(random: &mut Random, kind: Kind, c: u64) -> Result<Vec<Growth>, String> {
    let setting = Setting { k: FIRST_K, ..full_size(random, OLD_FORM, c) };
    let mut table = LevelTable::new(Proved::default(), setting);
    let keys = Keys::new(random, kind, slots(c), 0);
    let mut growths = vec![];
    let mut k = FIRST_K;
    for (items, &key) in keys.present().iter().enumerate() {
        while !table.insert_new(key)? {
            if k == c {
                return Ok(growths);
            }
            growths.push(grow(&mut table, k, items as u64)?);
            k += 1;
        }
    }
    Ok(growths)
}

fn grow(table: &mut LevelTable<Proved>, k: u64, items: u64) -> Result<Growth, String> {
    let mut growth = Growth { k, items, bounds: Stores::default(), steps: Stores::default() };
    change(table, Event::Begin, &mut growth.bounds).map_err(|number| refused(k, number))?;
    loop {
        match change(table, Event::Step, &mut growth.steps) {
            Ok(()) => {}
            Err(number) if number == Refusal::InterimEmpty.number() => break,
            Err(number) => return Err(refused(k, number)),
        }
    }
    change(table, Event::End, &mut growth.bounds).map_err(|number| refused(k, number))?;
    Ok(growth)
}

/// Makes a change and counts it, or answers the number with which it was refused.
pub fn change(table: &mut LevelTable<Proved>, event: Event, stores: &mut Stores) -> Result<(), u64> {
    match table.side.change(&mut table.words, event) {
        SUCCESS => stores.count(&table.side),
        number => return Err(number),
    }
    Ok(())
}

fn refused(k: u64, number: u64) -> String {
    format!("a growth from k = {k} was refused with {number}")
}

#[cfg(test)]
mod tests {
    use super::*;

    #[test]
    fn a_growth_moves_the_items_of_the_bottom() {
        let mut random = Random::new(3);
        let setting = Setting { k: FIRST_K, ..full_size(&mut random, OLD_FORM, FIRST_K + 1) };
        let mut table = LevelTable::new(Proved::default(), setting);
        let items = slots(FIRST_K) * 3 / 4;
        table.fill(Keys::new(&mut random, Kind::Random, items, 0).present()).unwrap();
        let in_bottom = table.items_in_bottom();
        let growth = grow(&mut table, FIRST_K, items as u64).unwrap();
        assert!(in_bottom > 0);
        assert_eq!(growth.moved(), in_bottom as u64);
        assert_eq!((growth.load(), growth.share()), (0.75, in_bottom as f64 / items as f64));
    }

    #[test]
    fn the_stores_of_a_growth() {
        let all = growths(&mut Random::new(1), Kind::Random, 7).unwrap();
        assert_eq!(all.len(), 3);
        for growth in all {
            assert_eq!(growth.bounds.met().collect::<Vec<_>>(), [(1, 2)]);
            assert!(growth.steps.met().all(|(stores, _)| stores == 5 || stores == 10));
            let plain_steps = growth.moved() - growth.moving_steps();
            assert_eq!(growth.stores(), 2 + 5 * plain_steps + 10 * growth.moving_steps());
        }
    }

    /// The table of docs/CUTS.md whose next step has to move another item first.
    #[test]
    fn a_step_that_moves_another_item() {
        let setting = Setting { form: OLD_FORM, c: 2, k: 1, mul1: 4294967297, mul2: 12884901889 };
        let mut table = LevelTable::new(Proved::default(), setting);
        table.fill(&[29, 6, 28, 14, 8, 15, 10]).unwrap();
        assert!(table.change(Event::Begin));
        table.fill(&[5, 37, 35, 19, 36, 27, 21, 32, 22, 34, 3, 9, 18, 30, 11, 1, 24]).unwrap();
        let mut growth = Growth { k: 1, items: 7, bounds: Stores::default(), steps: Stores::default() };
        change(&mut table, Event::Step, &mut growth.steps).unwrap();
        assert_eq!(growth.steps.met().collect::<Vec<_>>(), [(10, 1)]);
        assert_eq!((growth.moved(), growth.moving_steps()), (1, 1));
    }

    #[test]
    fn each_growth_comes_once() {
        let all = growths(&mut Random::new(1), Kind::Collector, 7).unwrap();
        assert_eq!(all.iter().map(|growth| growth.k).collect::<Vec<_>>(), [4, 5, 6]);
    }

    #[test]
    fn a_table_at_its_capacity_does_not_grow() {
        let mut table = LevelTable::new(Proved::default(), full_size(&mut Random::new(1), OLD_FORM, 4));
        let refused = grow(&mut table, 4, 0).map(|growth| growth.k);
        assert_eq!(refused, Err("a growth from k = 4 was refused with 9".to_string()));
    }
}
