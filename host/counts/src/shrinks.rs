//! Shrinks begun at some loads: what each moved and stored, and how often it is stuck.

use ragansils_compare::random::Random;
use ragansils_model::{Event, Refusal, SUCCESS};
use ragansils_twin::{Proved, Side};

use crate::growths::{change, MOVING_STEP};
use crate::keys::{Keys, Kind};
use crate::level::{full_size, slots, LevelTable, OLD_FORM};
use crate::stores::Stores;

/// The loads at which shrinks begin. Afterwards the table has half as many slots.
pub const SHRINK_LOADS: [f64; 3] = [0.3, 0.4, 0.45];

/// So many shrinks of tables alike, each of N = 2^k top buckets.
pub struct Shrinks {
    pub kind: Kind,
    pub k: u64,
    pub load: f64,
    pub items: u64,
    /// Of their beginnings and ends.
    pub bounds: Stores,
    /// Of their steps, each of which takes one item out of the top that was.
    pub steps: Stores,
    pub ended: u64,
    /// Those in which items were left without a place.
    pub stuck: u64,
    /// Of turning back: listed once a shrink is begun, and made where it is stuck.
    pub turns: Stores,
    /// Those that then grew to their end; the others were stuck again.
    pub grown_again: u64,
}

impl Shrinks {
    pub fn count(random: &mut Random, kind: Kind, k: u64, load: f64, tables: u64) -> Result<Shrinks, String> {
        let items = (slots(k) as f64 * load) as usize;
        let (bounds, steps, turns) = (Stores::default(), Stores::default(), Stores::default());
        let (ended, stuck, grown_again) = (0, 0, 0);
        let mut shrinks =
            Shrinks { kind, k, load, items: items as u64, bounds, steps, ended, stuck, turns, grown_again };
        for _ in 0..tables {
            let mut table = LevelTable::new(Proved::default(), full_size(random, OLD_FORM, k));
            table.fill(Keys::new(random, kind, items, 0).present())?;
            shrinks.shrink(&mut table)?;
        }
        Ok(shrinks)
    }

    fn shrink(&mut self, table: &mut LevelTable<Proved>) -> Result<(), String> {
        let refused = |number| format!("a shrink was refused with {number}");
        change(table, Event::Shrink, &mut self.bounds).map_err(refused)?;
        self.turns.count_listed(table, Event::Back)?;
        if step_on(table, &mut self.steps)? {
            self.ended += 1;
            return change(table, Event::End, &mut self.bounds).map_err(refused);
        }
        self.stuck += 1;
        change(table, Event::Back, &mut self.turns).map_err(refused)?;
        let has_grown = step_on(table, &mut Stores::default())?;
        self.grown_again += u64::from(has_grown);
        Ok(())
    }

    pub fn tables(&self) -> u64 {
        self.ended + self.stuck
    }

    /// Of those that came to their end.
    pub fn load_after(&self) -> f64 {
        self.items as f64 / slots(self.k - 1) as f64
    }

    /// The items that a shrink moved, on average.
    pub fn moved(&self) -> f64 {
        self.steps.calls() as f64 / self.tables() as f64
    }

    pub fn moving_share(&self) -> f64 {
        self.steps.share_with(MOVING_STEP)
    }

    /// On average, for each of the N top buckets before it.
    pub fn stores_for_each_bucket(&self) -> f64 {
        let stores = self.bounds.total() + self.steps.total();
        stores as f64 / self.tables() as f64 / (1u64 << self.k) as f64
    }
}

/// Steps until none is taken, each from the bucket that the last one told; whether the interim level is empty then.
fn step_on(table: &mut LevelTable<Proved>, steps: &mut Stores) -> Result<bool, String> {
    let mut from = 0;
    loop {
        match table.side.step_from(&mut table.words, from) {
            (SUCCESS, bucket) => {
                steps.count(&table.side);
                from = bucket;
            }
            // Stuck items may stand before the start.
            _ if from > 0 => from = 0,
            (number, _) if number == Refusal::InterimEmpty.number() => return Ok(true),
            (number, _) if number == Refusal::NoPlace.number() => return Ok(false),
            (number, _) => return Err(format!("a step was refused with {number}")),
        }
    }
}

#[cfg(test)]
mod tests {
    use super::*;
    use ragansils_model::Table;

    #[test]
    fn a_shrink_moves_the_items_of_the_top() {
        let mut random = Random::new(1);
        let mut table = LevelTable::new(Proved::default(), full_size(&mut random, OLD_FORM, 5));
        table.fill(Keys::new(&mut random, Kind::Random, slots(5) / 4, 0).present()).unwrap();
        let in_top = slots(5) / 4 - table.items_in_bottom();
        change(&mut table, Event::Shrink, &mut Stores::default()).unwrap();
        let mut steps = Stores::default();
        assert_eq!(step_on(&mut table, &mut steps), Ok(true));
        assert_eq!(steps.calls(), in_top as u64);
        let words = Table::read(&table.words).unwrap();
        assert_eq!(words.taken_slots(&words.levels_in_use()).len(), slots(5) / 4);
    }

    #[test]
    fn the_stores_of_shrinks() {
        let shrinks = Shrinks::count(&mut Random::new(1), Kind::Random, 5, 0.3, 4).unwrap();
        assert_eq!((shrinks.tables(), shrinks.stuck, shrinks.turns.calls()), (4, 0, 4));
        assert_eq!(shrinks.bounds.met().collect::<Vec<_>>(), [(1, 8)]);
        assert!(shrinks.steps.met().all(|(stores, _)| stores == 5 || stores == 10));
        assert_eq!((shrinks.items, shrinks.load_after()), (57, 57.0 / 96.0));
    }

    /// More items than there are slots afterwards.
    #[test]
    fn a_shrink_of_a_table_that_is_too_full_is_stuck_and_turns_back() {
        let shrinks = Shrinks::count(&mut Random::new(1), Kind::Collector, 4, 0.6, 3).unwrap();
        assert_eq!((shrinks.ended, shrinks.stuck, shrinks.grown_again), (0, 3, 3));
        assert_eq!(shrinks.turns.met().collect::<Vec<_>>(), [(1, 3 + 3)]);
    }
}
