//! Tables filled until the first refusal 6: the load there, and what the changes on the way stored.

use ragansils_compare::random::Random;
use ragansils_model::Event;
use ragansils_twin::Proved;

use crate::keys::{Keys, Kind};
use crate::level::{full_size, slots, LevelTable, OLD_FORM};
use crate::middle::Middle;
use crate::stores::Stores;

/// Stores of an insert that moved another item.
const MOVING_INSERT: usize = 9;
/// Stores of an update that needs no log.
const PLAIN_UPDATE: usize = 4;

/// Loads are counted in so many bins from 0 to 1.
pub const BINS: usize = 50;

/// What was counted in one bin of the load.
#[derive(Clone, Copy, Default)]
pub struct Bin {
    pub inserts: Stores,
    pub updates: Stores,
    pub deletes: Stores,
}

impl Bin {
    pub fn moving_share(&self) -> f64 {
        self.inserts.share_with(MOVING_INSERT)
    }

    pub fn plain_share(&self) -> f64 {
        self.updates.share_with(PLAIN_UPDATE)
    }
}

pub struct Fillings {
    pub k: u64,
    pub kind: Kind,
    /// The load at the first refusal 6, of each table.
    pub first_refusal: Vec<f64>,
    /// The share of the items that stand in the bottom there, which a growth would move.
    pub bottom_share: Vec<f64>,
    pub bins: [Bin; BINS],
}

impl Fillings {
    pub fn count(random: &mut Random, k: u64, kind: Kind, tables: usize) -> Result<Fillings, String> {
        let mut fillings =
            Fillings { k, kind, first_refusal: vec![], bottom_share: vec![], bins: [Bin::default(); BINS] };
        for _ in 0..tables {
            let mut table = LevelTable::new(Proved::default(), full_size(random, OLD_FORM, k));
            let keys = Keys::new(random, kind, slots(k) + 1, 0);
            fillings.fill(random, &mut table, keys.present())?;
        }
        Ok(fillings)
    }

    fn fill(
        &mut self,
        random: &mut Random,
        table: &mut LevelTable<Proved>,
        keys: &[u64],
    ) -> Result<(), String> {
        for (items, &key) in keys.iter().enumerate() {
            let load = items as f64 / slots(self.k) as f64;
            if !table.insert_new(key)? {
                self.first_refusal.push(load);
                self.bottom_share.push(table.items_in_bottom() as f64 / items as f64);
                return Ok(());
            }
            let bin = &mut self.bins[bin_of(load)];
            bin.inserts.count(&table.side);
            // Changes of some item that is in, listed and not made.
            let (key, function, place) = (keys[random.index(items + 1)], 0, 0);
            bin.updates.count_listed(table, Event::Update { key, function, place })?;
            bin.deletes.count_listed(table, Event::Delete { key })?;
        }
        Err(format!("a table of k = {} took more items than it has slots", self.k))
    }

    pub fn load_at_first_refusal(&self) -> Middle {
        Middle::of(self.first_refusal.iter().copied())
    }

    pub fn least_load(&self) -> f64 {
        self.first_refusal.iter().copied().fold(1.0, f64::min)
    }

    pub fn bottom_share(&self) -> Middle {
        Middle::of(self.bottom_share.iter().copied())
    }

    /// What was counted at a load.
    pub fn at_load(&self, load: f64) -> Bin {
        self.bins[bin_of(load)]
    }

    /// What was counted at any load.
    pub fn at_all_loads(&self) -> Bin {
        let sum = |part: fn(&Bin) -> Stores| self.bins.iter().map(part).sum();
        Bin {
            inserts: sum(|bin| bin.inserts),
            updates: sum(|bin| bin.updates),
            deletes: sum(|bin| bin.deletes),
        }
    }
}

fn bin_of(load: f64) -> usize {
    ((load * BINS as f64) as usize).min(BINS - 1)
}

#[cfg(test)]
mod tests {
    use super::*;

    fn numbers_met(stores: Stores) -> Vec<u64> {
        stores.met().map(|(number, _)| number).collect()
    }

    /// So many tables that each kind of change is met.
    #[test]
    fn the_stores_of_each_change() {
        let fillings = Fillings::count(&mut Random::new(1), 4, Kind::Random, 20).unwrap();
        let Bin { inserts, updates, deletes } = fillings.at_all_loads();
        assert_eq!(numbers_met(inserts), [4, 9]);
        assert_eq!(numbers_met(updates), [4, 7]);
        assert_eq!(numbers_met(deletes), [1]);
    }

    #[test]
    fn each_item_that_came_in_is_counted_once() {
        let fillings = Fillings::count(&mut Random::new(2), 5, Kind::Collector, 3).unwrap();
        assert_eq!((fillings.first_refusal.len(), fillings.bottom_share.len()), (3, 3));
        let items: f64 = fillings.first_refusal.iter().map(|load| (load * slots(5) as f64).round()).sum();
        let Bin { inserts, updates, deletes } = fillings.at_all_loads();
        assert_eq!([inserts, updates, deletes].map(|stores| stores.calls()), [items as u64; 3]);
    }
}
