//! The buckets that a query looks at.

use ragansils_compare::history::Setting;
use ragansils_compare::random::Random;
use ragansils_model::Event;
use ragansils_twin::{Proved, Side};

use crate::half_way::{half_way, last_growth};
use crate::keys::{Keys, Kind};
use crate::level::{full_size, items_at, LevelTable, OLD_FORM};
use crate::plan::{HIGH_LOAD, LOADS, SHRINKING_LOAD};

/// Buckets that a query looks at on average.
pub struct Probes {
    /// In which table.
    pub when: String,
    pub positive: f64,
    pub negative: f64,
}

/// So many queries of each kind in tables of capacity `c`: at each load, and in the middle of a growth.
pub fn probes(random: &mut Random, c: u64, kind: Kind, queries: usize) -> Result<Vec<Probes>, String> {
    let mut all = at_rest(random, c, kind, queries)?;
    all.push(growing(random, c, kind, queries)?);
    Ok(all)
}

fn at_rest(random: &mut Random, c: u64, kind: Kind, queries: usize) -> Result<Vec<Probes>, String> {
    let setting = full_size(random, OLD_FORM, c);
    let mut filled = Filled::empty(random, setting, kind, queries);
    let mut all = vec![];
    for load in LOADS {
        filled.fill(load)?;
        all.push(filled.probes(random, &format!("load {load}"))?);
    }
    Ok(all)
}

fn growing(random: &mut Random, c: u64, kind: Kind, queries: usize) -> Result<Probes, String> {
    let setting = last_growth(full_size(random, OLD_FORM, c));
    let mut filled = Filled::empty(random, setting, kind, queries);
    filled.fill(HIGH_LOAD)?;
    half_way(&mut filled.table.words, Event::Begin)?;
    filled.probes(random, "growing")
}

/// The same in the middle of a shrink.
pub fn shrinking(random: &mut Random, c: u64, kind: Kind, queries: usize) -> Result<Probes, String> {
    let setting = full_size(random, OLD_FORM, c);
    let mut filled = Filled::empty(random, setting, kind, queries);
    filled.fill(SHRINKING_LOAD)?;
    half_way(&mut filled.table.words, Event::Shrink)?;
    filled.probes(random, "shrinking")
}

/// A table that holds the first so many of some keys.
struct Filled {
    setting: Setting,
    table: LevelTable<Proved>,
    keys: Keys,
    items: usize,
    queries: usize,
}

impl Filled {
    /// None yet, of keys enough for the highest load and for so many queries of absent ones.
    fn empty(random: &mut Random, setting: Setting, kind: Kind, queries: usize) -> Filled {
        let table = LevelTable::new(Proved::default(), setting);
        let keys = Keys::new(random, kind, items_at(setting, HIGH_LOAD), queries);
        Filled { setting, table, keys, items: 0, queries }
    }

    /// Fails where the table's multipliers spread the keys so badly that refusal 6 comes before the load.
    fn fill(&mut self, load: f64) -> Result<(), String> {
        let items = items_at(self.setting, load);
        let fresh = &self.keys.present()[self.items..items];
        let name = self.name(&format!("to load {load}"));
        self.table.fill(fresh).map_err(|what| format!("{name}: {what}"))?;
        self.items = items;
        Ok(())
    }

    fn name(&self, when: &str) -> String {
        format!("c = {}, {when}, {}", self.setting.c, self.keys.kind.name())
    }

    fn probes(&self, random: &mut Random, when: &str) -> Result<Probes, String> {
        let present = self.keys.draw_present(random, self.items, self.queries);
        let absent = self.keys.draw_absent(random, self.queries);
        Ok(Probes {
            when: self.name(when),
            positive: self.looked_at(&present, true)?,
            negative: self.looked_at(&absent, false)?,
        })
    }

    /// The average over queries of some keys, which are all there, or all absent.
    fn looked_at(&self, keys: &[u64], are_there: bool) -> Result<f64, String> {
        let mut looked = 0;
        for &key in keys {
            let lookup = self.table.side.look_up(&self.table.words, key);
            let lookup = lookup.map_err(|refusal| format!("a query is refused: {refusal}"))?;
            if lookup.found.is_some() != are_there {
                return Err(format!("a query finds {:?}", lookup.record()));
            }
            looked += lookup.buckets;
        }
        Ok(looked as f64 / keys.len() as f64)
    }
}

#[cfg(test)]
mod tests {
    use super::*;

    #[test]
    fn at_most_four_buckets_and_six_while_growing() {
        let all = probes(&mut Random::new(1), 6, Kind::Random, 500).unwrap();
        let names = all.iter().map(|probes| probes.when.as_str()).collect::<Vec<_>>();
        let random_keys =
            ["load 0.5", "load 0.8", "growing"].map(|when| format!("c = 6, {when}, random keys"));
        assert_eq!(names, random_keys);
        for (probes, most) in all.iter().zip([4.0, 4.0, 6.0]) {
            assert!(1.0 <= probes.positive && probes.positive < probes.negative && probes.negative <= most);
        }
        assert!(all[0].positive < all[1].positive && all[1].negative < all[2].negative);
    }

    #[test]
    fn at_most_six_buckets_while_shrinking() {
        let probes = shrinking(&mut Random::new(1), 6, Kind::Random, 500).unwrap();
        assert_eq!(probes.when, "c = 6, shrinking, random keys");
        assert!(1.0 <= probes.positive && probes.positive < probes.negative && probes.negative <= 6.0);
        assert!(probes.negative > 4.0);
    }

    #[test]
    fn an_answer_that_should_not_come() {
        let setting = full_size(&mut Random::new(1), OLD_FORM, 3);
        let filled = Filled::empty(&mut Random::new(2), setting, Kind::Collector, 5);
        assert_eq!(filled.looked_at(&[7], true), Err("a query finds None".to_string()));
        assert!(filled.looked_at(&[7], false).is_ok());
    }
}
