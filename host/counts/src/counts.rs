//! All that is counted.

use ragansils_compare::random::Random;

use crate::fillings::Fillings;
use crate::forms::{Spread, SOURCES};
use crate::growths::{growths, Growth};
use crate::keys::Kind;
use crate::plan::CountPlan;
use crate::probes::{probes, shrinking, Probes};
use crate::shrinks::{Shrinks, SHRINK_LOADS};

#[derive(Default)]
pub struct Counts {
    pub fillings: Vec<Fillings>,
    pub growths: Vec<(Kind, Vec<Growth>)>,
    pub probes: Vec<Probes>,
    pub shrinks: Vec<Shrinks>,
    pub spreads: Vec<Spread>,
}

impl Counts {
    /// The same seed and plan, the same counts. `say` hears which part comes next.
    pub fn count(seed: u64, plan: &CountPlan, say: impl Fn(&str)) -> Result<Counts, String> {
        let mut random = Random::new(seed);
        let mut counts = Counts::default();
        for kind in [Kind::Random, Kind::Collector] {
            say(&format!("fillings and growths, {}", kind.name()));
            for &k in plan.filled {
                counts.fillings.push(Fillings::count(&mut random, k, kind, plan.fillings)?);
            }
            counts.growths.push((kind, growths(&mut random, kind, plan.grown_again)?));
        }
        for (kind, capacities) in
            [(Kind::Random, plan.capacities), (Kind::Collector, plan.collector_capacities)]
        {
            say(&format!("buckets that a query looks at, {}", kind.name()));
            for &c in capacities {
                counts.probes.extend(probes(&mut random, c, kind, plan.queries)?);
            }
        }
        // Last, so that the counts above are those of before there were shrinks.
        counts.count_shrinks(&mut random, plan, &say)?;
        counts.count_spreads(&mut random, plan, &say)?;
        Ok(counts)
    }

    fn count_shrinks(
        &mut self,
        random: &mut Random,
        plan: &CountPlan,
        say: impl Fn(&str),
    ) -> Result<(), String> {
        for kind in [Kind::Random, Kind::Collector] {
            say(&format!("shrinks, {}", kind.name()));
            for (&k, load) in plan.shrunk.iter().flat_map(|k| SHRINK_LOADS.map(|load| (k, load))) {
                self.shrinks.push(Shrinks::count(random, kind, k, load, plan.shrinks)?);
            }
        }
        for &c in plan.capacities {
            self.probes.push(shrinking(random, c, Kind::Random, plan.queries)?);
        }
        for &c in plan.collector_capacities {
            self.probes.push(shrinking(random, c, Kind::Collector, plan.queries)?);
        }
        Ok(())
    }

    /// The counts of both forms alone.
    pub fn of_forms(seed: u64, plan: &CountPlan, say: impl Fn(&str)) -> Result<Counts, String> {
        let mut counts = Counts::default();
        counts.count_spreads(&mut Random::new(seed), plan, say)?;
        Ok(counts)
    }

    /// After the shrinks, for the same reason.
    fn count_spreads(
        &mut self,
        random: &mut Random,
        plan: &CountPlan,
        say: impl Fn(&str),
    ) -> Result<(), String> {
        for (&k, source) in plan.spread.iter().flat_map(|k| SOURCES.map(|source| (k, source))) {
            say(&format!("both forms, k = {k}, {source}"));
            self.spreads.extend(Spread::count(random, k, source, plan.spreads)?);
        }
        Ok(())
    }

    /// The fillings with random keys, by k.
    pub fn random_fillings(&self) -> impl Iterator<Item = &Fillings> {
        self.fillings.iter().filter(|fillings| fillings.kind == Kind::Random)
    }

    /// Those of the largest tables.
    pub fn largest_random_fillings(&self) -> Option<&Fillings> {
        self.random_fillings().max_by_key(|fillings| fillings.k)
    }

    pub fn all_growths(&self) -> impl Iterator<Item = &Growth> {
        self.growths.iter().flat_map(|(_, growths)| growths)
    }
}
