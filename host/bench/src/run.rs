//! The whole run, part by part.

use std::path::Path;
use std::time::Instant;

use ragansils_compare::history::Setting;
use ragansils_compare::random::Random;
use ragansils_counts::plan::{HIGH_LOAD, LOADS};
use ragansils_counts::{full_size, items_at, last_growth, Counts, Keys, Kind, NEW_FORM};

use crate::chains::{self, Chains};
use crate::growth::{self, Growths};
use crate::instructions::{count_all, Counted};
use crate::operations::{few_of, inserts, Filled};
use crate::peers;
use crate::plan::Plan;
use crate::recovery::{self, Kinds, SOUND};
use crate::rounds::Measured;
use crate::shrink::{self, Shrinks};

#[derive(Default)]
pub struct Results {
    /// Queries and changes, nanoseconds for one.
    pub operations: Vec<Measured>,
    /// Inserts of the two sides and of a twin with a list.
    pub listed_inserts: Vec<Measured>,
    /// Recovery, nanoseconds for a table: of every kind at the plan's capacities, and of sound tables at others.
    pub recovery: Vec<Measured>,
    pub more_recovery: Vec<Measured>,
    pub growths: Growths,
    pub shrinks: Shrinks,
    pub counts: Counts,
    pub instructions: Vec<Counted>,
    pub chains: Vec<Chains>,
}

impl Results {
    /// The recoveries of a sound table at the high load, by capacity.
    pub fn sound_recoveries(&self) -> Vec<&Measured> {
        let sound = recovery::operation(SOUND, HIGH_LOAD);
        let all = self.recovery.iter().chain(&self.more_recovery);
        let mut sorted: Vec<&Measured> = all.filter(|measured| measured.operation == sound).collect();
        sorted.sort_by_key(|measured| measured.c);
        sorted
    }
}

pub struct Run<'a> {
    pub plan: &'a Plan,
    pub random: Random,
    /// Where LMDB keeps its file.
    pub folder: &'a Path,
    pub begun: Instant,
    pub results: Results,
}

impl Run<'_> {
    /// The counts are drawn from the seed alone, so that they are the same without the rest.
    pub fn everything(&mut self, seed: u64, callgrind_folder: &Path) -> Result<(), String> {
        self.results.counts = Counts::count(seed, &self.plan.counts, |part| self.say(part))?;
        self.say("instructions");
        self.results.instructions = count_all(callgrind_folder)?;
        self.say("chains");
        self.results.chains = chains::measure(seed, callgrind_folder)?;
        self.results.growths = growth::measure(self.plan, seed, callgrind_folder, |part| self.say(part))?;
        self.results.shrinks = shrink::measure(self.plan, seed, callgrind_folder, |part| self.say(part))?;
        for &c in self.plan.counts.capacities {
            self.at_rest(c, Kind::Random)?;
            self.growing(c, Kind::Random)?;
            self.listed_inserts(c)?;
            self.recoveries(c)?;
        }
        for &c in self.plan.counts.collector_capacities {
            self.at_rest(c, Kind::Collector)?;
            self.growing(c, Kind::Collector)?;
        }
        self.recovery_curve()
    }

    fn say(&self, part: &str) {
        crate::note(self.begun, part);
    }

    /// All peers, empty, with keys enough for a load.
    fn peers<'k>(&self, setting: Setting, keys: &'k Keys, when: &str) -> Filled<'k> {
        let peers = peers::all(setting, keys.present().len(), self.folder);
        Filled { c: setting.c, peers, keys, items: 0, when: when.to_string() }
    }

    /// Queries, inserts, updates and deletes at each load.
    fn at_rest(&mut self, c: u64, kind: Kind) -> Result<(), String> {
        self.say(&format!("queries and changes, c = {c}, {}", kind.name()));
        let setting = full_size(&mut self.random, NEW_FORM, c);
        let few = few_of(setting);
        let (rounds, calls) = (self.plan.rounds_at(c), self.plan.calls);
        let keys = Keys::new(&mut self.random, kind, items_at(setting, HIGH_LOAD) + 4 * few, calls);
        let mut filled = self.peers(setting, &keys, "");
        for load in LOADS {
            filled.when = format!("load {load}");
            filled.fill(items_at(setting, load))?;
            let measured = &mut self.results.operations;
            measured.extend(filled.queries(&mut self.random, rounds, calls)?);
            measured.extend(filled.inserts_and_deletes(&mut self.random, rounds, calls, few)?);
            measured.extend(filled.updates(&mut self.random, rounds, calls)?);
        }
        Ok(())
    }

    /// What a list costs an insert by itself.
    fn listed_inserts(&mut self, c: u64) -> Result<(), String> {
        let measured =
            inserts(self.plan, &mut self.random, (NEW_FORM, c), Kind::Random, peers::two_sides_and_a_list)?;
        self.results.listed_inserts.extend(measured);
        Ok(())
    }

    /// Queries in the middle of a growth.
    fn growing(&mut self, c: u64, kind: Kind) -> Result<(), String> {
        let setting = last_growth(full_size(&mut self.random, NEW_FORM, c));
        let keys = Keys::new(&mut self.random, kind, items_at(setting, HIGH_LOAD), self.plan.calls);
        let mut filled = self.peers(setting, &keys, "growing");
        filled.fill(keys.present().len())?;
        filled.grow_half_way()?;
        let measured = filled.queries(&mut self.random, self.plan.rounds_at(c), self.plan.calls)?;
        self.results.operations.extend(measured);
        Ok(())
    }

    fn recoveries(&mut self, c: u64) -> Result<(), String> {
        self.say(&format!("recovery, c = {c}"));
        let (setting, rounds) = (full_size(&mut self.random, NEW_FORM, c), self.plan.whole_table_rounds(c));
        for (load, kinds) in [(LOADS[0], Kinds::Sound), (HIGH_LOAD, Kinds::All)] {
            let measured = recovery::measure(&mut self.random, setting, load, rounds, kinds)?;
            self.results.recovery.extend(measured);
        }
        Ok(())
    }

    /// How recovery takes longer in larger tables: the capacities between those of the plan.
    fn recovery_curve(&mut self) -> Result<(), String> {
        self.say("recovery by capacity");
        let is_between = |c: &u64| !self.plan.counts.capacities.contains(c);
        let recovered: Vec<u64> = self.plan.recovered.clone().filter(is_between).collect();
        for c in recovered {
            let (setting, rounds) =
                (full_size(&mut self.random, NEW_FORM, c), self.plan.whole_table_rounds(c));
            let measured = recovery::measure(&mut self.random, setting, HIGH_LOAD, rounds, Kinds::Sound)?;
            self.results.more_recovery.extend(measured);
        }
        Ok(())
    }
}
