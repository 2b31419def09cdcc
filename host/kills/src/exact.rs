//! Kills at every store number of every kind of change, and of the recoveries after them.

use std::collections::BTreeMap;
use std::path::Path;

use ragansils_compare::plain_map::PlainMap;
use ragansils_compare::random::Random;
use ragansils_compare::say;
use ragansils_model::Event;

use crate::collector::Task;
use crate::judge::{made, maps_after, read_words, stores_of, which_map, write_words};
use crate::process::Collector;
use crate::said::Said;
use crate::tables::{Kind, Prepared};
use crate::wrong::Wrong;

/// Kills by kind of change and by the stores that were made.
#[derive(Default)]
pub struct Kills {
    counts: BTreeMap<Kind, BTreeMap<u64, u64>>,
}

impl Kills {
    fn count(&mut self, kind: Kind, made: u64) {
        *self.counts.entry(kind).or_default().entry(made).or_default() += 1;
    }

    pub fn total(&self) -> u64 {
        self.counts.values().flat_map(BTreeMap::values).sum()
    }

    pub fn print(&self) {
        say!("kills after so many stores of a change (the numbers of kills):");
        for (kind, by_made) in &self.counts {
            let cells: Vec<String> = by_made.iter().map(|(made, kills)| format!("{made}: {kills}")).collect();
            say!("  {kind:<32} {}", cells.join("  "));
        }
    }
}

pub struct Exact<'a> {
    pub path: &'a Path,
    pub random: &'a mut Random,
    pub kills: &'a mut Kills,
    /// A mistake of the collector that is killed; for the self test.
    pub wrong: Option<Wrong>,
}

impl Exact<'_> {
    /// Kills a change after each of its stores, and before the first.
    pub fn every_store(&mut self, prepared: &Prepared) -> Result<(), String> {
        for after in 0..=prepared.kind.stores {
            let in_words = |what| format!("{:?} killed after {after} stores: {what}", prepared.event);
            self.one_kill(prepared, after).map_err(in_words)?;
        }
        Ok(())
    }

    fn one_kill(&mut self, prepared: &Prepared, after: u64) -> Result<(), String> {
        write_words(self.path, &prepared.words)?;
        let said = self.kill_at(prepared.event, prepared.kind, after)?;
        let maps = self.maps_now(prepared, after, &said)?;
        let cut = read_words(self.path)?;
        if self.wrong.is_none() && cut != made(&prepared.words, &prepared.list, after) {
            return Err("the file does not hold exactly these stores".to_string());
        }
        self.recovery_killed(&cut, &maps)?;
        write_words(self.path, &cut)?;
        self.opened_again(&maps)
    }

    /// Starts a collector that waits after so many stores of the event, and kills it there; answers what it said.
    fn kill_at(&mut self, event: Event, kind: Kind, after: u64) -> Result<Vec<Said>, String> {
        let mut collector = Collector::start(self.path, self.wrong, Task::Hold { event, after })?;
        let mut said = vec![];
        loop {
            match collector.hear()? {
                Some(Said::Held) => break,
                Some(one) => said.push(one),
                // A wrong collector may leave stores out, and then ends before it is held.
                None if self.wrong.is_some() => return Ok(said),
                None => return Err("the collector ended before it was killed".to_string()),
            }
        }
        said.extend(collector.kill()?);
        self.kills.count(kind, after);
        Ok(said)
    }

    /// The maps that may be. Before the first store there is only the old one, and after the last only the new one.
    fn maps_now(&self, prepared: &Prepared, after: u64, said: &[Said]) -> Result<Vec<PlainMap>, String> {
        Ok(match after {
            0 => vec![prepared.before.clone()],
            _ if after == prepared.kind.stores => vec![prepared.after.clone()],
            _ => maps_after(&prepared.before, said)?,
        })
    }

    /// Where recovery has something to do: kills it after each of its stores, and the next one somewhere too.
    fn recovery_killed(&mut self, cut: &[u64], maps: &[PlainMap]) -> Result<(), String> {
        let stores = stores_of(cut, Event::Recover).map_or(0, |list| list.len() as u64 / 2);
        if self.wrong.is_some() || stores == 0 {
            return Ok(());
        }
        let kind = Kind::of(cut, Event::Recover, stores)?;
        for after in 0..=stores {
            write_words(self.path, cut)?;
            self.kill_at(Event::Recover, kind, after)?;
            let again = stores_of(&read_words(self.path)?, Event::Recover);
            let again = again
                .map_err(|refusal| format!("a killed recovery leaves a table refused with {refusal}"))?;
            let kind_again = Kind { stores: again.len() as u64 / 2, ..kind };
            let after_again = self.random.below(kind_again.stores + 1);
            self.kill_at(Event::Recover, kind_again, after_again)?;
            self.opened_again(maps).map_err(|what| format!("recovery killed after {after}: {what}"))?;
        }
        Ok(())
    }

    /// A fresh process opens the table; then it is sound and has one of the maps.
    fn opened_again(&mut self, maps: &[PlainMap]) -> Result<(), String> {
        let status = Collector::start(self.path, self.wrong, Task::Open)?.finish()?;
        if !status.success() {
            return Err(format!("a fresh collector cannot open the table: {status}"));
        }
        which_map(&read_words(self.path)?, maps).map(drop)
    }
}
