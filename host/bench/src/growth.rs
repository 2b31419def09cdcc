//! One whole growth, begun at the high load: of a level table by its drivers, and beside them the doubling of tables that a user might
//! pick.

mod limits;

use std::path::Path;

use ragansils_compare::random::Random;
use ragansils_counts::plan::HIGH_LOAD;
use ragansils_counts::{full_size, last_growth, NEW_FORM};

use crate::clock::timed;
use crate::drivers::{repeats, Driver, Level, GOING_ON, OLD_WAY};
use crate::instructions::{count_driven, Count, SEED};
use crate::peers::{self, Peer};
use crate::plan::Plan;
use crate::rounds::{Measured, Rounds};

/// Up to this capacity the old way is gone too: there it takes about a second.
const LARGEST_OLD_WAY: u64 = 17;

/// What was measured of growths.
#[derive(Default)]
pub struct Growths {
    /// To each capacity, nanoseconds for a growth.
    pub times: Vec<Measured>,
    /// For an item that moves, to some capacities, by the library and by the twin.
    pub instructions: Vec<(u64, [Count; 2])>,
}

/// Drawn from the seed alone, so that the tables are the same without the rest of a run. Callgrind's files go to a folder. `say` hears
/// which part comes next.
pub fn measure(plan: &Plan, seed: u64, folder: &Path, say: impl Fn(&str)) -> Result<Growths, String> {
    say("growth, instructions");
    let instructions = count_driven("counted-growth", folder)?;
    let mut random = Random::new(seed);
    let mut times = vec![];
    for c in plan.grown.clone() {
        say(&format!("growth to c = {c}"));
        times.push(Growing::new(&mut random, c)?.times(plan.growth_rounds())?);
    }
    Ok(Growths { times, instructions })
}

/// Goes one way through a growth, under valgrind, and answers how many items it moved.
pub fn run_counted(side: &str, c: u64) -> Result<usize, String> {
    let mut level = level(&mut Random::new(SEED), c)?;
    level.run_counted(&GOING_ON, side)?;
    Ok(level.items_in_bottom)
}

/// A level table that is about to grow for the last time.
pub fn level(random: &mut Random, c: u64) -> Result<Level, String> {
    let setting = last_growth(full_size(random, NEW_FORM, c));
    Level::new(random, setting, HIGH_LOAD)
}

/// All that grows to one capacity.
struct Growing {
    c: u64,
    level: Level,
    drivers: Vec<(&'static str, Driver)>,
    others: Vec<Box<dyn Peer>>,
}

impl Growing {
    fn new(random: &mut Random, c: u64) -> Result<Growing, String> {
        let level = level(random, c)?;
        let mut drivers = GOING_ON.to_vec();
        if c <= LARGEST_OLD_WAY {
            drivers.push(OLD_WAY);
        }
        let keys = level.keys.present();
        let mut others = peers::growing(keys.len());
        for peer in &mut others {
            let accepted = peer.insert_all(keys);
            peer.check_accepted(accepted, keys)?;
        }
        Ok(Growing { c, level, drivers, others })
    }

    fn times(&mut self, rounds: usize) -> Result<Measured, String> {
        self.level.check_words(&self.drivers)?;
        let names = self.drivers.iter().map(|&(name, _)| name);
        let mut all = Rounds::<1>::named(names.chain(self.others.iter().map(|peer| peer.name())).collect());
        let repeats = repeats(1 << (self.c - 2));
        for number in 0..=rounds {
            all.whole_ways(number, repeats, |at| self.grow(at))?;
        }
        let [times] = all.finish(self.c, [format!("one whole growth, load {HIGH_LOAD}")]);
        Ok(times)
    }

    /// Nanoseconds of one growth, and whether it came to its end. What has grown is brought back.
    fn grow(&mut self, at: usize) -> Result<(f64, bool), String> {
        match self.drivers.get(at) {
            Some(&(_, driver)) => self.level.drive(driver),
            None => {
                let peer = &mut self.others[at - self.drivers.len()];
                let grown = timed(|| peer.grow());
                peer.after_growth();
                Ok(grown)
            }
        }
    }
}

#[cfg(test)]
mod tests {
    use super::*;
    use crate::drivers::FROM_FIRST;
    use crate::peers::{CUCKOO, LIBRARY, TWIN};

    #[test]
    fn every_way_ends_alike() {
        let mut growing = Growing::new(&mut Random::new(1), 7).unwrap();
        growing.level.check_words(&growing.drivers).unwrap();
        assert!(growing.level.items_in_bottom > 0);
        assert_ne!(growing.level.words, growing.level.before);
    }

    #[test]
    fn all_are_measured_side_by_side() {
        let measured = Growing::new(&mut Random::new(1), 6).unwrap().times(2).unwrap();
        let names: Vec<&str> = measured.series.iter().map(|series| series.peer).collect();
        assert_eq!(names, [LIBRARY, TWIN, FROM_FIRST, CUCKOO, "HashMap", "HashMap, quick hash"]);
        assert!(measured.series.iter().all(|series| series.rounds.len() == 2));
    }
}
