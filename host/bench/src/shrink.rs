//! One whole shrink, by the library and by the twin, and beside it the growth of as many items between the same two sizes.

mod limits;

use std::path::Path;

use ragansils_compare::random::Random;
use ragansils_counts::plan::SHRINKING_LOAD;
use ragansils_counts::{full_size, NEW_FORM};

use crate::drivers::{repeats, Driver, Level, GOING_ON, SHRINKING};
use crate::growth;
use crate::instructions::{count_driven, Count, SEED};
use crate::plan::Plan;
use crate::rounds::{Measured, Rounds};

/// The library's growth to the capacity that the shrink is from.
pub const GROWTH: &str = "library, growth";

/// What was measured of shrinks.
#[derive(Default)]
pub struct Shrinks {
    /// From each capacity, nanoseconds for a shrink.
    pub times: Vec<Measured>,
    /// For an item that moves, from some capacities, by the library and by the twin.
    pub instructions: Vec<(u64, [Count; 2])>,
}

/// Drawn from the seed alone, as growths are.
pub fn measure(plan: &Plan, seed: u64, folder: &Path, say: impl Fn(&str)) -> Result<Shrinks, String> {
    say("shrink, instructions");
    let instructions = count_driven("counted-shrink", folder)?;
    let mut random = Random::new(seed);
    let mut times = vec![];
    for c in plan.grown.clone() {
        say(&format!("shrink from c = {c}"));
        times.push(Shrinking::new(&mut random, c)?.times(plan.growth_rounds())?);
    }
    Ok(Shrinks { times, instructions })
}

/// Goes one way through a shrink, under valgrind, and answers how many items it moved.
pub fn run_counted(side: &str, c: u64) -> Result<usize, String> {
    let mut level = level(&mut Random::new(SEED), c)?;
    level.run_counted(&SHRINKING, side)?;
    Ok(level.items_in_top())
}

/// A level table that is as large as it can be, and is about to shrink.
fn level(random: &mut Random, c: u64) -> Result<Level, String> {
    let setting = full_size(random, NEW_FORM, c);
    Level::new(random, setting, SHRINKING_LOAD)
}

/// A table that shrinks from a capacity, and one that grows to it.
struct Shrinking {
    c: u64,
    shrinks: Level,
    grows: Level,
}

impl Shrinking {
    fn new(random: &mut Random, c: u64) -> Result<Shrinking, String> {
        Ok(Shrinking { c, shrinks: level(random, c)?, grows: growth::level(random, c)? })
    }

    fn times(&mut self, rounds: usize) -> Result<Measured, String> {
        self.shrinks.check_words(&SHRINKING)?;
        let names = SHRINKING.iter().map(|&(name, _)| name).chain([GROWTH]).collect();
        let mut all = Rounds::<1>::named(names);
        // The growth's interim level is the smaller one.
        let repeats = repeats(1 << (self.c - 2));
        for number in 0..=rounds {
            all.whole_ways(number, repeats, |at| self.drive(at))?;
        }
        let [times] = all.finish(self.c, [format!("one whole shrink, load {SHRINKING_LOAD}")]);
        Ok(times)
    }

    fn drive(&mut self, at: usize) -> Result<(f64, bool), String> {
        let grown_by_the_crate: Driver = GOING_ON[0].1;
        match SHRINKING.get(at) {
            Some(&(_, driver)) => self.shrinks.drive(driver),
            None => self.grows.drive(grown_by_the_crate),
        }
    }
}

#[cfg(test)]
mod tests {
    use super::*;
    use crate::peers::{LIBRARY, TWIN};

    #[test]
    fn both_ways_end_alike() {
        let mut shrinking = Shrinking::new(&mut Random::new(1), 7).unwrap();
        shrinking.shrinks.check_words(&SHRINKING).unwrap();
        assert_ne!(shrinking.shrinks.words, shrinking.shrinks.before);
    }

    /// A growth's items are as many, between the same two sizes.
    #[test]
    fn a_shrink_and_a_growth_have_as_many_items() {
        let Shrinking { shrinks, grows, .. } = Shrinking::new(&mut Random::new(1), 8).unwrap();
        assert_eq!(shrinks.keys.present().len(), grows.keys.present().len());
        assert!(shrinks.items_in_top() > grows.items_in_bottom);
    }

    #[test]
    fn shrinks_and_growths_are_measured_side_by_side() {
        let measured = Shrinking::new(&mut Random::new(1), 6).unwrap().times(2).unwrap();
        let names: Vec<&str> = measured.series.iter().map(|series| series.peer).collect();
        assert_eq!(names, [LIBRARY, TWIN, GROWTH]);
        assert!(measured.series.iter().all(|series| series.rounds.len() == 2));
    }
}
