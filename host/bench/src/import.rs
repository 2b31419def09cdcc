//! An import, which fills a table from nothing, each list made: by the library before a change and by the library after it.

mod limits;
mod round;

use std::path::Path;

use ragansils_compare::random::Random;
use ragansils_counts::plan::HIGH_LOAD;
use ragansils_counts::{full_size, items_at, Keys, Kind, OLD_FORM};

use crate::builds::{BuildCounts, BuildTimes, Builds, Part};
use crate::instructions::{count_run, count_usual, counted_calls, SEED};
use crate::limits::TARGET_CAPACITIES;
use crate::operations::{inserts, Operation};
use crate::peers::{one_side, two_sides};
use crate::plan::Plan;
use crate::rounds::Measured;

pub use round::run_round;

/// The capacities of the tables that are filled, and how many rounds each has by turns with the others. Small tables take little time, and
/// at c = 14, where a table just fits a cache, it tells most where a process finds its memory.
const IMPORTED: [(u64, usize); 3] = [(8, 5), (14, 5), (18, 1)];
/// The one at which instructions are counted.
const COUNTED_C: u64 = 8;
/// The rounds of the largest table.
const ROUNDS: usize = 31;

/// What was measured of imports, and of the inserts that they are made of.
pub struct Imports {
    /// For an insert in a whole import.
    pub times: Vec<BuildTimes>,
    /// At each load, by the later library and by the twin.
    pub inserts: Vec<Measured>,
    /// Of an insert at the high load, and of one in a whole import.
    pub insert_counts: BuildCounts,
    pub import_counts: BuildCounts,
}

impl Imports {
    /// All that has rounds.
    pub fn measured(&self) -> impl Iterator<Item = &Measured> {
        self.times.iter().flat_map(BuildTimes::measured).chain(&self.inserts)
    }
}

pub fn about() -> String {
    format!("to load {HIGH_LOAD}; random keys")
}

pub fn about_counted() -> String {
    format!("c = {COUNTED_C}, to load {HIGH_LOAD}")
}

/// Drawn from the seed alone. `before` is the build with the earlier library; callgrind's files go to a folder; `say` hears which part
/// comes next.
pub fn measure(
    plan: &Plan,
    seed: u64,
    before: &Path,
    folder: &Path,
    say: impl Fn(&str),
) -> Result<Imports, String> {
    let builds = Builds::with(before)?;
    say("instructions");
    let insert_counts =
        builds.counts(|program, side| count_usual(program, Operation::Insert, side, OLD_FORM, folder))?;
    let c = COUNTED_C.to_string();
    let import_counts =
        builds.counts(|program, side| count_run(program, &["counted-import", side, &c], folder))?;
    let mut random = Random::new(seed);
    say("inserts");
    let inserts = inserts_beside_the_twin(plan, &mut random)?;
    say("imports");
    let times = import_times(&builds, &mut random)?;
    Ok(Imports { times, inserts, insert_counts, import_counts })
}

fn inserts_beside_the_twin(plan: &Plan, random: &mut Random) -> Result<Vec<Measured>, String> {
    let mut measured = vec![];
    for (c, kind) in TARGET_CAPACITIES.into_iter().flat_map(|c| [(c, Kind::Random), (c, Kind::Collector)]) {
        // One seed in fifty or so draws multipliers that spread a collector's keys too badly for the high load.
        let at = |error| format!("inserts, c = {c}, {}: {error}; try another seed", kind.name());
        measured.extend(inserts(plan, random, (OLD_FORM, c), kind, two_sides).map_err(at)?);
    }
    Ok(measured)
}

fn import_times(builds: &Builds, random: &mut Random) -> Result<Vec<BuildTimes>, String> {
    let part = |(c, share): (u64, usize)| Part {
        c,
        share,
        command: vec!["import-round".to_string(), c.to_string()],
        operations: vec!["import".to_string()],
    };
    builds.times::<2>(IMPORTED.into_iter().map(part).collect(), ROUNDS, random)
}

/// Fills one table by one side, under valgrind, and answers how many keys came in.
pub fn run_counted(side: &str, c: u64) -> Result<usize, String> {
    let mut random = Random::new(SEED);
    let setting = full_size(&mut random, OLD_FORM, c);
    let keys = Keys::new(&mut random, Kind::Random, items_at(setting, HIGH_LOAD), 0);
    let mut peer = one_side(setting, side)?;
    let mut accepted = 0;
    counted_calls(&mut || peer.insert_all(keys.present()), &mut accepted);
    peer.check_accepted(accepted, keys.present())?;
    Ok(keys.present().len())
}

/// Made-up measurements, for tests of what is said of them.
#[cfg(test)]
pub mod examples {
    use super::*;
    use crate::builds::examples::{counts, measured, times};
    use crate::peers::{LIBRARY, TWIN};

    /// With these times of inserts at c = 14 and 18, where the twin takes 100, and of imports at c = 8 and 18.
    pub fn imports(inserts: [f64; 2], instructions: f64, after: [f64; 2]) -> Imports {
        let insert = |(c, time)| measured(c, "insert", [(LIBRARY, time), (TWIN, 100.0)]);
        Imports {
            times: [8, 18].into_iter().zip(after).map(|(c, time)| times(c, "import", time)).collect(),
            inserts: [14, 18].into_iter().zip(inserts).map(insert).collect(),
            insert_counts: counts(instructions),
            import_counts: counts(instructions),
        }
    }
}
