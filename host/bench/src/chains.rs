//! The frames at an address: one chain beside queries of the same keys, in the same words.

use std::path::Path;

use ragansils::Record;
use ragansils_compare::random::Random;
use ragansils_counts::plan::HIGH_LOAD;
use ragansils_counts::{draw, full_size, items_at, sampled_addresses, shuffle, LevelTable, NEW_FORM};
use ragansils_model::SUCCESS;
use ragansils_twin::{Proved, Side};

use crate::clock::timed;
use crate::instructions::{count_run, counted_calls, this_program, Count, SEED};
use crate::limits::median;
use crate::rounds::{Measured, Rounds};

/// The depths of a usual chain, and of a long one.
const DEPTHS: [u64; 2] = [5, 20];
const C: u64 = 14;
/// Keys that are looked up in a round.
const KEYS: usize = 40_000;
/// More than of other operations: the claim is one of hundredths.
const ROUNDS: usize = 301;
/// What a chain may cost, as a multiple of its queries.
pub const LIMIT: f64 = 1.05;

type Way = fn(&Frames) -> u64;

pub const CHAIN: &str = "chain";
pub const QUERIES: &str = "queries";
/// Each answers a sum of all records and numbers of buckets, in which both must agree.
const WAYS: [(&str, Way); 2] = [(CHAIN, Frames::by_chains), (QUERIES, Frames::by_queries)];

/// What was measured of chains of one length.
pub struct Chains {
    pub depths: u64,
    /// Nanoseconds for all frames at an address.
    pub times: Measured,
    /// Of a chain, and of its queries.
    pub instructions: [Count; 2],
}

pub fn about() -> String {
    format!("c = {C}, load {HIGH_LOAD}, collector's keys, form {NEW_FORM}")
}

/// Drawn from the seed alone, so that the tables are the same without the rest of a run. Callgrind's files go to a folder.
pub fn measure(seed: u64, folder: &Path) -> Result<Vec<Chains>, String> {
    let program = this_program()?;
    let mut random = Random::new(seed);
    let one = |depths: u64| {
        let times = Frames::new(&mut random, depths)?.times()?;
        let count = |way| count_run(&program, &["counted-frames", way, &depths.to_string()], folder);
        Ok(Chains { depths, times, instructions: [count(CHAIN)?, count(QUERIES)?] })
    };
    DEPTHS.into_iter().map(one).collect()
}

/// Looks frames up in one way, under valgrind, and answers at how many addresses.
pub fn run_counted(way: &str, depths: u64) -> Result<usize, String> {
    let known = WAYS.into_iter().find(|(name, _)| *name == way);
    let (_, look_up) = known.ok_or_else(|| format!("no way {way}"))?;
    let frames = Frames::new(&mut Random::new(SEED), depths)?;
    let mut answers = 0;
    counted_calls(&mut || look_up(&frames), &mut answers);
    if answers != frames.by_queries() {
        return Err(format!("{way} does not answer as queries do"));
    }
    Ok(frames.sampled.len())
}

impl Chains {
    /// The costs of a chain as multiples of those of its queries.
    fn ratios(&self) -> [(&'static str, f64); 2] {
        let [chain, queries] = &self.instructions;
        let time = median(self.times.ratio(CHAIN, QUERIES));
        [("time", time), ("instructions", chain.instructions / queries.instructions)]
    }

    /// Says where a chain costs more than it may; what is no number is not within the limit.
    pub fn check(&self) -> Result<(), String> {
        let is_over = |(_, ratio): &(&str, f64)| ratio.is_nan() || *ratio > LIMIT;
        match self.ratios().into_iter().find(is_over) {
            None => Ok(()),
            Some((cost, ratio)) => Err(format!(
                "a chain of {} depths takes {ratio:.3} times the {cost} of its queries, and may take {LIMIT} times",
                self.depths
            )),
        }
    }
}

/// A table in which every address has the same depths, and the addresses of some samples.
struct Frames {
    table: LevelTable<Proved>,
    depths: u64,
    sampled: Vec<u64>,
}

impl Frames {
    fn new(random: &mut Random, depths: u64) -> Result<Frames, String> {
        let setting = full_size(random, NEW_FORM, C);
        let addresses = sampled_addresses(random, items_at(setting, HIGH_LOAD) / depths as usize);
        let mut keys: Vec<u64> = addresses.iter().flat_map(|&address| keys_of(address, depths)).collect();
        shuffle(random, &mut keys);
        let mut table = LevelTable::new(Proved::default(), setting);
        table.fill(&keys)?;
        let sampled = draw(random, &addresses, KEYS / depths as usize);
        Ok(Frames { table, depths, sampled })
    }

    /// Before its turn each way is gone once untimed, so that it finds the processor as it left it itself, and not as the other did.
    fn times(&self) -> Result<Measured, String> {
        let mut all = Rounds::<1>::named(WAYS.map(|(name, _)| name).to_vec());
        for number in 0..=ROUNDS {
            all.turns(number, |at| {
                let (_, look_up) = WAYS[at];
                let warmed = look_up(self);
                let (time, answers) = timed(|| look_up(self));
                Ok(([time / self.sampled.len() as f64], answers.wrapping_add(warmed)))
            })?;
        }
        let operation = format!("chain of {} depths, {}", self.depths, about());
        let [times] = all.finish(C, [operation]);
        Ok(times)
    }

    fn by_chains(&self) -> u64 {
        let LevelTable { side, words } = &self.table;
        let mut records = vec![0; 2 * self.depths as usize];
        let mut sum = 0;
        for &address in &self.sampled {
            let (number, buckets) = side.chain(words, address, self.depths - 1, &mut records);
            if number == SUCCESS {
                sum = records.chunks_exact(2).fold(sum, |sum, record| with_record(sum, record[0], record[1]));
            }
            sum = sum.wrapping_add(buckets);
        }
        sum
    }

    fn by_queries(&self) -> u64 {
        let LevelTable { side, words } = &self.table;
        let mut sum = 0;
        for &address in &self.sampled {
            for key in keys_of(address, self.depths) {
                if let Ok(lookup) = side.look_up(words, key) {
                    if let Some(Record { function, place }) = lookup.record() {
                        sum = with_record(sum, function, place);
                    }
                    sum = sum.wrapping_add(lookup.buckets);
                }
            }
        }
        sum
    }
}

/// The keys of an address, the innermost first.
fn keys_of(address: u64, depths: u64) -> impl Iterator<Item = u64> {
    (0..depths).rev().map(move |depth| address * 256 + depth)
}

fn with_record(sum: u64, function: u64, place: u64) -> u64 {
    sum.wrapping_add(function ^ place)
}

#[cfg(test)]
mod tests {
    use super::*;
    use crate::rounds::Series;
    use ragansils_counts::record_of;

    fn chains(times: [f64; 2], instructions: [f64; 2]) -> Chains {
        let series = |(peer, time)| Series { peer, rounds: vec![time] };
        let times = Measured {
            c: C,
            operation: String::new(),
            series: [CHAIN, QUERIES].into_iter().zip(times).map(series).collect(),
        };
        let instructions = instructions.map(|instructions| Count { instructions, mispredicted: 0.0 });
        Chains { depths: 5, times, instructions }
    }

    #[test]
    fn a_chain_may_cost_little_more_than_its_queries() {
        assert_eq!(chains([105.0, 100.0], [90.0, 100.0]).check(), Ok(()));
        let slow = chains([106.0, 100.0], [90.0, 100.0]).check().unwrap_err();
        assert_eq!(
            slow,
            "a chain of 5 depths takes 1.060 times the time of its queries, and may take 1.05 times"
        );
        let long = chains([100.0, 100.0], [111.0, 100.0]).check().unwrap_err();
        assert_eq!(
            long,
            "a chain of 5 depths takes 1.110 times the instructions of its queries, and may take 1.05 times"
        );
    }

    #[test]
    fn what_was_not_measured_is_not_within_the_limit() {
        assert!(chains([0.0, 0.0], [1.0, 1.0]).check().is_err());
    }

    #[test]
    fn both_ways_find_all_records() {
        let frames = Frames::new(&mut Random::new(1), 5).unwrap();
        assert_eq!(frames.by_chains(), frames.by_queries());
        let keys: Vec<u64> = frames.sampled.iter().flat_map(|&address| keys_of(address, 5)).collect();
        let records = keys.iter().map(|&key| record_of(key));
        let sum = records.fold(0, |sum, [function, place]| with_record(sum, function, place));
        let buckets = frames.by_chains().wrapping_sub(sum) as usize;
        assert!((keys.len()..=4 * keys.len()).contains(&buckets));
    }
}
