//! Two tables asked as one, beside the queries that a user would make without it: one of the newer table, and where that has not the key
//! one of the older.

mod limits;
mod tables;

use std::path::Path;

use ragansils_compare::layout::FORMS;
use ragansils_compare::random::Random;
use ragansils_counts::plan::HIGH_LOAD;

use crate::builds::{with_word, Answer};
use crate::clock::timed;
use crate::instructions::{count_run, counted_calls, this_program, Count, SEED};
use crate::limits::TARGET_CAPACITIES;
use crate::processes::Processes;
use crate::rounds::{Measured, Rounds};

use tables::{Built, Tables};

/// The capacities of the older table, and how many rounds each has by turns with the other. Where the memory of a process happens to lie
/// matters most in the smaller tables, and these take little time.
const MEASURED: [(u64, usize); 2] = [(TARGET_CAPACITIES[0], 3), (TARGET_CAPACITIES[1], 1)];
/// The rounds of the largest tables.
const ROUNDS: usize = 31;
/// What a process does in one of them, of which the median counts: turns of both ways, with so many keys each.
const TURNS_IN_A_ROUND: usize = 3;
const KEYS: usize = 40_000;
/// The newer table is as large as the older one, or has this capacity: code that was reloaded is little beside a whole build.
const SMALL_C: u64 = 10;
/// The older of the tables whose lookups are counted, and how many there are. The newer has the small capacity.
const COUNTED_C: u64 = 12;
const COUNTED_KEYS: usize = 2_000;

pub const TOGETHER: &str = "together";
pub const QUERIES: &str = "queries";
const PEERS: [&str; 2] = [TOGETHER, QUERIES];

/// A time for each peer and operation.
const OPERATIONS: usize = FORMS.len() * NEWER_SIZES * Asked::ALL.len() * Call::ALL.len();
const TIMES: usize = PEERS.len() * OPERATIONS;
const NEWER_SIZES: usize = 2;

/// Which keys are asked for.
#[derive(Clone, Copy, PartialEq, Eq)]
pub enum Asked {
    Newer,
    Older,
    Neither,
    /// Most of them are the older one's.
    Both,
}

impl Asked {
    pub const ALL: [Asked; 4] = [Asked::Newer, Asked::Older, Asked::Neither, Asked::Both];

    pub fn name(self) -> &'static str {
        match self {
            Asked::Newer => "keys of the newer",
            Asked::Older => "keys of the older",
            Asked::Neither => "keys of neither",
            Asked::Both => "one key of ten of the newer",
        }
    }
}

/// Which of the two calls is measured.
#[derive(Clone, Copy, PartialEq, Eq)]
pub enum Call {
    Asked,
    Part,
}

impl Call {
    pub const ALL: [Call; 2] = [Call::Asked, Call::Part];

    pub fn name(self) -> &'static str {
        match self {
            Call::Asked => "asked",
            Call::Part => "part",
        }
    }

    /// Goes through keys in one of the ways, and sums up what the call answers; both ways must come to the same sum.
    fn run(self, at: usize, tables: Tables, keys: &[u64]) -> u64 {
        match (self, PEERS[at]) {
            (Call::Asked, TOGETHER) => tables.asked(keys),
            (Call::Asked, _) => tables.asked_by_queries(keys),
            (Call::Part, TOGETHER) => tables.parts(keys),
            (Call::Part, _) => tables.parts_by_queries(keys),
        }
    }
}

/// What was measured of two tables.
#[derive(Default)]
pub struct Overlays {
    /// Nanoseconds for a key, with the capacity of the older table.
    pub times: Vec<Measured>,
    /// For a key: by both ways, with what was counted.
    pub instructions: Vec<(String, [Count; 2])>,
}

pub fn about() -> String {
    format!(
        "Random keys, k = c, load {HIGH_LOAD}, at rest, both tables of one form. Each round is a process of its own, in which the two ways take \
         turns over the same {KEYS} keys, {TURNS_IN_A_ROUND} each; before its turn each is gone once untimed. \"together\" is the call, \
         \"queries\" one query of the newer table and, where that has not the key, one of the older."
    )
}

pub fn about_counted() -> String {
    format!("newer c = {SMALL_C}, c = {COUNTED_C}, load {HIGH_LOAD}")
}

fn operation(call: Call, asked: Asked, newer_c: u64, form: u64) -> String {
    format!("{}, {}, form {form}, newer c = {newer_c}", call.name(), asked.name())
}

/// Of an older table of this capacity, in the order in which a round tells them.
fn operations(c: u64) -> Vec<String> {
    let mut names = vec![];
    for form in FORMS {
        for newer_c in newer_capacities(c) {
            for asked in Asked::ALL {
                names.extend(Call::ALL.map(|call| operation(call, asked, newer_c, form)));
            }
        }
    }
    names
}

fn newer_capacities(c: u64) -> [u64; NEWER_SIZES] {
    [c, SMALL_C]
}

/// Drawn from the seed alone. Callgrind's files go to a folder; `say` hears which part comes next.
pub fn measure(seed: u64, folder: &Path, say: impl Fn(&str)) -> Result<Overlays, String> {
    say("instructions");
    let instructions = count_all(folder)?;
    say("two tables");
    let processes = Processes { command: "overlay-round", peers: PEERS, measured: MEASURED };
    let parts = processes.rounds::<OPERATIONS, TIMES>(ROUNDS, &mut Random::new(seed))?;
    let mut times = vec![];
    for (c, rounds) in parts {
        let names: [String; OPERATIONS] =
            operations(c).try_into().map_err(|_| "a name for each operation")?;
        times.extend(rounds.finish(c, names));
    }
    Ok(Overlays { times, instructions })
}

/// One round in a process of its own: the times of each operation, and a sum of all answers.
pub fn run_round(c: u64, seed: u64) -> Result<Answer<TIMES>, String> {
    let mut random = Random::new(seed);
    let (mut times, mut sum) = (vec![], 0);
    for form in FORMS {
        let built = Built::new(&mut random, form, c, newer_capacities(c).to_vec(), KEYS)?;
        for newer in 0..NEWER_SIZES {
            for asked in Asked::ALL {
                let keys = built.draw(&mut random, newer, asked, KEYS);
                for call in Call::ALL {
                    let [measured] = rounds(call, built.tables(newer), &keys)?.finish(c, [String::new()]);
                    times.extend(PEERS.map(|peer| measured.median_of(peer)));
                    sum = with_word(sum, call.run(0, built.tables(newer), &keys));
                }
            }
        }
    }
    Ok(Answer { times: times.try_into().map_err(|_| "a time for each way of each operation")?, sum })
}

/// Before its turn each way is gone once untimed, so that it finds caches and branches as it left them itself, and not as the other did.
fn rounds(call: Call, tables: Tables, keys: &[u64]) -> Result<Rounds<1>, String> {
    let mut all = Rounds::<1>::named(PEERS.to_vec());
    for number in 0..=TURNS_IN_A_ROUND {
        all.turns(number, |at| {
            let warmed = call.run(at, tables, keys);
            let (time, answers) = timed(|| call.run(at, tables, keys));
            Ok(([time / keys.len() as f64], answers.wrapping_add(warmed)))
        })?;
    }
    Ok(all)
}

/// Both ways of each call for each kind of key, in each form.
fn count_all(folder: &Path) -> Result<Vec<(String, [Count; 2])>, String> {
    let program = this_program()?;
    let mut counts = vec![];
    for form in FORMS {
        for asked in Asked::ALL.into_iter().filter(|&asked| asked != Asked::Both) {
            for call in Call::ALL {
                let (call_name, form_name) = (call.name(), form.to_string());
                let count = |way| {
                    count_run(
                        &program,
                        &["counted-overlay", way, call_name, asked.name(), &form_name],
                        folder,
                    )
                };
                let [together, queries] = PEERS.map(count);
                counts.push((format!("{call_name}, {}, form {form}", asked.name()), [together?, queries?]));
            }
        }
    }
    Ok(counts)
}

/// Goes one way under valgrind, and answers for how many keys.
pub fn run_counted(way: &str, call: &str, asked: &str, form: u64) -> Result<usize, String> {
    let at = PEERS.iter().position(|peer| *peer == way).ok_or_else(|| format!("no way {way}"))?;
    let call =
        Call::ALL.into_iter().find(|one| one.name() == call).ok_or_else(|| format!("no call {call}"))?;
    let asked =
        Asked::ALL.into_iter().find(|one| one.name() == asked).ok_or_else(|| format!("no {asked}"))?;
    let mut random = Random::new(SEED);
    let built = Built::new(&mut random, form, COUNTED_C, vec![SMALL_C], COUNTED_KEYS)?;
    let keys = built.draw(&mut random, 0, asked, COUNTED_KEYS);
    let mut answers = 0;
    counted_calls(&mut || call.run(at, built.tables(0), &keys), &mut answers);
    if answers != call.run(1, built.tables(0), &keys) {
        return Err(format!("{way} does not answer as queries do"));
    }
    Ok(keys.len())
}

/// Made-up measurements, for tests of what is said of them.
#[cfg(test)]
pub mod examples {
    use super::*;
    use crate::rounds::Series;

    /// With these times of both calls for keys of the newer, at c = 18; the queries take 100.
    pub fn overlays(times: [f64; 2]) -> Overlays {
        let measured = |(call, time): (Call, f64)| {
            let series = PEERS.into_iter().zip([time, 100.0]);
            let series = series.map(|(peer, time)| Series { peer, rounds: vec![time] }).collect();
            Measured { c: 18, operation: operation(call, Asked::Newer, SMALL_C, 2), series }
        };
        let counts = [90.0, 80.0].map(|instructions| Count { instructions, mispredicted: 0.5 });
        Overlays {
            times: Call::ALL.into_iter().zip(times).map(measured).collect(),
            instructions: vec![("asked, keys of neither, form 2".to_string(), counts)],
        }
    }
}

#[cfg(test)]
mod tests {
    use super::*;

    #[test]
    fn both_ways_come_to_the_same() {
        for form in FORMS {
            let mut random = Random::new(form);
            let built = Built::new(&mut random, form, 7, vec![7, 5], 500).unwrap();
            for (newer, asked) in (0..2).flat_map(|newer| Asked::ALL.map(|asked| (newer, asked))) {
                let keys = built.draw(&mut random, newer, asked, 500);
                for call in Call::ALL {
                    let sums = [0, 1].map(|at| call.run(at, built.tables(newer), &keys));
                    assert_eq!(sums[0], sums[1], "{}, {}", call.name(), asked.name());
                    assert_eq!(sums[0] == 0, (call, asked) == (Call::Part, Asked::Neither));
                }
            }
        }
    }

    /// By what the sum of `asked` is made of.
    #[test]
    fn keys_are_of_the_tables_that_they_are_said_to_be_of() {
        let mut random = Random::new(1);
        let built = Built::new(&mut random, 2, 7, vec![7, 5], 500).unwrap();
        for newer in 0..2 {
            let mut told = |asked| {
                let sum = built.tables(newer).asked(&built.draw(&mut random, newer, asked, 500));
                (sum >> 32, sum >> 16 & 0xffff)
            };
            assert_eq!((told(Asked::Newer), told(Asked::Older)), ((0, 0), (0, 500)));
            assert_eq!(told(Asked::Neither), (5 * 500, 500));
            let (refused, of_older) = told(Asked::Both);
            assert!(refused == 0 && (400..500).contains(&of_older), "{of_older}");
        }
    }

    #[test]
    fn a_round_tells_each_operation() {
        assert_eq!(operations(14).len(), OPERATIONS);
        assert_eq!(operations(14)[0], "asked, keys of the newer, form 1, newer c = 14");
        assert_eq!(operations(14)[OPERATIONS - 1], "part, one key of ten of the newer, form 2, newer c = 10");
        let answer = |seed| run_round(6, seed).unwrap();
        assert!(answer(1).times.iter().all(|time| *time > 0.0));
        assert_eq!(answer(1).sum, answer(1).sum);
    }
}
