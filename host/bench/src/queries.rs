//! Queries by the library before a change and by the library after it, beside the twin's.

mod limits;

use std::path::Path;

use ragansils_compare::random::Random;
use ragansils_counts::plan::HIGH_LOAD;
use ragansils_counts::{full_size, items_at, last_growth, Keys, Kind, OLD_FORM};

use crate::builds::{Answer, BuildCounts, BuildTimes, Builds, Part};
use crate::instructions::count_usual;
use crate::operations::{Filled, Operation};
use crate::peers::{two_sides, LIBRARY, TWIN};
use crate::rounds::Measured;

/// The capacities of the tables, and how many rounds each has by turns with the others. Where the
/// memory of a process happens to lie matters most in the smaller tables, and these take little time.
const QUERIED: [(u64, usize); 2] = [(14, 5), (18, 1)];
/// The rounds of the largest tables.
const ROUNDS: usize = 31;
/// What a build does in one of them: turns of both sides, of which the median counts, with so many queries of each kind.
const TURNS_IN_A_ROUND: usize = 5;
const CALLS: usize = 40_000;

const KINDS: [Operation; 2] = [Operation::PositiveQuery, Operation::NegativeQuery];

/// The tables whose queries are measured.
#[derive(Clone, Copy, PartialEq, Eq)]
enum State {
    AtRest,
    Growing,
}

impl State {
    const ALL: [State; 2] = [State::AtRest, State::Growing];

    fn when(self) -> String {
        match self {
            State::AtRest => format!("load {HIGH_LOAD}"),
            State::Growing => "growing".to_string(),
        }
    }
}

/// What was measured of queries.
pub struct Queries {
    /// Of each kind, in tables of each capacity and state.
    pub times: Vec<BuildTimes>,
    /// Of each kind.
    pub counts: Vec<(Operation, BuildCounts)>,
}

impl Queries {
    /// All that has rounds.
    pub fn measured(&self) -> impl Iterator<Item = &Measured> {
        self.times.iter().flat_map(BuildTimes::measured)
    }
}

pub fn about() -> String {
    format!(
        "\"before\" is by the library of the commit that the command names, \"after\" by the library of the commit that was measured, in two \
         builds of one driver; both must give the same answers. Tables of form 1, which every commit has; random keys. \"growing\" is a \
         table whose last growth was begun at load {HIGH_LOAD}, with half of the interim items moved."
    )
}

/// Drawn from the seed alone. `before` is the build with the earlier library; callgrind's files go to a folder; `say` hears which part
/// comes next.
pub fn measure(seed: u64, before: &Path, folder: &Path, say: impl Fn(&str)) -> Result<Queries, String> {
    let builds = Builds::with(before)?;
    say("instructions");
    let count = |operation| {
        let counts =
            builds.counts(|program, side| count_usual(program, operation, side, OLD_FORM, folder))?;
        Ok((operation, counts))
    };
    let counts = KINDS.into_iter().map(count).collect::<Result<_, String>>()?;
    say("queries");
    let times = query_times(&builds, &mut Random::new(seed))?;
    Ok(Queries { times, counts })
}

fn query_times(builds: &Builds, random: &mut Random) -> Result<Vec<BuildTimes>, String> {
    let of_capacity = |(c, share)| State::ALL.map(|state| part(state, c, share));
    builds.times::<4>(QUERIED.into_iter().flat_map(of_capacity).collect(), ROUNDS, random)
}

fn part(state: State, c: u64, share: usize) -> Part {
    let when = state.when();
    Part {
        c,
        share,
        command: vec!["query-round".to_string(), when.clone(), c.to_string()],
        operations: KINDS.map(|kind| format!("{}, {when}", kind.name())).to_vec(),
    }
}

/// One round by one build: queries of each kind, by the library and by the twin in the same words; and a sum of answers.
pub fn run_round(when: &str, c: u64, seed: u64) -> Result<Answer<4>, String> {
    let state = State::ALL.into_iter().find(|state| state.when() == when);
    let state = state.ok_or_else(|| format!("no table {when}"))?;
    let mut random = Random::new(seed);
    let setting = match state {
        State::AtRest => full_size(&mut random, OLD_FORM, c),
        State::Growing => last_growth(full_size(&mut random, OLD_FORM, c)),
    };
    let keys = Keys::new(&mut random, Kind::Random, items_at(setting, HIGH_LOAD), CALLS);
    let mut filled = Filled { c, peers: two_sides(setting), keys: &keys, items: 0, when: String::new() };
    filled.fill(keys.present().len())?;
    if state == State::Growing {
        filled.grow_half_way()?;
    }
    let [positive, negative] = filled.queries(&mut random, TURNS_IN_A_ROUND, CALLS)?;
    let [found, not_found] =
        [positive, negative].map(|measured| [LIBRARY, TWIN].map(|side| measured.median_of(side)));
    let some = keys.draw_present(&mut random, filled.items, CALLS);
    let sum = filled.peers[0].get_all(&some);
    Ok(Answer { times: [found[0], found[1], not_found[0], not_found[1]], sum })
}

/// Made-up measurements, for tests of what is said of them.
#[cfg(test)]
pub mod examples {
    use super::*;
    use crate::builds::examples::{counts, times};

    /// With these times of the later library at c = 14 and 18.
    pub fn queries(after: [f64; 2]) -> Queries {
        let one = |(c, time)| times(c, "query, positive, load 0.8", time);
        Queries {
            times: [14, 18].into_iter().zip(after).map(one).collect(),
            counts: vec![(Operation::PositiveQuery, counts(100.0))],
        }
    }
}

#[cfg(test)]
mod tests {
    use super::*;

    #[test]
    fn a_round_tells_both_kinds_by_both_sides() {
        for state in State::ALL {
            let answer = |seed| run_round(&state.when(), 6, seed).unwrap();
            assert!(answer(1).times.iter().all(|time| *time > 0.0));
            assert_eq!(answer(1).sum, answer(1).sum);
            assert_ne!(answer(1).sum, answer(2).sum);
        }
        assert!(run_round("full", 6, 1).is_err());
    }

    #[test]
    fn a_build_is_asked_for_a_table_and_tells_both_kinds() {
        let Part { command, operations, .. } = part(State::Growing, 14, 5);
        assert_eq!(command, ["query-round", "growing", "14"]);
        assert_eq!(operations, ["query, positive, growing", "query, negative, growing"]);
        assert_eq!(part(State::AtRest, 14, 5).operations[0], "query, positive, load 0.8");
    }
}
