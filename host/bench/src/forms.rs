//! Tables of form 2 beside tables of form 1, and beside libcuckoo, which a user might pick instead.

mod limits;

use std::path::Path;

use ragansils_compare::layout::FORMS;
use ragansils_compare::random::Random;
use ragansils_counts::plan::{CountPlan, HIGH_LOAD};
use ragansils_counts::{full_size, items_at, Counts, Keys, Kind, Spread, OLD_FORM};

use crate::builds::Answer;
use crate::instructions::{count_usual, this_program, Count};
use crate::operations::{few_of, Filled, Operation};
use crate::peers::{both_forms, CUCKOO, FORM_1, FORM_2, LIBRARY, TWIN};
use crate::processes::Processes;
use crate::rounds::Measured;

/// The capacities of the tables, and how many rounds each has by turns with the other. Where the memory of a process happens to lie
/// matters most in the smaller tables, and these take little time.
const MEASURED: [(u64, usize); 2] = [(14, 5), (18, 1)];
/// The rounds of the largest tables.
const ROUNDS: usize = 31;
/// What a process does in one of them: turns of all peers, of which the median counts, with so many calls of each kind.
const TURNS_IN_A_ROUND: usize = 5;
const CALLS: usize = 40_000;

const PEERS: [&str; 3] = [FORM_1, FORM_2, CUCKOO];
const OPERATIONS: [Operation; 3] = [Operation::PositiveQuery, Operation::NegativeQuery, Operation::Insert];
/// A time for each peer and operation.
const TIMES: usize = PEERS.len() * OPERATIONS.len();

/// What was measured of both forms.
#[derive(Default)]
pub struct Forms {
    /// Of each operation, at each capacity.
    pub times: Vec<Measured>,
    pub instructions: Vec<FormCounts>,
    pub spreads: Vec<Spread>,
}

/// What one call costs in tables of form 1 and of form 2.
pub struct FormCounts {
    pub operation: Operation,
    pub library: [Count; 2],
    pub twin: [Count; 2],
}

pub fn about() -> String {
    format!(
        "Random keys, load {HIGH_LOAD}; the same keys and multipliers in both forms. Each round is a process of its own, in which the three \
         tables take turns, {TURNS_IN_A_ROUND} each."
    )
}

/// Drawn from the seed alone. Callgrind's files go to a folder; `say` hears which part comes next.
pub fn measure(plan: &CountPlan, seed: u64, folder: &Path, say: impl Fn(&str)) -> Result<Forms, String> {
    let spreads = Counts::of_forms(seed, plan, &say)?.spreads;
    say("instructions");
    let instructions =
        OPERATIONS.into_iter().map(|operation| count(operation, folder)).collect::<Result<_, _>>()?;
    say("queries and inserts");
    Ok(Forms { times: times(&mut Random::new(seed), ROUNDS)?, instructions, spreads })
}

fn count(operation: Operation, folder: &Path) -> Result<FormCounts, String> {
    let program = this_program()?;
    let of_side = |side| -> Result<[Count; 2], String> {
        let [one, two] = FORMS.map(|form| count_usual(&program, operation, side, form, folder));
        Ok([one?, two?])
    };
    Ok(FormCounts { operation, library: of_side(LIBRARY)?, twin: of_side(TWIN)? })
}

fn times(random: &mut Random, rounds: usize) -> Result<Vec<Measured>, String> {
    let processes = Processes { command: "form-round", peers: PEERS, measured: MEASURED };
    let parts = processes.rounds::<{ OPERATIONS.len() }, TIMES>(rounds, random)?;
    let name = |operation: Operation| format!("{}, load {HIGH_LOAD}", operation.name());
    Ok(parts.into_iter().flat_map(|(c, rounds)| rounds.finish(c, OPERATIONS.map(name))).collect())
}

/// One round in a process of its own: the time of each operation by each peer, and a sum of answers.
pub fn run_round(c: u64, seed: u64) -> Result<Answer<TIMES>, String> {
    let mut random = Random::new(seed);
    let setting = full_size(&mut random, OLD_FORM, c);
    let few = few_of(setting);
    let items = items_at(setting, HIGH_LOAD);
    let keys = Keys::new(&mut random, Kind::Random, items + 4 * few, CALLS);
    let peers = both_forms(setting, keys.present().len(), seed % 2 == 1);
    let mut filled = Filled { c, peers, keys: &keys, items: 0, when: String::new() };
    filled.fill(items)?;
    let [positive, negative] = filled.queries(&mut random, TURNS_IN_A_ROUND, CALLS)?;
    let [insert, _delete] = filled.inserts_and_deletes(&mut random, TURNS_IN_A_ROUND, CALLS, few)?;
    let some = keys.draw_present(&mut random, items, CALLS);
    let sum = filled.peers[0].get_all(&some);
    let by_operation =
        [positive, negative, insert].map(|measured| PEERS.map(|peer| measured.median_of(peer)));
    let times: Vec<f64> = by_operation.concat();
    Ok(Answer { times: times.try_into().map_err(|_| "a time for each peer and operation")?, sum })
}

/// Made-up measurements, for tests of what is said of them.
#[cfg(test)]
pub mod examples {
    use super::*;
    use crate::rounds::Series;
    use ragansils_counts::Source;

    /// With these times of form 2 at c = 18, of a positive query, a negative one and an insert; form 1 and libcuckoo take 100. The loads
    /// are those of collector's keys; random ones have 0.9.
    pub fn forms(form_2: [f64; 3], load: f64) -> Forms {
        let measured = |(operation, time): (Operation, f64)| {
            let series = PEERS.into_iter().zip([100.0, time, 100.0]);
            let series = series.map(|(peer, time)| Series { peer, rounds: vec![time] }).collect();
            Measured { c: 18, operation: format!("{}, load {HIGH_LOAD}", operation.name()), series }
        };
        let spread = |source, form, load| Spread {
            form,
            k: 18,
            source,
            first_refusal: vec![load],
            top: vec![3.0],
            bottom: vec![1.0],
        };
        let count = |instructions| Count { instructions, mispredicted: 0.5 };
        let instructions = FormCounts {
            operation: Operation::NegativeQuery,
            library: [count(160.0), count(80.0)],
            twin: [count(100.0), count(90.0)],
        };
        Forms {
            times: OPERATIONS.into_iter().zip(form_2).map(measured).collect(),
            instructions: vec![instructions],
            spreads: vec![
                spread(Source::Random, 2, 0.9),
                spread(Source::Strided(4), 2, load),
                spread(Source::Strided(4), 1, 0.1),
            ],
        }
    }
}

#[cfg(test)]
mod tests {
    use super::*;

    #[test]
    fn a_round_tells_each_operation_by_each_peer() {
        let answer = |seed| run_round(9, seed).unwrap();
        assert!(answer(1).times.iter().all(|time| *time > 0.0));
        assert_eq!(answer(1).sum, answer(1).sum);
        assert_ne!(answer(1).sum, answer(2).sum);
    }
}
