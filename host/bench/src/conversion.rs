//! A conversion to the other form, beside what a user would do without it: create the table, and insert the same items in the same order,
//! each list made.

mod limits;

use std::path::Path;

use ragansils::calls;
use ragansils_compare::history::Setting;
use ragansils_compare::layout::{
    is_taken, levels_in_use, other_form, token_word, BUCKET_WORDS, FORMS, SLOT_WORDS, STATE,
};
use ragansils_compare::random::Random;
use ragansils_counts::plan::HIGH_LOAD;
use ragansils_counts::{full_size, items_at, Keys, Kind, LevelTable, OLD_FORM};
use ragansils_model::{Event, SUCCESS};
use ragansils_twin::{Proved, Side};

use crate::builds::{with_word, Answer};
use crate::clock::timed;
use crate::instructions::{count_run, counted_calls, this_program, Count, SEED};
use crate::limits::TARGET_CAPACITIES;
use crate::processes::Processes;
use crate::rounds::{Measured, Rounds};

/// How many rounds each capacity has by turns with the other. Where the memory of a process happens to lie matters most in the smaller
/// tables, and these take little time.
const MEASURED: [(u64, usize); 2] = [(TARGET_CAPACITIES[0], 5), (TARGET_CAPACITIES[1], 1)];
/// The rounds of the largest tables.
const ROUNDS: usize = 31;
/// What a process does in one of them, of which the median counts.
const TURNS_IN_A_ROUND: usize = 3;
/// The table whose conversion is counted.
const COUNTED_C: u64 = 12;

pub const CONVERSION: &str = "conversion";
pub const BY_CALLS: &str = "create and inserts";
/// Of the source: it finds out whether that is sound, which is what a conversion begins with.
pub const RECOVERY: &str = "recovery";

const PEERS: [&str; 3] = [CONVERSION, BY_CALLS, RECOVERY];
/// A time for each of them, from each form.
const TIMES: usize = PEERS.len() * FORMS.len();

/// What was measured of conversions.
#[derive(Default)]
pub struct Conversions {
    /// From each form, at each capacity: nanoseconds for a whole table.
    pub times: Vec<Measured>,
    /// For an item, from each form, by each of the three.
    pub instructions: Vec<(u64, [Count; 3])>,
}

pub fn about() -> String {
    format!(
        "Random keys, k = c, load {HIGH_LOAD}. Each round is a process of its own, in which the three take turns, {TURNS_IN_A_ROUND} each. \
         The conversion and the calls fill the same words, and must leave the same there."
    )
}

pub fn about_counted() -> String {
    format!("c = {COUNTED_C}, load {HIGH_LOAD}")
}

/// The name of a measurement.
pub fn operation(form: u64) -> String {
    format!("from form {form} to {}", other_form(form))
}

/// Drawn from the seed alone. Callgrind's files go to a folder; `say` hears which part comes next.
pub fn measure(seed: u64, folder: &Path, say: impl Fn(&str)) -> Result<Conversions, String> {
    say("instructions");
    let program = this_program()?;
    let count = |form: u64, name| count_run(&program, &["counted-convert", name, &form.to_string()], folder);
    let counts = |form: u64| -> Result<_, String> {
        let [conversion, by_calls, recovery] = PEERS.map(|name| count(form, name));
        Ok((form, [conversion?, by_calls?, recovery?]))
    };
    let instructions = FORMS.into_iter().map(counts).collect::<Result<_, _>>()?;
    say("conversions");
    let processes = Processes { command: "convert-round", peers: PEERS, measured: MEASURED };
    let parts = processes.rounds::<{ FORMS.len() }, TIMES>(ROUNDS, &mut Random::new(seed))?;
    let times = parts.into_iter().flat_map(|(c, rounds)| rounds.finish(c, FORMS.map(operation))).collect();
    Ok(Conversions { times, instructions })
}

/// One round in a process of its own: the times from each form, and a sum of the words of both second tables.
pub fn run_round(c: u64, seed: u64) -> Result<Answer<TIMES>, String> {
    let mut random = Random::new(seed);
    let setting = full_size(&mut random, OLD_FORM, c);
    let keys = Keys::new(&mut random, Kind::Random, items_at(setting, HIGH_LOAD), 0);
    let mut times = vec![];
    let mut sum = 0;
    for form in FORMS {
        let mut tables = Tables::new(Setting { form, ..setting }, &keys)?;
        let [measured] = tables.rounds(TURNS_IN_A_ROUND)?.finish(c, [String::new()]);
        times.extend(PEERS.map(|peer| measured.median_of(peer)));
        sum = with_word(sum, tables.sum());
    }
    Ok(Answer { times: times.try_into().map_err(|_| "a time for each, from each form")?, sum })
}

/// Goes one way under valgrind, and answers how many items the table has.
pub fn run_counted(name: &str, form: u64) -> Result<usize, String> {
    let mut random = Random::new(SEED);
    let setting = full_size(&mut random, form, COUNTED_C);
    let keys = Keys::new(&mut random, Kind::Random, items_at(setting, HIGH_LOAD), 0);
    let mut tables = Tables::new(setting, &keys)?;
    let at = PEERS.iter().position(|peer| *peer == name).ok_or_else(|| format!("no way {name}"))?;
    let mut done = 0;
    counted_calls(&mut || tables.run(at).into(), &mut done);
    match done {
        1 => Ok(keys.present().len()),
        _ => Err(format!("{name} was refused")),
    }
}

/// A table, and the words in which its other form is made: the same for the conversion and for the calls, so that neither has the better
/// piece of memory.
struct Tables {
    library: Proved,
    source: Vec<u64>,
    second: Vec<u64>,
    to: Setting,
}

impl Tables {
    fn new(setting: Setting, keys: &Keys) -> Result<Tables, String> {
        let mut table = LevelTable::new(Proved::default(), setting);
        table.fill(keys.present())?;
        let to = Setting { form: other_form(setting.form), ..setting };
        // Not zeros, which would be no memory yet.
        let second = vec![1; table.words.len()];
        Ok(Tables { library: table.side, source: table.words, second, to })
    }

    fn rounds(&mut self, rounds: usize) -> Result<Rounds<1>, String> {
        let mut all = Rounds::<1>::named(PEERS.to_vec());
        for number in 0..=rounds {
            all.turns(number, |at| {
                let (time, is_done) = timed(|| self.run(at));
                match is_done {
                    true => Ok(([time], self.sum())),
                    false => Err(format!("{} was refused", PEERS[at])),
                }
            })?;
        }
        Ok(all)
    }

    fn run(&mut self, at: usize) -> bool {
        match PEERS[at] {
            CONVERSION => calls::convert(&self.source, &mut self.second).is_ok(),
            BY_CALLS => self.create_and_insert(),
            _ => self.library.list_stores(&self.source, Event::Recover) == SUCCESS,
        }
    }

    /// The items as they stand in the source's words, by level, bucket and slot.
    fn create_and_insert(&mut self) -> bool {
        let Tables { library, source, second, to } = self;
        let mut is_done = library.create(second, *to) == SUCCESS;
        for buckets in levels_in_use(source[STATE]) {
            let level = &source[token_word(buckets - 1)..token_word(2 * buckets - 1)];
            for bucket in level.chunks_exact(BUCKET_WORDS) {
                let (token, slots) = (bucket[0], bucket[1..].chunks_exact(SLOT_WORDS));
                for (_, item) in slots.enumerate().filter(|&(slot, _)| is_taken(token, slot)) {
                    let insert = Event::Insert { key: item[0], function: item[1], place: item[2] };
                    is_done &= library.change(second, insert) == SUCCESS;
                }
            }
        }
        is_done
    }

    /// Of the second table's words.
    fn sum(&self) -> u64 {
        self.second.iter().copied().fold(0, with_word)
    }
}

/// Made-up measurements, for tests of what is said of them.
#[cfg(test)]
pub mod examples {
    use super::*;
    use crate::rounds::Series;

    /// With these milliseconds of a conversion from form 1 and from form 2 at c = 18; the calls take 100, and recovery 50.
    pub fn conversions(conversion: [f64; 2]) -> Conversions {
        let measured = |(form, time): (u64, f64)| {
            let series = PEERS.into_iter().zip([time, 100.0, 50.0]);
            let series = series.map(|(peer, time)| Series { peer, rounds: vec![time * 1e6] }).collect();
            Measured { c: 18, operation: operation(form), series }
        };
        let counts = [400.0, 300.0, 100.0].map(|instructions| Count { instructions, mispredicted: 0.5 });
        Conversions {
            times: FORMS.into_iter().zip(conversion).map(measured).collect(),
            instructions: vec![(2, counts)],
        }
    }
}

#[cfg(test)]
mod tests {
    use super::*;

    fn tables(form: u64) -> Tables {
        let setting = full_size(&mut Random::new(1), form, 6);
        let keys = Keys::new(&mut Random::new(2), Kind::Random, items_at(setting, HIGH_LOAD), 0);
        Tables::new(setting, &keys).unwrap()
    }

    #[test]
    fn the_calls_leave_what_the_conversion_leaves() {
        for form in FORMS {
            let mut tables = tables(form);
            assert!(tables.run(0));
            let converted = std::mem::replace(&mut tables.second, vec![1; tables.source.len()]);
            assert!(tables.run(1) && tables.run(2));
            assert_eq!(tables.second, converted);
            assert_eq!(converted[0], other_form(form));
        }
    }

    #[test]
    fn a_round_tells_each_way_from_each_form() {
        let answer = |seed| run_round(7, seed).unwrap();
        assert!(answer(1).times.iter().all(|time| *time > 0.0));
        assert_eq!(answer(1).sum, answer(1).sum);
        assert_ne!(answer(1).sum, answer(2).sum);
    }
}
