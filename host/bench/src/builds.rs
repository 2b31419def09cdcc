//! What is measured before a change of the library and after it, by two builds of this program from the same sources: the one before is
//! linked with the earlier library, and the one after, which runs the other, with the later one.

mod answer;

use std::path::{Path, PathBuf};

use ragansils_compare::random::Random;
use ragansils_counts::Middle;

use crate::instructions::{this_program, Count};
use crate::peers::{LIBRARY, TWIN};
use crate::rounds::{Measured, Rounds};

pub use answer::{with_word, Answer};

pub const BEFORE: &str = "library before";
pub const AFTER: &str = "library after";

/// Before, and after.
pub struct Builds([PathBuf; 2]);

/// Rounds of one kind. A build makes a round in a process of its own.
pub struct Part {
    pub c: u64,
    /// How many rounds it has by turns with the other parts.
    pub share: usize,
    /// What a build is started with; behind it comes the seed of the round.
    pub command: Vec<String>,
    /// What a build tells the times of, each by the library and then by the twin.
    pub operations: Vec<String>,
}

/// What one call of each library costs, and the twin's.
pub struct BuildCounts {
    pub before: Count,
    pub after: Count,
    pub twin: Count,
}

/// Nanoseconds for one operation, in both builds.
pub struct BuildTimes {
    pub operation: String,
    pub library: Measured,
    /// It is the same in both builds, so its two times tell how well they can be compared.
    pub twin: Measured,
}

impl BuildTimes {
    /// The operation, and in which tables.
    pub fn name(&self) -> String {
        format!("{}, c = {}", self.operation, self.library.c)
    }

    pub fn to_before(&self) -> Option<Middle> {
        self.library.ratio(AFTER, BEFORE)
    }

    /// The later library's, as a multiple of the twin's in the same processes.
    pub fn to_twin(&self) -> Option<Middle> {
        Some(self.library.of(AFTER)?.ratio_to(self.twin.of(AFTER)?))
    }

    pub fn measured(&self) -> [&Measured; 2] {
        [&self.library, &self.twin]
    }
}

impl Builds {
    /// This program, and the build with the earlier library.
    pub fn with(before: &Path) -> Result<Builds, String> {
        Ok(Builds([before.to_path_buf(), this_program()?]))
    }

    pub fn counts(
        &self,
        count: impl Fn(&Path, &str) -> Result<Count, String>,
    ) -> Result<BuildCounts, String> {
        let Builds([before, after]) = self;
        Ok(BuildCounts {
            before: count(before, LIBRARY)?,
            after: count(after, LIBRARY)?,
            twin: count(after, TWIN)?,
        })
    }

    /// Rounds of both builds by turns, with other keys in each round: so many for each of a part's share. The parts come by turns too: what
    /// slows the machine for some seconds would slow all rounds of a small table. A build tells so many times, two for each operation.
    pub fn times<const TIMES: usize>(
        &self,
        parts: Vec<Part>,
        rounds: usize,
        random: &mut Random,
    ) -> Result<Vec<BuildTimes>, String> {
        let begun = |part| (part, Rounds::<TIMES>::named(vec![BEFORE, AFTER]));
        let mut all: Vec<(Part, Rounds<TIMES>)> = parts.into_iter().map(begun).collect();
        for turn in 0..=rounds {
            for (part, rounds) in &mut all {
                for number in turn * part.share..(turn + 1) * part.share {
                    let seed = random.word();
                    let round = rounds.turns(number, |at| Answer::of_build(&self.0[at], &part.command, seed));
                    round.map_err(|error| format!("{}: {error}", part.command.join(" ")))?;
                }
            }
        }
        Ok(all.into_iter().flat_map(|(part, rounds)| part.finish(rounds)).collect())
    }
}

impl Part {
    fn finish<const TIMES: usize>(self, rounds: Rounds<TIMES>) -> Vec<BuildTimes> {
        let by_sides = |operation| [LIBRARY, TWIN].map(|side| format!("{operation} by the {side}"));
        let names: Vec<String> = self.operations.iter().flat_map(by_sides).collect();
        let names: [String; TIMES] = names.try_into().expect("two times for each operation");
        let mut measured = rounds.finish(self.c, names).into_iter();
        let both =
            |operation| Some(BuildTimes { operation, library: measured.next()?, twin: measured.next()? });
        self.operations.into_iter().map_while(both).collect()
    }
}

/// Made-up measurements, for tests of what is said of them.
#[cfg(test)]
pub mod examples {
    use super::*;
    use crate::rounds::Series;

    pub fn measured(c: u64, operation: &str, times: [(&'static str, f64); 2]) -> Measured {
        let series = times.map(|(peer, time)| Series { peer, rounds: vec![time] }).into();
        Measured { c, operation: operation.to_string(), series }
    }

    /// The library before and the twin take 100, and the twin of the build before 50.
    pub fn times(c: u64, operation: &str, after: f64) -> BuildTimes {
        BuildTimes {
            operation: operation.to_string(),
            library: measured(c, operation, [(BEFORE, 100.0), (AFTER, after)]),
            twin: measured(c, operation, [(BEFORE, 50.0), (AFTER, 100.0)]),
        }
    }

    /// Before 400, and the twin 200.
    pub fn counts(after: f64) -> BuildCounts {
        let [before, after, twin] =
            [400.0, after, 200.0].map(|instructions| Count { instructions, mispredicted: 0.0 });
        BuildCounts { before, after, twin }
    }
}

#[cfg(test)]
mod tests {
    use super::*;

    #[test]
    fn each_build_is_counted_as_itself() {
        let builds = Builds(["earlier", "later"].map(PathBuf::from));
        let counted = builds.counts(|program, side| {
            let instructions = match (program.to_str(), side) {
                (Some("earlier"), LIBRARY) => 1.0,
                (Some("later"), LIBRARY) => 2.0,
                (Some("later"), TWIN) => 3.0,
                _ => return Err("another".to_string()),
            };
            Ok(Count { instructions, mispredicted: 0.0 })
        });
        let BuildCounts { before, after, twin } = counted.unwrap_or_else(|error| panic!("{error}"));
        assert_eq!([before, after, twin].map(|count| count.instructions), [1.0, 2.0, 3.0]);
    }

    /// Each build is here a program that only tells what it was started with.
    #[test]
    fn the_parts_come_by_turns() {
        let part = |c: u64, share| Part {
            c,
            share,
            command: ["times", "1.5", &c.to_string(), "sum"].map(String::from).to_vec(),
            operations: vec!["query".to_string()],
        };
        let builds = Builds(["echo", "echo"].map(PathBuf::from));
        let all = builds.times::<2>(vec![part(8, 1), part(9, 3)], 2, &mut Random::new(1)).unwrap();
        let names: Vec<String> = all.iter().map(BuildTimes::name).collect();
        assert_eq!(names, ["query, c = 8", "query, c = 9"]);
        let rounds = |measured: &Measured| measured.of(AFTER).unwrap().rounds.clone();
        assert_eq!((rounds(&all[0].library), rounds(&all[0].twin)), (vec![1.5; 2], vec![8.0; 2]));
        assert_eq!((rounds(&all[1].library), rounds(&all[1].twin)), (vec![1.5; 8], vec![9.0; 8]));
    }

    #[test]
    fn a_build_that_fails_is_told_with_its_round() {
        let part = Part { c: 8, share: 1, command: vec!["round".to_string()], operations: vec![] };
        let builds = Builds(["false", "false"].map(PathBuf::from));
        let told = builds.times::<2>(vec![part], 1, &mut Random::new(1)).map(drop).unwrap_err();
        assert!(told.starts_with("round: false ended with exit status: 1"), "{told}");
    }
}
