//! What a build answers of a round.

use std::fmt::{Display, Formatter};
use std::path::Path;

use ragansils_compare::runner::built;

/// Nanoseconds for some operations, and a sum in which both builds must agree.
#[derive(Debug, PartialEq)]
pub struct Answer<const TIMES: usize> {
    pub times: [f64; TIMES],
    pub sum: u64,
}

/// A sum of words that tells where each stands.
pub fn with_word(sum: u64, word: u64) -> u64 {
    sum.wrapping_mul(31).wrapping_add(word)
}

impl<const TIMES: usize> Display for Answer<TIMES> {
    fn fmt(&self, formatter: &mut Formatter<'_>) -> std::fmt::Result {
        write!(formatter, "times")?;
        self.times.iter().try_for_each(|time| write!(formatter, " {time}"))?;
        write!(formatter, " sum {}", self.sum)
    }
}

impl<const TIMES: usize> Answer<TIMES> {
    /// Starts a build for one round; gives its times, and the sum.
    pub fn of_build(program: &Path, command: &[String], seed: u64) -> Result<([f64; TIMES], u64), String> {
        let name = program.display();
        let output = built(program)
            .args(command)
            .arg(seed.to_string())
            .output()
            .map_err(|error| format!("{name} could not be run: {error}"))?;
        if !output.status.success() {
            let said = String::from_utf8_lossy(&output.stderr);
            return Err(format!("{name} ended with {}: {}", output.status, said.trim()));
        }
        let said = String::from_utf8_lossy(&output.stdout);
        let answer =
            Answer::read(&said).ok_or_else(|| format!("{name} answered something else: {said:?}"))?;
        Ok((answer.times, answer.sum))
    }

    fn read(text: &str) -> Option<Answer<TIMES>> {
        let parts: Vec<&str> = text.split_whitespace().collect();
        let (times, sum) = match parts[..] {
            ["times", ref times @ .., "sum", sum] => (times, sum),
            _ => return None,
        };
        let time = |text: &&str| text.parse().ok().filter(|time: &f64| time.is_finite() && *time > 0.0);
        let times: Option<Vec<f64>> = times.iter().map(time).collect();
        Some(Answer { times: times?.try_into().ok()?, sum: sum.parse().ok()? })
    }
}

#[cfg(test)]
mod tests {
    use super::*;

    #[test]
    fn words_that_change_places_change_the_sum() {
        let sum = |words: [u64; 3]| words.into_iter().fold(0, with_word);
        assert_ne!(sum([1, 2, 3]), sum([1, 3, 2]));
    }

    #[test]
    fn an_answer_is_read_as_it_is_written() {
        let answer = Answer { times: [61.25, 1e-3 / 3.0], sum: u64::MAX };
        assert_eq!(Answer::read(&format!("{answer}\n")), Some(answer));
    }

    #[test]
    fn nothing_else_is_an_answer() {
        let others = [
            "",
            "times 1.5 2.5",
            "times 1.5 2.5 sum",
            "times 1.5 2.5 sum 7 8",
            "times 1.5 sum 7",
            "times 1.5 2.5 3.5 sum 7",
            "sum 7 times 1.5 2.5",
            "times 1.5 fast sum 7",
            "times NaN 2.5 sum 7",
            "times 1.5 inf sum 7",
            "times 0 2.5 sum 7",
            "times 1.5 -2.5 sum 7",
            "times 1.5 2.5 sum 7.5",
        ];
        assert!(others.into_iter().all(|text| Answer::<2>::read(text).is_none()));
    }

    #[test]
    fn a_program_that_does_something_else_is_told() {
        let by =
            |program: &str| Answer::<1>::of_build(Path::new(program), &["round".to_string()], 8).unwrap_err();
        assert!(by("no/such/program").starts_with("no/such/program could not be run: "));
        assert!(by("false").starts_with("false ended with exit status: 1"));
        assert_eq!(by("echo"), r#"echo answered something else: "round 8\n""#);
    }
}
