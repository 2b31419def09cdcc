//! Rounds of measurement: every peer in each round, and what is said of the rounds.

use ragansils_counts::Middle;

use crate::peers::{Peer, LIBRARY, TWIN};

/// What was measured of one operation.
pub struct Measured {
    pub c: u64,
    pub operation: String,
    pub series: Vec<Series>,
}

/// A peer's nanoseconds for one operation, in each round.
pub struct Series {
    pub peer: &'static str,
    pub rounds: Vec<f64>,
}

impl Series {
    pub fn middle(&self) -> Middle {
        Middle::of(self.rounds.iter().copied())
    }

    /// This time as a multiple of another's, round by round: what slows the machine for a while slows both.
    pub fn ratio_to(&self, other: &Series) -> Middle {
        Middle::of(self.rounds.iter().zip(&other.rounds).map(|(ours, theirs)| ours / theirs))
    }
}

impl Measured {
    pub fn of(&self, peer: &str) -> Option<&Series> {
        self.series.iter().find(|series| series.peer == peer)
    }

    /// A peer's median; no number where it was not measured.
    pub fn median_of(&self, peer: &str) -> f64 {
        self.of(peer).map_or(f64::NAN, |series| series.middle().median)
    }

    /// One peer's time as a multiple of another's.
    pub fn ratio(&self, one: &str, other: &str) -> Option<Middle> {
        Some(self.of(one)?.ratio_to(self.of(other)?))
    }

    pub fn ratio_to(&self, peer: &str) -> Option<Middle> {
        self.ratio(LIBRARY, peer)
    }

    pub fn ratio_to_twin(&self) -> Option<Middle> {
        self.ratio_to(TWIN)
    }
}

/// The series of some operations that are measured together, as an insert and the delete that takes it back.
pub struct Rounds<const N: usize> {
    names: Vec<&'static str>,
    series: [Vec<Series>; N],
}

impl<const N: usize> Rounds<N> {
    pub fn new(peers: &[Box<dyn Peer>]) -> Rounds<N> {
        Rounds::named(peers.iter().map(|peer| peer.name()).collect())
    }

    /// Of others than peers.
    pub fn named(names: Vec<&'static str>) -> Rounds<N> {
        let empty = |_| names.iter().map(|&peer| Series { peer, rounds: vec![] }).collect();
        let series = [(); N].map(empty);
        Rounds { names, series }
    }

    /// One round of the peers.
    pub fn round(
        &mut self,
        number: usize,
        peers: &mut [Box<dyn Peer>],
        mut run: impl FnMut(&mut dyn Peer) -> ([f64; N], u64),
    ) -> Result<(), String> {
        self.turns(number, |at| Ok(run(peers[at].as_mut())))
    }

    /// One round: each in turn, another one first each time. `run` is told whose turn it is; it gives nanoseconds for one of each
    /// operation, and a sum of the answers, in which all must agree; or it says what failed.
    pub fn turns(
        &mut self,
        number: usize,
        mut run: impl FnMut(usize) -> Result<([f64; N], u64), String>,
    ) -> Result<(), String> {
        let mut agreed = None;
        for turn in 0..self.names.len() {
            let at = (number + turn) % self.names.len();
            let (times, answers) = run(at)?;
            if *agreed.get_or_insert(answers) != answers {
                return Err(format!("{} does not answer as what was measured before it", self.names[at]));
            }
            // The first round warms up.
            if number > 0 {
                for (series, time) in self.series.iter_mut().zip(times) {
                    series[at].rounds.push(time);
                }
            }
        }
        Ok(())
    }

    pub fn finish(self, c: u64, operations: [String; N]) -> [Measured; N] {
        let mut series = self.series.into_iter();
        operations.map(|operation| Measured {
            c,
            operation,
            series: series.next().expect("a series for each operation"),
        })
    }
}

impl Rounds<1> {
    /// One round of what comes to an end or does not: each so many times, one after the other. `drive` is told whose turn it is, and
    /// gives nanoseconds, and whether it came to its end.
    pub fn whole_ways(
        &mut self,
        number: usize,
        repeats: u64,
        mut drive: impl FnMut(usize) -> Result<(f64, bool), String>,
    ) -> Result<(), String> {
        self.turns(number, |at| {
            let mut sum = 0.0;
            let mut ended = 0;
            for _ in 0..repeats {
                let (time, has_ended) = drive(at)?;
                sum += time;
                ended += u64::from(has_ended);
            }
            Ok(([sum / repeats as f64], ended))
        })
    }
}

#[cfg(test)]
mod tests {
    use super::*;

    fn measured(library: &[f64], twin: &[f64]) -> Measured {
        let series =
            [(LIBRARY, library), (TWIN, twin)].map(|(peer, rounds)| Series { peer, rounds: rounds.to_vec() });
        Measured { c: 1, operation: String::new(), series: series.into() }
    }

    /// The rounds in which the machine was slow are slow on both sides.
    #[test]
    fn ratios_go_round_by_round() {
        let ratio = measured(&[2.0, 20.0, 200.0], &[1.0, 10.0, 100.0]).ratio_to_twin().unwrap();
        assert_eq!([ratio.low, ratio.median, ratio.high], [2.0; 3]);
    }

    #[test]
    fn those_that_disagree_or_fail_are_told() {
        let mut rounds = Rounds::<1>::named(vec!["one", "other"]);
        assert_eq!(rounds.turns(0, |_| Ok(([1.0], 7))), Ok(()));
        let told = rounds.turns(1, |at| Ok(([1.0], at as u64)));
        assert_eq!(told, Err("one does not answer as what was measured before it".to_string()));
        assert_eq!(rounds.turns(2, |_| Err("no memory".to_string())), Err("no memory".to_string()));
    }

    #[test]
    fn no_ratio_without_a_twin() {
        assert!(measured(&[1.0], &[1.0]).ratio_to("another").is_none());
    }
}
