//! Rounds that are each a process of their own: where a process finds its memory changes from round to round, and so plays no part in the
//! middle of them.

use std::array;
use std::path::Path;

use ragansils_compare::random::Random;

use crate::builds::Answer;
use crate::instructions::this_program;
use crate::rounds::Rounds;

/// This program is started for a round with the command, a capacity and a seed. It tells a time for each of the peers, operation after
/// operation.
pub struct Processes<const PEERS: usize> {
    pub command: &'static str,
    pub peers: [&'static str; PEERS],
    /// The capacities, and how many rounds each has by turns with the other.
    pub measured: [(u64, usize); 2],
}

impl<const PEERS: usize> Processes<PEERS> {
    /// So many rounds for each of a capacity's share, and as many first ones that warm up. The capacities come by turns: what slows the machine
    /// for some seconds would slow all rounds of a small table.
    pub fn rounds<const OPERATIONS: usize, const TIMES: usize>(
        &self,
        rounds: usize,
        random: &mut Random,
    ) -> Result<[(u64, Rounds<OPERATIONS>); 2], String> {
        let program = this_program()?;
        let mut parts = self.measured.map(|(c, _)| (c, Rounds::named(self.peers.to_vec())));
        for turn in 0..=rounds {
            for ((c, all), (_, share)) in parts.iter_mut().zip(self.measured) {
                for number in turn * share..(turn + 1) * share {
                    let (times, sum) = self.one::<TIMES>(&program, *c, random.word())?;
                    let of_peer = |at: usize| array::from_fn(|operation| times[operation * PEERS + at]);
                    all.turns(number, |at| Ok((of_peer(at), sum)))?;
                }
            }
        }
        Ok(parts)
    }

    fn one<const TIMES: usize>(
        &self,
        program: &Path,
        c: u64,
        seed: u64,
    ) -> Result<([f64; TIMES], u64), String> {
        let command = [self.command.to_string(), c.to_string()];
        Answer::<TIMES>::of_build(program, &command, seed)
            .map_err(|error| format!("{}: {error}", command.join(" ")))
    }
}
