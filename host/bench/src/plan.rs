//! How much is measured.

use std::ops::RangeInclusive;

use ragansils_counts::plan::{self, CountPlan};

pub struct Plan {
    /// What is counted, with the capacities at which everything is measured.
    pub counts: CountPlan,
    pub rounds: usize,
    /// Calls of each operation in a round: a few milliseconds, in which a busy machine is as busy for one peer as for the next.
    pub calls: usize,
    /// More capacities, at which the recovery of a sound table is timed.
    pub recovered: RangeInclusive<u64>,
    /// The capacities to which a table grows.
    pub grown: RangeInclusive<u64>,
}

pub const FULL: Plan =
    Plan { counts: plan::FULL, rounds: 25, calls: 40_000, recovered: 6..=20, grown: 5..=20 };

pub const QUICK: Plan =
    Plan { counts: plan::QUICK, rounds: 9, calls: 10_000, recovered: 6..=14, grown: 5..=14 };

/// For the inserts beside imports, which a limit holds one by one: more rounds, since the worst of them counts.
pub const HELD: Plan = Plan { rounds: 101, ..FULL };

/// From this capacity on a round takes long, and fewer do.
const LARGE: u64 = 19;
const SOME_ROUNDS: usize = 15;
const FEW_ROUNDS: usize = 5;

impl Plan {
    pub fn rounds_at(&self, c: u64) -> usize {
        match c {
            LARGE.. => self.rounds.min(SOME_ROUNDS),
            _ => self.rounds,
        }
    }

    /// Rounds of what goes through the whole table each time.
    pub fn whole_table_rounds(&self, c: u64) -> usize {
        match c {
            LARGE.. => self.rounds.min(FEW_ROUNDS),
            _ => self.rounds,
        }
    }

    /// Before each of them the whole table is brought back, which takes as long as the growth.
    pub fn growth_rounds(&self) -> usize {
        self.rounds.min(SOME_ROUNDS)
    }
}
