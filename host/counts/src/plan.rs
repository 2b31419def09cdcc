//! How much is counted.

/// The loads at which tables are looked at; the last is the highest.
pub const LOADS: [f64; 2] = [0.5, HIGH_LOAD];
/// The load at which tables are recovered and grow, too.
pub const HIGH_LOAD: f64 = 0.8;

/// The load at which tables shrink where queries are looked at: about that of the article's shrinks, which is 0.3.
pub const SHRINKING_LOAD: f64 = 0.4;

pub struct CountPlan {
    /// The k of tables that are filled until the first refusal 6, and how many of each.
    pub filled: &'static [u64],
    pub fillings: usize,
    /// The capacity up to which tables grow again and again.
    pub grown_again: u64,
    /// The k of tables that shrink at each load, and how many of each.
    pub shrunk: &'static [u64],
    pub shrinks: u64,
    /// The k of tables that are filled in both forms, and how many of each.
    pub spread: &'static [u64],
    pub spreads: usize,
    /// The capacities of tables whose queries are counted; host/bench measures everything at these.
    pub capacities: &'static [u64],
    /// Those at which the keys of a collector are tried too.
    pub collector_capacities: &'static [u64],
    /// Queries of each kind that are counted in a table.
    pub queries: usize,
}

pub const FULL: CountPlan = CountPlan {
    filled: &[4, 6, 8, 10, 12, 14, 16, 18],
    fillings: 20,
    grown_again: 15,
    shrunk: &[4, 6, 8, 10, 12, 14, 16],
    shrinks: 100,
    spread: &[8, 14, 18],
    spreads: 5,
    capacities: &[8, 14, 18, 20],
    collector_capacities: &[14, 18],
    queries: 40_000,
};

pub const QUICK: CountPlan = CountPlan {
    filled: &[4, 8, 12],
    fillings: 3,
    grown_again: 10,
    shrunk: &[4, 8, 11],
    shrinks: 20,
    spread: &[8, 12],
    spreads: 5,
    capacities: &[8, 14],
    collector_capacities: &[14],
    queries: 10_000,
};
