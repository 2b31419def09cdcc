//! What a run has seen of chains.

use std::collections::BTreeMap;
use std::fmt::{self, Display};

use ragansils::Phase;
use ragansils_model::{query, SUCCESS};

use crate::case::{phase_of, Call, Case};
use crate::chain::Chain;

/// How a chain was answered.
#[derive(Clone, Copy, Debug, PartialEq, Eq, PartialOrd, Ord)]
pub enum Kind {
    Whole(Phase),
    /// Refused with 5: the first depth that is missing is the one asked for, one between, or 0.
    FirstMissing,
    MiddleMissing,
    LastMissing,
    /// Refused with 5, where depth 0 was asked for: it is first and last.
    OnlyMissing,
    Refused(u64),
}

/// What a chain can meet on a sound table.
pub const KINDS_OF_SOUND_TABLES: [Kind; 9] = [
    Kind::Whole(Phase::AtRest),
    Kind::Whole(Phase::Growing),
    Kind::Whole(Phase::Shrinking),
    Kind::FirstMissing,
    Kind::MiddleMissing,
    Kind::LastMissing,
    Kind::OnlyMissing,
    Kind::Refused(15),
    Kind::Refused(16),
];

/// What it can meet besides on other words.
pub const MORE_KINDS_OF_OTHER_WORDS: [Kind; 2] = [Kind::Refused(1), Kind::Refused(3)];

impl Display for Kind {
    fn fmt(&self, out: &mut fmt::Formatter) -> fmt::Result {
        match self {
            Kind::Whole(phase) => write!(out, "whole, {phase}"),
            Kind::FirstMissing => write!(out, "first depth missing"),
            Kind::MiddleMissing => write!(out, "middle depth missing"),
            Kind::LastMissing => write!(out, "last depth missing"),
            Kind::OnlyMissing => write!(out, "only depth missing"),
            Kind::Refused(number) => write!(out, "refused with {number}"),
        }
    }
}

#[derive(Default)]
pub struct ChainTally {
    pub kinds: BTreeMap<Kind, u64>,
    /// The depths of the longest whole chain.
    pub longest: u64,
}

impl ChainTally {
    /// Counts a case by its answer's number; only chains are counted.
    pub fn count(&mut self, case: &Case, number: u64) {
        if let Call::Chain(chain) = case.call {
            *self.kinds.entry(kind(case, chain, number)).or_default() += 1;
            if number == SUCCESS {
                self.longest = self.longest.max(chain.depth + 1);
            }
        }
    }

    pub fn unseen(&self, possible: impl IntoIterator<Item = Kind>) -> Vec<Kind> {
        possible.into_iter().filter(|kind| !self.kinds.contains_key(kind)).collect()
    }
}

fn kind(case: &Case, chain: Chain, number: u64) -> Kind {
    match number {
        SUCCESS => Kind::Whole(phase_of(&case.table).expect("a table that tells records has a good header")),
        5 => missing_kind(chain, &case.table),
        _ => Kind::Refused(number),
    }
}

fn missing_kind(chain: Chain, table: &[u64]) -> Kind {
    let present = chain.keys().take_while(|&key| query(table, key).0 == SUCCESS).count() as u64;
    match chain.depth {
        0 => Kind::OnlyMissing,
        _ if present == 0 => Kind::FirstMissing,
        depth if present == depth => Kind::LastMissing,
        _ => Kind::MiddleMissing,
    }
}

#[cfg(test)]
mod tests {
    use super::*;
    use crate::test_table::table_of;
    use ragansils_model::{word, State};

    /// Depths 0, 2 and 3 of address 1, and depth 1 of address 2.
    fn table() -> Vec<u64> {
        table_of(&[[256, 1, 2], [258, 1, 2], [259, 1, 2], [513, 1, 2]])
    }

    #[test]
    fn each_answer_has_its_kind() {
        let of = |address, depth, number| {
            let call = Call::Chain(Chain { address, depth });
            let case = Case { call, table: table(), list: vec![] };
            let mut tally = ChainTally::default();
            tally.count(&case, number);
            let kinds: Vec<Kind> = tally.kinds.into_keys().collect();
            (kinds, tally.longest)
        };
        assert_eq!(of(1, 0, 0), (vec![Kind::Whole(Phase::AtRest)], 1));
        assert_eq!(of(1, 4, 5), (vec![Kind::FirstMissing], 0));
        assert_eq!(of(1, 3, 5), (vec![Kind::MiddleMissing], 0));
        assert_eq!(of(2, 1, 5), (vec![Kind::LastMissing], 0));
        assert_eq!(of(2, 0, 5), (vec![Kind::OnlyMissing], 0));
        assert_eq!(of(1, 256, 16), (vec![Kind::Refused(16)], 0));
    }

    #[test]
    fn what_was_not_seen_is_told() {
        let mut growing = table();
        growing[word::STATE] = State::at_rest(1).begin(2).unwrap().word();
        let call = Call::Chain(Chain { address: 1, depth: 0 });
        let mut tally = ChainTally::default();
        tally.count(&Case { call, table: growing, list: vec![] }, 0);
        let unseen = tally.unseen(KINDS_OF_SOUND_TABLES);
        assert_eq!((unseen.len(), unseen.contains(&Kind::Whole(Phase::Growing))), (8, false));
    }
}
