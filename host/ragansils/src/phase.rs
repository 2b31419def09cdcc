//! Whether a table is at rest, grows or shrinks.

use std::fmt;

// As document 01, the paper that fixes the table, lays its words out, and document 02 adds to it.
const STATE: usize = 4;
const PHASE_UNIT: u64 = 256;

/// Whether a table is at rest, grows or shrinks ([`Table::phase`](crate::Table::phase)), by the number that its state word has for it.
#[derive(Clone, Copy, Debug, PartialEq, Eq, PartialOrd, Ord, Hash)]
pub enum Phase {
    /// The table has two levels, top and bottom.
    AtRest = 0,
    /// Items move out of the interim level, which was the bottom, to a top of twice the size and to what was the top.
    Growing = 1,
    /// Items move out of the interim level, which was the top, to what was the bottom and to a level of half its size.
    Shrinking = 2,
}

impl Phase {
    /// Every phase, by its number.
    pub const ALL: [Phase; 3] = [Phase::AtRest, Phase::Growing, Phase::Shrinking];

    /// The phase in a state word, which is word 4 of a table: k + 256 · phase.
    ///
    /// ```
    /// use ragansils::Phase;
    ///
    /// assert_eq!([3, 259, 515, 771].map(Phase::of_state), [Some(Phase::AtRest), Some(Phase::Growing), Some(Phase::Shrinking), None]);
    /// ```
    #[inline]
    pub fn of_state(state: u64) -> Option<Phase> {
        match state / PHASE_UNIT {
            0 => Some(Phase::AtRest),
            1 => Some(Phase::Growing),
            2 => Some(Phase::Shrinking),
            _ => None,
        }
    }
}

impl fmt::Display for Phase {
    fn fmt(&self, f: &mut fmt::Formatter) -> fmt::Result {
        f.pad(match self {
            Phase::AtRest => "at rest",
            Phase::Growing => "growing",
            Phase::Shrinking => "shrinking",
        })
    }
}

/// The state word, taken apart.
pub(crate) struct State {
    /// The top has 2^k buckets.
    pub(crate) k: u64,
    pub(crate) phase: Phase,
}

impl State {
    /// Of any words; that the rest of the header is good, and that k fits, is not looked at.
    #[inline]
    pub(crate) fn of(words: &[u64]) -> Option<State> {
        let state = *words.get(STATE)?;
        Some(State { k: state % PHASE_UNIT, phase: Phase::of_state(state)? })
    }

    /// The interim level has 2^e buckets: a quarter of the top while the table grows, and twice the top while it shrinks.
    #[inline]
    pub(crate) fn interim_exponent(&self) -> Option<u64> {
        match self.phase {
            Phase::AtRest => None,
            Phase::Growing => self.k.checked_sub(2),
            Phase::Shrinking => Some(self.k + 1),
        }
    }
}

#[cfg(test)]
mod tests {
    use super::*;

    /// A wrong one would only cost time, in reading ahead, so that nothing else shows it.
    #[test]
    fn the_interim_level_is_a_quarter_of_the_top_or_twice_as_large() {
        let exponents = [5, 256 + 5, 512 + 5, 256 + 1].map(|state| {
            let state = State::of(&[1, 9, 1, 1, state]);
            state.and_then(|state| state.interim_exponent())
        });
        assert_eq!(exponents, [None, Some(3), Some(6), None]);
    }
}
