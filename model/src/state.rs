//! The state of a table, and which state each call that resizes it leads to.

use crate::refusal::Refusal;

/// The state word is k and so many times the phase.
pub const PHASE_UNIT: u64 = 256;

/// What a table is doing. Growing and shrinking are both called resizing, as in the article.
#[derive(Clone, Copy, Debug, PartialEq, Eq)]
pub enum Phase {
    AtRest = 0,
    Growing = 1,
    Shrinking = 2,
}

/// The state of a table: its top level has 2^k buckets.
#[derive(Clone, Copy, Debug, PartialEq, Eq)]
pub struct State {
    pub k: u64,
    pub phase: Phase,
}

impl State {
    pub fn at_rest(k: u64) -> State {
        State { k, phase: Phase::AtRest }
    }

    pub fn word(self) -> u64 {
        self.k + PHASE_UNIT * self.phase as u64
    }

    /// None for a bad state of a table of capacity exponent `c`. Every level in use must be one that the words have
    /// room for, and the smallest one has a bucket.
    pub(crate) fn from_word(state: u64, c: u64) -> Option<State> {
        let k = state % PHASE_UNIT;
        let (phase, good_k) = match state / PHASE_UNIT {
            0 => (Phase::AtRest, 1..=c),
            1 => (Phase::Growing, 2..=c),
            // "States with phase 2 need 1 ≤ k < c": their largest level is the interim one.
            2 => (Phase::Shrinking, 1..=c - 1),
            _ => return None,
        };
        good_k.contains(&k).then_some(State { k, phase })
    }

    /// The exponent of the interim level, there only while resizing. In growth it is the smallest level in use, in a
    /// shrink the largest.
    pub fn interim_exponent(self) -> Option<u64> {
        match self.phase {
            Phase::AtRest => None,
            Phase::Growing => Some(self.k - 2),
            Phase::Shrinking => Some(self.k + 1),
        }
    }

    /// The begin of a growth in a table of capacity exponent `c`.
    pub fn begin(self, c: u64) -> Result<State, Refusal> {
        self.refuse_resizing()?;
        if self.k == c {
            return Err(Refusal::AtCapacity);
        }
        Ok(State { k: self.k + 1, phase: Phase::Growing })
    }

    /// The begin of a shrink: "from rest with k to phase 2 with k − 1".
    pub fn shrink(self) -> Result<State, Refusal> {
        self.refuse_resizing()?;
        // The new bottom is a quarter of the top, which must be a bucket at least.
        if self.k < 2 {
            return Err(Refusal::TooSmall);
        }
        Ok(State { k: self.k - 1, phase: Phase::Shrinking })
    }

    /// "A shrinking table becomes a growing one with k + 1, and a growing one a shrinking one with k − 1": the three
    /// levels stay the same and change their names.
    pub fn turn_back(self) -> Result<State, Refusal> {
        match self.phase {
            Phase::AtRest => Err(Refusal::NotResizing),
            Phase::Growing => Ok(State { k: self.k - 1, phase: Phase::Shrinking }),
            Phase::Shrinking => Ok(State { k: self.k + 1, phase: Phase::Growing }),
        }
    }

    /// The end of a growth or a shrink: top and bottom stay, and the interim level is no longer in use.
    pub fn end(self) -> State {
        State::at_rest(self.k)
    }

    /// "a table in phase 1 or 2 refuses both begins with 7, tested first". A conversion tests it after soundness.
    pub(crate) fn refuse_resizing(self) -> Result<(), Refusal> {
        match self.phase {
            Phase::AtRest => Ok(()),
            Phase::Growing | Phase::Shrinking => Err(Refusal::AlreadyResizing),
        }
    }
}
