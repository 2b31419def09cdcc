//! What a run has met of tables at rest, growing and shrinking.

use std::collections::BTreeMap;
use std::fmt::{self, Display};

use ragansils::{Level, Phase};
use ragansils_compare::case::event_name;
use ragansils_model::{word, Event};

/// How often something was done in a phase, by its name.
#[derive(Default)]
pub struct PhaseTally {
    met: BTreeMap<(Phase, String), u64>,
}

impl PhaseTally {
    /// A change that was accepted, on the table before it; recovery is one where it has something to mend.
    pub fn count_change(&mut self, table: &[u64], event: Event, stores: u64) {
        if stores > 0 {
            self.count(table, format!("{} of {stores}", event_name(event)));
        }
    }

    /// A key that a query found.
    pub fn count_found(&mut self, table: &[u64], level: Level) {
        self.count(table, format!("{level}"));
    }

    fn count(&mut self, table: &[u64], what: String) {
        if let Some(phase) = Phase::of_state(table[word::STATE]) {
            *self.met.entry((phase, what)).or_default() += 1;
        }
    }

    fn met(&self, phase: Phase, what: &str) -> u64 {
        self.met.get(&(phase, what.to_string())).copied().unwrap_or(0)
    }

    /// What was met less often than this.
    pub fn rare(&self, least: u64) -> Vec<String> {
        let all = Phase::ALL.into_iter().flat_map(|phase| possible(phase).map(move |what| (phase, what)));
        let rare = all.filter(|&(phase, what)| self.met(phase, what) < least);
        rare.map(|(phase, what)| format!("{phase}: {what}, met {} times", self.met(phase, what))).collect()
    }
}

/// All that can be met in a phase.
fn possible(phase: Phase) -> impl Iterator<Item = &'static str> {
    let anywhere = [
        "insert of 4",
        "insert of 9",
        "update of 4",
        "update of 7",
        "delete of 1",
        "recover of 1",
        "recover of 3",
    ];
    let own: &[&str] = match phase {
        Phase::AtRest => &["begin of 1", "shrink of 1"],
        Phase::Growing | Phase::Shrinking => &["back of 1", "step of 5", "step of 10", "end of 1", "interim"],
    };
    anywhere.into_iter().chain(["top", "bottom"]).chain(own.iter().copied())
}

/// The turns of a run and the steps between them.
impl Display for PhaseTally {
    fn fmt(&self, out: &mut fmt::Formatter) -> fmt::Result {
        let in_phase = |phase: Phase| {
            let steps = self.met(phase, "step of 5") + self.met(phase, "step of 10");
            format!("{phase}: {steps} steps, {} turns back", self.met(phase, "back of 1"))
        };
        write!(out, "{}; {}", in_phase(Phase::Growing), in_phase(Phase::Shrinking))
    }
}

#[cfg(test)]
mod tests {
    use super::*;

    #[test]
    fn what_was_met_too_seldom_in_a_phase_is_told() {
        let mut tally = PhaseTally::default();
        let all = tally.rare(1).len();
        assert_eq!(all, 3 * 9 + 2 + 2 * 5);
        let shrinking = [1, 2, 1, 1, 513];
        tally.count_change(&shrinking, Event::Step, 5);
        tally.count_change(&shrinking, Event::Recover, 0);
        tally.count_change(&[1, 2, 1, 1, 769], Event::Step, 5);
        tally.count_found(&shrinking, Level::Interim);
        assert_eq!(tally.rare(1).len(), all - 2);
        assert!(tally.rare(2).contains(&"shrinking: step of 5, met 1 times".to_string()));
        assert_eq!(tally.to_string(), "growing: 0 steps, 0 turns back; shrinking: 1 steps, 0 turns back");
    }
}
