//! What a run has met in each phase: at rest, growing and shrinking.

use std::collections::BTreeMap;

use ragansils::{Level, Phase};
use ragansils_model::SUCCESS;

use crate::case::{phase_of, Call, Case, Outcome};
use crate::told_slots::level_of;

/// How often a call was answered so in a phase.
#[derive(Default)]
pub struct PhaseTally {
    pub met: BTreeMap<(Phase, String), u64>,
}

/// An answered call, of the library or of a script: of a change it has the number of stores, and of a query the level.
pub struct Answered<'a> {
    pub name: &'a str,
    pub number: u64,
    pub stores: u64,
    pub level: Option<Level>,
    /// How many stores a cut line of a script let be made.
    pub kept: Option<u64>,
}

impl PhaseTally {
    /// Counts a query or a change of a table with a good header; chains have a tally of their own.
    pub fn count_case(&mut self, case: &Case, outcome: &Outcome) {
        if !matches!(case.call, Call::Query { .. } | Call::Change(_)) {
            return;
        }
        let level = outcome.answer.get(4).and_then(|&level| level_of(level));
        let (name, number, stores) = (case.call.name(), outcome.number, outcome.stores());
        if let Some(phase) = phase_of(&case.table) {
            self.count(phase, Answered { name, number, stores, level, kept: None });
        }
    }

    pub fn count(&mut self, phase: Phase, answered: Answered) {
        let Answered { name, number, stores, level, kept } = answered;
        let what = match (number, level) {
            (SUCCESS, Some(level)) => format!("{name} in the {level}"),
            (SUCCESS, None) => format!("{name} of {stores}"),
            _ => format!("{name} refused with {number}"),
        };
        self.add(phase, what);
        if let Some(kept) = kept.filter(|_| number == SUCCESS) {
            self.add(phase, format!("{name} cut after {kept}"));
        }
    }

    /// A shrink that is left by turning back, since none of its items has a place.
    pub fn count_stuck_shrink_left(&mut self) {
        self.add(Phase::Shrinking, STUCK_AND_TURNED.to_string());
    }

    fn add(&mut self, phase: Phase, what: String) {
        *self.met.entry((phase, what)).or_default() += 1;
    }

    /// Of what can be met, that which was met less often than this.
    pub fn rare(&self, possible: &[(Phase, &'static str)], least: u64) -> Vec<String> {
        let met = |phase, what: &str| self.met.get(&(phase, what.to_string())).copied().unwrap_or(0);
        let rare = possible.iter().filter(|(phase, what)| met(*phase, what) < least);
        rare.map(|(phase, what)| format!("{phase}, {what}: {}", met(*phase, what))).collect()
    }
}

const STUCK_AND_TURNED: &str = "stuck and turned back";

/// What every phase has.
const ANYWHERE: [&str; 15] = [
    "insert of 4",
    "insert of 9",
    "insert refused with 4",
    "insert refused with 6",
    "update of 4",
    "update of 7",
    "update refused with 5",
    "delete of 1",
    "delete refused with 5",
    "query in the top",
    "query in the bottom",
    "query refused with 5",
    "recover of 0",
    "recover of 1",
    "recover of 3",
];

const AT_REST: [&str; 7] = [
    "begin of 1",
    "begin refused with 9",
    "shrink of 1",
    "shrink refused with 17",
    "back refused with 8",
    "step refused with 8",
    "end refused with 8",
];

const RESIZING: [&str; 10] = [
    "begin refused with 7",
    "shrink refused with 7",
    "back of 1",
    "step of 5",
    "step of 10",
    "step refused with 6",
    "step refused with 11",
    "end of 1",
    "end refused with 10",
    "query in the interim",
];

const RESIZING_FROM_A_START: [&str; 4] =
    ["step_from of 5", "step_from of 10", "step_from refused with 6", "step_from refused with 11"];

/// What words that are damaged or of no history have besides.
const RESIZING_IN_OTHER_WORDS: [&str; 9] = [
    "recover refused with 2",
    "recover refused with 12",
    "shrink refused with 2",
    "shrink refused with 3",
    "back refused with 2",
    "back refused with 3",
    "step refused with 3",
    "end refused with 3",
    "query refused with 3",
];

const AT_REST_IN_SCRIPTS: [&str; 2] = ["shrink cut after 0", "shrink cut after 1"];
const RESIZING_IN_SCRIPTS: [&str; 4] =
    ["back cut after 0", "back cut after 1", "end cut after 0", "step cut after 4"];

/// What the events of scripts can meet.
pub fn possible_in_scripts() -> Vec<(Phase, &'static str)> {
    let mut possible = possible_in_every_run();
    possible.extend(AT_REST_IN_SCRIPTS.map(|what| (Phase::AtRest, what)));
    possible.extend(resizing(&RESIZING_IN_SCRIPTS));
    possible
}

fn possible_in_every_run() -> Vec<(Phase, &'static str)> {
    let own = |phase| match phase {
        Phase::AtRest => &AT_REST[..],
        Phase::Growing | Phase::Shrinking => &RESIZING,
    };
    let in_phase = |phase| ANYWHERE.iter().chain(own(phase)).map(move |&what| (phase, what));
    Phase::ALL.into_iter().flat_map(in_phase).collect()
}

/// What calls over sound tables can meet.
pub fn possible_in_sound_tables() -> Vec<(Phase, &'static str)> {
    let mut possible = possible_in_every_run();
    possible.extend(resizing(&RESIZING_FROM_A_START));
    possible.push((Phase::Shrinking, STUCK_AND_TURNED));
    possible
}

/// What calls over other words can meet in tables that grow or shrink.
pub fn possible_in_other_words() -> Vec<(Phase, &'static str)> {
    let parts = [&ANYWHERE[..], &RESIZING, &RESIZING_FROM_A_START, &RESIZING_IN_OTHER_WORDS];
    parts.into_iter().flat_map(resizing).collect()
}

fn resizing(whats: &'static [&'static str]) -> impl Iterator<Item = (Phase, &'static str)> {
    [Phase::Growing, Phase::Shrinking]
        .into_iter()
        .flat_map(move |phase| whats.iter().map(move |&what| (phase, what)))
}

#[cfg(test)]
mod tests {
    use super::*;
    use crate::history::{Setting, MARKED_1};
    use crate::test_table::table_after;
    use ragansils_model::Event;

    fn shrinking() -> Vec<u64> {
        let insert = Event::Insert { key: 3, function: 5, place: 5 };
        table_after(Setting { form: 1, c: 2, k: 2, mul1: MARKED_1, mul2: MARKED_1 }, [insert, Event::Shrink])
    }

    fn met(call: Call, table: Vec<u64>, number: u64, answer: &[u64]) -> Vec<(Phase, String)> {
        let mut tally = PhaseTally::default();
        let outcome = Outcome { number, answer: answer.to_vec(), table: vec![], list: vec![] };
        tally.count_case(&Case { call, table, list: vec![] }, &outcome);
        tally.met.into_keys().collect()
    }

    #[test]
    fn a_case_is_counted_by_its_phase_and_answer() {
        let met_shrinking = |call, number, answer: &[u64]| met(call, shrinking(), number, answer);
        let is = |what: &str| vec![(Phase::Shrinking, what.to_string())];
        assert_eq!(met_shrinking(Call::Change(Event::Step), 0, &[10]), is("step of 10"));
        assert_eq!(
            met_shrinking(Call::Change(Event::StepFrom { from: 1 }), 11, &[0, 0]),
            is("step_from refused with 11")
        );
        assert_eq!(met_shrinking(Call::Query { key: 3 }, 0, &[5, 5, 3, 88, 2]), is("query in the interim"));
        assert_eq!(met_shrinking(Call::Query { key: 4 }, 5, &[0, 0, 3, 0, 0]), is("query refused with 5"));
        let mut bad = shrinking();
        bad[4] = 514;
        assert_eq!(met(Call::Change(Event::Step), bad, 1, &[0]), vec![]);
    }

    #[test]
    fn what_was_seldom_met_in_a_phase_is_told() {
        let mut tally = PhaseTally::default();
        let (sound, other, scripts) =
            (possible_in_sound_tables(), possible_in_other_words(), possible_in_scripts());
        assert_eq!(
            (scripts.len(), sound.len(), other.len()),
            (72 + 2 + 2 * 4, 72 + 2 * 4 + 1, 2 * (15 + 10 + 4 + 9))
        );
        tally.count(
            Phase::Shrinking,
            Answered { name: "back", number: 0, stores: 1, level: None, kept: Some(0) },
        );
        tally.count_stuck_shrink_left();
        assert_eq!(tally.rare(&scripts, 1).len(), scripts.len() - 2);
        assert_eq!(tally.rare(&sound, 1).len(), sound.len() - 2);
        assert!(tally.rare(&sound, 2).contains(&"shrinking, back of 1: 1".to_string()));
    }
}
