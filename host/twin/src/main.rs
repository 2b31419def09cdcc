//! `twin-check SEED CALLS`: the twin answers and writes as the proved library does, with half of the calls for each form.

mod check;
mod phases;
mod starts;

use std::process::ExitCode;

use ragansils_compare::layout::{FORMS, TAGGED};
use ragansils_compare::stuck_items::Way;
use ragansils_compare::{program, say, tags};
use ragansils_twin::TWIN_COMPILER;

use crate::check::Seen;

/// From so many calls on, an answer or a kind of step that never came fails the run: it would have compared too little.
const TELLING_CALLS: u64 = 100_000;
/// Among so many calls each answer of a step from each kind of start is met so often at least.
const LEAST_OF_EACH_START: u64 = 15;
/// And queries find so many keys in each level.
const LEAST_OF_EACH_LEVEL: u64 = 100;
/// And each change that a phase has is met so often in it.
const LEAST_OF_EACH_CHANGE: u64 = 2;

fn main() -> ExitCode {
    program::run(|arguments| run(arguments).map(|report| say!("{report}")))
}

fn run(arguments: &[String]) -> Result<String, String> {
    let numbers: Result<Vec<u64>, _> = arguments.iter().map(|argument| argument.parse()).collect();
    let (seed, calls) = match numbers.as_deref() {
        Ok(&[seed, calls]) => (seed, calls),
        _ => return Err("usage: twin-check SEED CALLS".to_string()),
    };
    // What one form has met shows nothing of the other.
    let reports: Result<Vec<String>, String> =
        FORMS.into_iter().map(|form| run_of_form(seed, calls / 2, form)).collect();
    reports.map(|reports| reports.join("\n"))
}

fn run_of_form(seed: u64, calls: u64, form: u64) -> Result<String, String> {
    let seen = check::run(seed, calls, form).and_then(|seen| demand(&seen, calls, form).map(|()| seen));
    let seen = seen.map_err(|what| format!("form {form}, seed {seed}: {what}"))?;
    let levels: Vec<String> =
        seen.levels.found.iter().map(|(level, keys)| format!("{keys} {level}")).collect();
    Ok(format!(
        "form {form}: {} calls of the twin ({TWIN_COMPILER}) and of the proved library: the same answers and words; seed {seed}; \
         keys found by level: {}; {} doubled and {} flagged tables recovered; steps past stuck items: {} to a free slot, {} by a move; \
         {} steps from some start; passes that went on: {} to the end, {} with stuck items left; {}",
        seen.calls,
        levels.join(", "),
        seen.doubled,
        seen.flagged,
        seen.steps.past_stuck_items(Way::FreeSlot),
        seen.steps.past_stuck_items(Way::Move),
        seen.starts.steps(),
        seen.starts.passes_to_the_end,
        seen.starts.passes_with_items_left,
        seen.phases
    ))
}

/// Says what a run of so many calls should have met.
fn demand(seen: &Seen, calls: u64, form: u64) -> Result<(), String> {
    if seen.calls == 0 {
        return Err("no calls were compared".to_string());
    }
    let missing: Vec<u64> = possible_answers().filter(|number| !seen.numbers.contains(number)).collect();
    if calls >= TELLING_CALLS && (!missing.is_empty() || seen.doubled == 0 || seen.flagged == 0) {
        return Err(format!("never met: answers {missing:?}, or a kind of recovery"));
    }
    let missing_damage: Vec<tags::Kind> =
        tags::KINDS.into_iter().filter(|kind| !seen.damaged_tags.contains(kind)).collect();
    if calls >= TELLING_CALLS && form == TAGGED && !missing_damage.is_empty() {
        return Err(format!("never met: token words with {missing_damage:?}"));
    }
    let missing_steps = seen.steps.unseen();
    if calls >= TELLING_CALLS && !missing_steps.is_empty() {
        return Err(format!("never met: steps {missing_steps:?}"));
    }
    let telling = calls / TELLING_CALLS;
    let rare_levels = seen.levels.rare(telling * LEAST_OF_EACH_LEVEL);
    if !rare_levels.is_empty() {
        return Err(format!("levels in which queries seldom found a key: {rare_levels:?}"));
    }
    let rare_changes = seen.phases.rare(telling * LEAST_OF_EACH_CHANGE);
    if !rare_changes.is_empty() {
        return Err(format!("changes that were seldom met in a phase: {rare_changes:?}"));
    }
    let least = telling * LEAST_OF_EACH_START;
    let rare_starts = seen.starts.rare(least);
    if !rare_starts.is_empty() {
        return Err(format!("steps that go on, met less than {least} times: {rare_starts:?}"));
    }
    Ok(())
}

/// All but 2 and 14, which need a list, and 15 and 16, which are a chain's.
fn possible_answers() -> impl Iterator<Item = u64> {
    (0..=17).filter(|number| ![2, 14, 15, 16].contains(number))
}
