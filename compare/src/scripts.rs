//! The run of scripts.

use std::path::Path;

use ragansils::Phase;
use ragansils_model::SUCCESS;

use crate::answered_events::{answered_events, numbers_by_name, AnsweredEvent};
use crate::bad_lines::{bad_line_kind, LONGEST_SCRIPT_LINE};
use crate::outputs::{self, script_output, Disagreement, Source};
use crate::phases::Answered;
use crate::script_damage::{damage, split_lines};
use crate::script_text::random_script;
use crate::tally::Tally;
use crate::told_slots::level_of;

const SOURCE: Source = Source { name: "script", text: |random| random_script(random).text, damage };

pub fn run(seed: u64, scripts: u64, program: &Path, tally: &mut Tally) -> Result<(), Disagreement> {
    SOURCE.run(seed, scripts, |script| compare(program, script).map(|output| count(script, &output, tally)))
}

/// Answers the output that the program and the model agree on, or says where they differ.
pub fn compare(program: &Path, script: &[u8]) -> Result<Vec<u8>, String> {
    outputs::compare(program, script_output, script)
}

fn count(script: &[u8], output: &[u8], tally: &mut Tally) {
    tally.scripts += 1;
    let (script_lines, output) = (split_lines(script), numbers_by_name(output));
    let mut phase = Phase::AtRest;
    let events = answered_events(&script_lines, &output);
    for event in &events {
        count_event(phase, event, tally);
        phase = event.phase_after(phase);
    }
    let has = |op| events.iter().any(|event| event.op == op);
    tally.scripts_with_shrink_and_back += u64::from(has("shrink") && has("back"));
    for (name, number) in &output {
        match name.as_str() {
            "made" => tally.count_refusal(*number),
            "bad" => tally.count_bad_line(bad_line_kind(&script_lines, *number, LONGEST_SCRIPT_LINE)),
            _ => {}
        }
    }
}

fn count_event(phase: Phase, event: &AnsweredEvent, tally: &mut Tally) {
    let (name, number, stores) = (event.op, event.number(), event.line("stores").unwrap_or(0));
    tally.count_answered(name, number, stores);
    let level = event.line("level").and_then(level_of).filter(|_| number == SUCCESS);
    level.into_iter().for_each(|level| tally.levels.count(level));
    let kept = event.line("kept");
    tally.phases_of_scripts.count(phase, Answered { name, number, stores, level, kept });
    match kept {
        Some(_) if name == "recover" => tally.recovery_cuts += 1,
        Some(_) => tally.cuts += 1,
        None => {}
    }
}
