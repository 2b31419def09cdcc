//! The run of scripts whose tables a program converts.

use std::path::Path;

use crate::answered_events::numbers_by_name;
use crate::bad_lines::{bad_line_kind, LONGEST_SCRIPT_LINE};
use crate::convert_tally::kinds;
use crate::convert_text::random_convert_script;
use crate::ledger_damage::damage_ledger;
use crate::outputs::{self, convert_output, Disagreement, Source};
use crate::random::Random;
use crate::script_damage::{damage, split_lines};
use crate::tally::Tally;

/// One damaged script in so many has sample lines, most of the time.
const SAMPLES_ONE_IN: u64 = 4;

const SOURCE: Source = Source {
    name: "convert-script",
    text: |random| random_convert_script(random).text,
    damage: damage_script,
};

pub fn run(seed: u64, scripts: u64, program: &Path, tally: &mut Tally) -> Result<(), Disagreement> {
    SOURCE.run(seed, scripts, |script| compare(program, script).map(|output| count(script, &output, tally)))
}

/// Answers the output that the program and the model agree on, or says where they differ.
pub fn compare(program: &Path, script: &[u8]) -> Result<Vec<u8>, String> {
    outputs::compare(program, convert_output, script)
}

/// As a script, or as if it were a ledger: a sample line is a bad one here.
fn damage_script(random: &mut Random, script: &[u8]) -> Vec<u8> {
    if random.one_in(SAMPLES_ONE_IN) {
        damage_ledger(random, script)
    } else {
        damage(random, script)
    }
}

fn count(script: &[u8], output: &[u8], tally: &mut Tally) {
    let lines = split_lines(script);
    tally.converts.count(kinds(&lines, output));
    for (name, number) in numbers_by_name(output) {
        match name.as_str() {
            "bad" => tally.count_bad_line(bad_line_kind(&lines, number, LONGEST_SCRIPT_LINE)),
            "made" | "answer" => tally.count_refusal(number),
            _ => {}
        }
    }
}
