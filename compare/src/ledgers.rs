//! The run of ledgers.

use std::path::Path;

use crate::answered_events::numbers_by_name;
use crate::bad_lines::{bad_line_kind, LONGEST_SAMPLE_LINE};
use crate::ledger_damage::damage_ledger;
use crate::ledger_lines::{first_sample, ByQueries};
use crate::ledger_tally::kinds;
use crate::ledger_text::random_ledger;
use crate::outputs::{self, difference, ledger_output, Disagreement, Source};
use crate::script_damage::split_lines;
use crate::tally::Tally;

const SOURCE: Source = Source { name: "ledger", text: random_ledger, damage: damage_ledger };

pub fn run(seed: u64, ledgers: u64, program: &Path, tally: &mut Tally) -> Result<(), Disagreement> {
    SOURCE.run(seed, ledgers, |ledger| compare(program, ledger).map(|report| count(ledger, &report, tally)))
}

/// Answers the report that the program and the model agree on, and the queries of a script with them; or says where they differ.
pub fn compare(program: &Path, ledger: &[u8]) -> Result<Vec<u8>, String> {
    let report = outputs::compare(program, ledger_output, ledger)?;
    match difference_from_queries(ledger, &report) {
        Some(what) => Err(what),
        None => Ok(report),
    }
}

/// The model knows a second time what samples are answered: by its script program, with a recovery and queries in their place.
fn difference_from_queries(ledger: &[u8], report: &[u8]) -> Option<String> {
    let mut lines = split_lines(ledger);
    match report.split(|&byte| byte == b'=').next() {
        Some(b"samples") => {}
        // the first sample and what is behind it are not looked at any more, and may be bad
        Some(b"answer") => lines.truncate(first_sample(&lines)),
        _ => return None,
    }
    let by_queries = ByQueries::of(&lines).report();
    difference(("the report", report), ("queries", by_queries.as_bytes()))
}

fn count(ledger: &[u8], report: &[u8], tally: &mut Tally) {
    let lines = split_lines(ledger);
    tally.ledgers.count(kinds(&lines, report));
    match numbers_by_name(report)[..] {
        [(ref name, number)] if name == "bad" => {
            tally.count_bad_line(bad_line_kind(&lines, number, LONGEST_SAMPLE_LINE))
        }
        [(_, number)] => tally.count_refusal(number),
        _ => {}
    }
}
