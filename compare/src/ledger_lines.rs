//! Where the lines of a ledger stand, and what the script program makes of them.

use std::collections::{BTreeMap, BTreeSet};

use ragansils::Phase;
use ragansils_model::SUCCESS;

use crate::answered_events::{answered_events, last_phase, numbers_by_name, op_of};
use crate::ledger_text::MOST_COUNTED;
use crate::outputs::script_output;

pub const HEADER_LINES: usize = 4;
/// What a recovery, and a query, are answered with in lines.
const RECOVERY_LINES: usize = 2;
const QUERY_LINES: usize = 6;

/// The index of the first sample line, where all lines before it are good; that of the end where there is none.
pub fn first_sample(lines: &[Vec<u8>]) -> usize {
    let mut at = HEADER_LINES;
    while at < lines.len() && !lines[at].starts_with(b"sample=") {
        at += 1 + numbers_behind(&lines[at]);
    }
    at.min(lines.len())
}

/// How many lines of numbers belong to an event line.
fn numbers_behind(line: &[u8]) -> usize {
    match op_of(line) {
        Some("insert" | "update") => 3,
        Some("delete" | "query" | "cut") => 1,
        _ => 0,
    }
}

/// What a query of a sample's key was answered.
pub struct Sampled {
    pub number: u64,
    pub function: u64,
    probes: u64,
}

/// A ledger as the script program answers it: its script, then a recovery, then a query for each sample.
pub struct ByQueries {
    pub recovery: u64,
    pub recovery_stores: u64,
    /// That of the table which the script leaves.
    pub phase: Phase,
    pub samples: Vec<Sampled>,
}

impl ByQueries {
    /// Every line must be good, and the header accepted.
    pub fn of(lines: &[Vec<u8>]) -> ByQueries {
        let (events, samples) = lines.split_at(first_sample(lines));
        let mut script = [&events.concat()[..], b"op=recover\n"].concat();
        for sample in samples {
            script.extend_from_slice(b"op=query\nkey=");
            script.extend_from_slice(&sample["sample=".len()..]);
        }
        let lines = numbers_by_name(&script_output(&script));
        let phase = last_phase(&answered_events(events, &lines));
        let output: Vec<u64> = lines.into_iter().map(|line| line.1).collect();
        // the last line is the number of events
        let queries = output.len() - 1 - QUERY_LINES * samples.len();
        let recovery = &output[queries - RECOVERY_LINES..queries];
        let sampled = |lines: &[u64]| Sampled { number: lines[0], function: lines[1], probes: lines[3] };
        ByQueries {
            recovery: recovery[0],
            recovery_stores: recovery[1],
            phase,
            samples: output[queries..output.len() - 1].chunks(QUERY_LINES).map(sampled).collect(),
        }
    }

    /// The report that these answers make. It is a second reading of the request, beside the model's own ledger.
    pub fn report(&self) -> String {
        if self.recovery != SUCCESS {
            return format!("answer={}\n", self.recovery);
        }
        let named = self.named();
        let mut counted: BTreeMap<u64, usize> =
            named.iter().take(MOST_COUNTED).map(|&name| (name, 0)).collect();
        let (mut none, mut other) = (0, 0);
        for sample in &self.samples {
            match counted.get_mut(&sample.function) {
                _ if sample.number != SUCCESS => none += 1,
                Some(count) => *count += 1,
                None => other += 1,
            }
        }
        let lines: String = counted.iter().map(|(name, count)| format!("fn{name}={count}\n")).collect();
        let buckets: u64 = self.samples.iter().map(|sample| sample.probes).sum();
        format!("samples={}\nnone={none}\n{lines}other={other}\nbuckets={buckets}\n", self.samples.len())
    }

    /// The functions that samples name, each once, in the order of the input.
    pub fn named(&self) -> Vec<u64> {
        let mut seen = BTreeSet::new();
        let found = self.samples.iter().filter(|sample| sample.number == SUCCESS);
        found.map(|sample| sample.function).filter(|&function| seen.insert(function)).collect()
    }
}

#[cfg(test)]
mod tests {
    use super::*;
    use crate::script_damage::split_lines;

    const HEADER: &str = "cap=2\ntop=1\nmul1=4294967297\nmul2=12884901889\n";

    #[test]
    fn samples_begin_where_an_event_could_stand() {
        let first = |rest: &str| first_sample(&split_lines(format!("{HEADER}{rest}").as_bytes()));
        assert_eq!(first(""), 4);
        assert_eq!(first("sample=1\n"), 4);
        assert_eq!(first("op=insert\nkey=1\nfn=2\nat=3\nop=begin\nsample=1\nsample=2\n"), 9);
        assert_eq!(first("op=query\nsample=1\nsample=2\n"), 6);
        assert_eq!(first("op=query\nkey=1\n"), 6);
    }

    #[test]
    fn the_report_is_made_of_the_answers() {
        let ledger = "op=insert\nkey=1\nfn=10\nat=20\nsample=3\nsample=1\nsample=1\n";
        let by_queries = ByQueries::of(&split_lines(format!("{HEADER}{ledger}").as_bytes()));
        assert_eq!(by_queries.report(), "samples=3\nnone=1\nfn10=2\nother=0\nbuckets=4\n");
        assert_eq!((by_queries.recovery_stores, by_queries.named()), (0, vec![10]));
    }
}
