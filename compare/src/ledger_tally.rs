//! What a ledger shows.

use std::collections::BTreeSet;
use std::fmt::{self, Display};

use ragansils::Phase;
use ragansils_model::SUCCESS;

use crate::answered_events::{numbers_by_name, op_of};
use crate::ledger_lines::{first_sample, ByQueries, HEADER_LINES};
use crate::ledger_text::MOST_COUNTED;

/// What a ledger shows. One ledger may show several.
#[derive(Clone, Copy, Debug, PartialEq, Eq, PartialOrd, Ord)]
pub enum Kind {
    WholeReport,
    NoSamples,
    SomeNone,
    SomeOther,
    /// As many functions as are counted, and no more.
    JustEnoughFunctions,
    MoreFunctions,
    /// A counted function comes again behind the first that is not counted.
    CountedAgain,
    FunctionZero,
    LargestFunction,
    /// Recovery listed stores: it cleared one of two equal items, or made a flagged update again.
    DoubledKeyMended,
    UpdateMended,
    RefusedRecovery,
    /// A line behind the first sample is bad, and is not read.
    RefusedRecoveryBeforeBadLine,
    /// The script leaves the table so; it has samples.
    Growing,
    Shrinking,
    /// What recovery mended or refused, in a shrinking table.
    ShrinkingDoubledKeyMended,
    ShrinkingUpdateMended,
    ShrinkingRefusedRecovery,
    RefusedCreation,
    BadHeader,
    BadScript,
    BadSample,
    TornEnd,
    EventAmongSamples,
    SampleBehindCut,
    SampleForNumber,
}

pub const KINDS: [Kind; 26] = [
    Kind::WholeReport,
    Kind::NoSamples,
    Kind::SomeNone,
    Kind::SomeOther,
    Kind::JustEnoughFunctions,
    Kind::MoreFunctions,
    Kind::CountedAgain,
    Kind::FunctionZero,
    Kind::LargestFunction,
    Kind::DoubledKeyMended,
    Kind::UpdateMended,
    Kind::RefusedRecovery,
    Kind::RefusedRecoveryBeforeBadLine,
    Kind::Growing,
    Kind::Shrinking,
    Kind::ShrinkingDoubledKeyMended,
    Kind::ShrinkingUpdateMended,
    Kind::ShrinkingRefusedRecovery,
    Kind::RefusedCreation,
    Kind::BadHeader,
    Kind::BadScript,
    Kind::BadSample,
    Kind::TornEnd,
    Kind::EventAmongSamples,
    Kind::SampleBehindCut,
    Kind::SampleForNumber,
];

impl Display for Kind {
    fn fmt(&self, out: &mut fmt::Formatter) -> fmt::Result {
        out.write_str(match self {
            Kind::WholeReport => "whole reports",
            Kind::NoSamples => "no samples",
            Kind::SomeNone => "samples without a record",
            Kind::SomeOther => "samples of functions that are not counted",
            Kind::JustEnoughFunctions => "exactly 512 functions",
            Kind::MoreFunctions => "more than 512 functions",
            Kind::CountedAgain => "a counted function behind the 513th",
            Kind::FunctionZero => "function 0",
            Kind::LargestFunction => "function 2^64 - 1",
            Kind::DoubledKeyMended => "doubled key mended",
            Kind::UpdateMended => "flagged update mended",
            Kind::RefusedRecovery => "answer=12",
            Kind::RefusedRecoveryBeforeBadLine => "answer=12 before a bad line",
            Kind::Growing => "growing table",
            Kind::Shrinking => "shrinking table",
            Kind::ShrinkingDoubledKeyMended => "doubled key mended in a shrinking table",
            Kind::ShrinkingUpdateMended => "flagged update mended in a shrinking table",
            Kind::ShrinkingRefusedRecovery => "answer=12 of a shrinking table",
            Kind::RefusedCreation => "made=13",
            Kind::BadHeader => "bad line in the header",
            Kind::BadScript => "bad line in the script",
            Kind::BadSample => "bad line among the samples",
            Kind::TornEnd => "torn last line",
            Kind::EventAmongSamples => "event line among the samples",
            Kind::SampleBehindCut => "sample line behind a cut line",
            Kind::SampleForNumber => "sample line where a number is due",
        })
    }
}

/// The kinds of a ledger, by its lines and its report.
pub fn kinds(lines: &[Vec<u8>], report: &[u8]) -> Vec<Kind> {
    let report = numbers_by_name(report);
    match report.first().map(|(name, number)| (name.as_str(), *number)) {
        Some(("bad", number)) => kinds_of_bad_line(lines, number as usize - 1),
        Some(("made", _)) => vec![Kind::RefusedCreation],
        Some(("answer", _)) => kinds_of_refused_recovery(lines),
        _ => kinds_of_report(&report, &ByQueries::of(lines)),
    }
}

fn kinds_of_bad_line(lines: &[Vec<u8>], at: usize) -> Vec<Kind> {
    let first_sample = first_sample(lines);
    let line = lines.get(at).map_or(&b""[..], Vec::as_slice);
    let is_sample = |line: Option<&Vec<u8>>| line.map_or(false, |line| line.starts_with(b"sample="));
    let is_among_samples = at >= first_sample && at < lines.len();
    let is_in_script = at >= HEADER_LINES && at < first_sample;
    let seen = [
        (Kind::BadHeader, at < HEADER_LINES),
        (Kind::BadScript, is_in_script),
        (Kind::BadSample, is_among_samples),
        (Kind::TornEnd, at + 1 == lines.len() && !line.ends_with(b"\n")),
        (Kind::EventAmongSamples, is_among_samples && op_of(line).is_some()),
        (Kind::SampleBehindCut, is_in_script && op_of(line) == Some("cut") && is_sample(lines.get(at + 2))),
        (Kind::SampleForNumber, is_in_script && is_sample(lines.get(at))),
    ];
    seen.into_iter().filter(|seen| seen.1).map(|seen| seen.0).collect()
}

fn kinds_of_refused_recovery(lines: &[Vec<u8>]) -> Vec<Kind> {
    let is_good = |line: &Vec<u8>| {
        let number = line.strip_prefix(b"sample=").and_then(|rest| rest.strip_suffix(b"\n"));
        number.map_or(false, |digits| digits.iter().all(u8::is_ascii_digit))
    };
    let (events, samples) = lines.split_at(first_sample(lines));
    let seen = [
        (Kind::RefusedRecovery, true),
        (Kind::RefusedRecoveryBeforeBadLine, !samples.iter().all(is_good)),
        (Kind::ShrinkingRefusedRecovery, ByQueries::of(events).phase == Phase::Shrinking),
    ];
    seen.into_iter().filter(|seen| seen.1).map(|seen| seen.0).collect()
}

fn kinds_of_report(report: &[(String, u64)], by_queries: &ByQueries) -> Vec<Kind> {
    let count = |name: &str| report.iter().find(|line| line.0 == name).map(|line| line.1);
    let named = by_queries.named();
    let (is_growing, is_shrinking) =
        (by_queries.phase == Phase::Growing, by_queries.phase == Phase::Shrinking);
    let has_samples = count("samples") > Some(0);
    let seen = [
        (Kind::WholeReport, true),
        (Kind::NoSamples, count("samples") == Some(0)),
        (Kind::SomeNone, count("none") > Some(0)),
        (Kind::SomeOther, count("other") > Some(0)),
        (Kind::JustEnoughFunctions, named.len() == MOST_COUNTED),
        (Kind::MoreFunctions, named.len() > MOST_COUNTED),
        (Kind::CountedAgain, counts_again(by_queries, &named)),
        (Kind::FunctionZero, count("fn0").is_some()),
        (Kind::LargestFunction, count("fn18446744073709551615").is_some()),
        (Kind::DoubledKeyMended, by_queries.recovery_stores == 1),
        (Kind::UpdateMended, by_queries.recovery_stores > 1),
        (Kind::Growing, has_samples && is_growing),
        (Kind::Shrinking, has_samples && is_shrinking),
        (Kind::ShrinkingDoubledKeyMended, is_shrinking && by_queries.recovery_stores == 1),
        (Kind::ShrinkingUpdateMended, is_shrinking && by_queries.recovery_stores > 1),
    ];
    seen.into_iter().filter(|seen| seen.1).map(|seen| seen.0).collect()
}

/// Whether a sample of a counted function comes behind the first of one that is not counted.
fn counts_again(by_queries: &ByQueries, named: &[u64]) -> bool {
    let counted: BTreeSet<u64> = named.iter().take(MOST_COUNTED).copied().collect();
    let found = by_queries.samples.iter().filter(|sample| sample.number == SUCCESS);
    let from_the_first_other = found.skip_while(|sample| counted.contains(&sample.function));
    from_the_first_other.into_iter().any(|sample| counted.contains(&sample.function))
}

#[cfg(test)]
mod tests {
    use super::*;
    use crate::outputs::ledger_output;
    use crate::script_damage::split_lines;

    fn kinds_of(ledger: &str) -> Vec<Kind> {
        let header = "cap=2\ntop=1\nmul1=4294967297\nmul2=12884901889\n";
        let ledger = format!("{header}{ledger}");
        kinds(&split_lines(ledger.as_bytes()), &ledger_output(ledger.as_bytes()))
    }

    #[test]
    fn reports_have_their_kinds() {
        assert_eq!(kinds_of(""), [Kind::WholeReport, Kind::NoSamples]);
        let insert = "op=insert\nkey=1\nfn=0\nat=3\n";
        let ledger = format!("{insert}sample=1\nsample=2\n");
        assert_eq!(kinds_of(&ledger), [Kind::WholeReport, Kind::SomeNone, Kind::FunctionZero]);
        let full =
            "op=insert\nkey=3\nfn=3\nat=3\nop=insert\nkey=5\nfn=5\nat=5\nop=insert\nkey=7\nfn=7\nat=7\n";
        let ledger = format!("{insert}{full}op=cut\nafter=5\nop=update\nkey=1\nfn=9\nat=9\nsample=1\n");
        assert_eq!(kinds_of(&ledger), [Kind::WholeReport, Kind::UpdateMended]);
    }

    #[test]
    fn bad_lines_have_their_kinds() {
        assert_eq!(kinds_of("op=what\n"), [Kind::BadScript]);
        assert_eq!(kinds_of("sample=1\nsample=x\n"), [Kind::BadSample]);
        assert_eq!(kinds_of("sample=1\nsample=2"), [Kind::BadSample, Kind::TornEnd]);
        assert_eq!(kinds_of("sample=1\nop=begin\n"), [Kind::BadSample, Kind::EventAmongSamples]);
        assert_eq!(kinds_of("op=cut\nafter=1\nsample=1\n"), [Kind::BadScript, Kind::SampleBehindCut]);
        assert_eq!(kinds_of("op=query\nsample=1\n"), [Kind::BadScript, Kind::SampleForNumber]);
    }
}
