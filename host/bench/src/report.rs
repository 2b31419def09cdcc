//! The figures as text, for docs/BENCHMARKS.md.

mod builds;
mod conversion;
mod forms;
mod growth;
mod import;
mod overlay;
mod queries;
mod shrink;

pub use conversion::conversions;
pub use forms::forms;
pub use growth::growths;
pub use import::imports;
pub use overlay::overlays;
pub use queries::queries;
pub use shrink::shrinks;

use ragansils_counts::markdown::{heads, table};
use ragansils_counts::Middle;
use ragansils_model::table_words;
use ragansils_twin::TWIN_COMPILER;

use crate::chains::{self, Chains, CHAIN, QUERIES};
use crate::instructions;
use crate::limits::{Limit, INSERT_TO_TWIN, TARGET_CAPACITIES};
use crate::operations::Operation;
use crate::peers::{LIBRARY, LISTING_TWIN, TWIN};
use crate::rounds::Measured;
use crate::run::Results;

/// What the library may take, as a multiple of the twin's time, at these capacities.
const TARGETS: [(&str, f64); 3] = [("query", 1.10), ("insert", INSERT_TO_TWIN), ("recovery", 1.20)];
/// A ratio above this is called slower.
const SLOWER: f64 = 1.05;

/// Which tables a section is of: new ones, or those that libraries of earlier commits have too.
const NEW_TABLES: &str = "tables of form 2";
const OLD_TABLES: &str = "tables of form 1";
const ALL_TABLES: &str = "tables of both forms";

/// How the figures of a section were come by.
fn intro(seed: u64, forms: &str) -> String {
    format!(
        "Seed {seed}; {forms}; the twin by `{TWIN_COMPILER}`. Times are medians over the rounds; a ratio is the \
         median of the rounds' ratios, with the bounds of the middle half of the rounds beside it.\n"
    )
}

/// All sections but those of growths and shrinks.
pub fn figures(results: &Results, seed: u64) -> String {
    [
        intro(seed, NEW_TABLES),
        slower(results),
        slower_than_others(results),
        targets(results),
        list_table(results),
        instruction_table(results),
        twin_tables("Beside the twin", &results.operations),
        peer_tables(results),
        recovery_table(results),
        chain_table(&results.chains),
        results.counts.sections(),
    ]
    .join("\n")
}

/// Every round of everything, to be looked at again.
pub fn every_round(results: &Results) -> String {
    let parts = [
        &results.operations,
        &results.listed_inserts,
        &results.recovery,
        &results.more_recovery,
        &results.growths.times,
        &results.shrinks.times,
    ];
    let chains = results.chains.iter().map(|chains| &chains.times);
    rounds_of(parts.iter().copied().flatten().chain(chains))
}

pub fn rounds_of<'a>(all: impl Iterator<Item = &'a Measured>) -> String {
    let mut text = String::new();
    for measured in all {
        for series in &measured.series {
            let rounds: Vec<String> = series.rounds.iter().map(|time| format!("{time:.1}")).collect();
            let (c, operation, peer) = (measured.c, &measured.operation, series.peer);
            text += &format!("c={c}; {operation}; {peer}; ns: {}\n", rounds.join(" "));
        }
    }
    text
}

/// Three digits that count.
fn three_digits(value: f64) -> String {
    let digits_before = value.abs().max(1e-9).log10().floor() as i32 + 1;
    let places = (3 - digits_before).max(0) as usize;
    format!("{value:.places$}")
}

fn ratio(middle: Middle) -> String {
    format!("**{:.2}**", middle.median)
}

fn bounds(middle: Middle) -> String {
    format!("{:.2} to {:.2}", middle.low, middle.high)
}

/// A peer's median in some unit of so many nanoseconds.
fn time(measured: &Measured, peer: &str, unit: f64) -> String {
    measured.of(peer).map_or("".to_string(), |series| three_digits(series.middle().median / unit))
}

/// Everything that has a twin, with the name of its capacity.
fn beside_the_twin(results: &Results) -> impl Iterator<Item = &Measured> {
    results.operations.iter().chain(&results.recovery)
}

fn slower(results: &Results) -> String {
    let mut slow: Vec<(f64, String)> = vec![];
    for measured in beside_the_twin(results) {
        let median = measured.ratio_to_twin().map_or(0.0, |middle| middle.median);
        if median > SLOWER {
            slow.push((median, format!("{}, c = {}", measured.operation, measured.c)));
        }
    }
    slow.sort_by(|a, b| b.0.total_cmp(&a.0));
    let all = beside_the_twin(results).count();
    let title = format!(
        "### Slower than the twin\n\n{} of {all} measurements have a ratio above {SLOWER}:",
        slow.len()
    );
    let rows = slow.into_iter().map(|(median, what)| vec![format!("**{median:.2}**"), what]);
    table(&title, &heads(&["library / twin", "operation"]), rows)
}

/// In how many measurements another table is quicker.
fn slower_than_others(results: &Results) -> String {
    let capacities = capacities(&results.operations);
    let cell = |peer: &str, c: u64| {
        let measured = results.operations.iter().filter(|measured| measured.c == c);
        let ratios: Vec<f64> = measured.filter_map(|one| Some(one.ratio_to(peer)?.median)).collect();
        let slower = ratios.iter().filter(|ratio| **ratio > 1.0).count();
        format!("{slower} of {}", ratios.len())
    };
    let rows = others(&results.operations).into_iter().map(|peer| {
        let mut row = vec![peer.to_string()];
        row.extend(capacities.iter().map(|&c| cell(peer, c)));
        row
    });
    let mut names = heads(&["slower than"]);
    names.extend(capacities.iter().map(|c| format!("c = {c}")));
    table("### Slower than other tables, in so many of the measurements", &names, rows)
}

/// The worst ratio under each target.
pub fn targets(results: &Results) -> String {
    let rows = TARGETS.map(|(name, limit)| {
        let under = beside_the_twin(results).filter(|measured| {
            measured.operation.starts_with(name) && TARGET_CAPACITIES.contains(&measured.c)
        });
        let ratios = under.filter_map(|measured| Some((measured.ratio_to_twin()?.median, measured)));
        let mut all: Vec<(f64, &Measured)> = ratios.collect();
        all.sort_by(|a, b| b.0.total_cmp(&a.0));
        let within = all.iter().filter(|(median, _)| *median <= limit).count();
        let worst = all.first().map_or("not measured".to_string(), |(median, measured)| {
            format!("{median:.2}: {}, c = {}", measured.operation, measured.c)
        });
        let verdict = if within == all.len() { "met" } else { "missed" };
        vec![
            name.to_string(),
            format!("{limit:.2}"),
            verdict.to_string(),
            format!("{within} of {}", all.len()),
            worst,
        ]
    });
    let title = "### Targets, at c = 14 and c = 18";
    table(title, &heads(&["operation", "at most", "", "measurements within", "worst"]), rows)
}

fn limit_table(title: &str, limits: Vec<Limit>) -> String {
    let rows = limits.into_iter().map(|limit| {
        let (verdict, measured) = match limit.measured {
            number if number.is_nan() => ("not measured", String::new()),
            _ if limit.is_met() => ("met", format!("**{}**", limit.measured_text())),
            _ => ("missed", format!("**{}**", limit.measured_text())),
        };
        vec![limit.what, limit.bound.to_string(), verdict.to_string(), measured, limit.of]
    });
    table(title, &heads(&["", "limit", "", "measured", "where"]), rows)
}

fn list_table(results: &Results) -> String {
    let rows = results.listed_inserts.iter().filter_map(|measured| {
        let [library, twin, listing] = [LIBRARY, TWIN, LISTING_TWIN].map(|peer| time(measured, peer, 1.0));
        Some(vec![
            format!("{}, c = {}", measured.operation, measured.c),
            library,
            listing,
            twin,
            ratio(measured.ratio(LISTING_TWIN, TWIN)?),
            ratio(measured.ratio(LIBRARY, LISTING_TWIN)?),
            ratio(measured.ratio_to_twin()?),
        ])
    });
    let names = [
        "operation",
        "library, ns",
        "twin with a list, ns",
        "twin, ns",
        "list alone",
        "library / twin with a list",
        "library / twin",
    ];
    let title = "### What the list alone costs an insert\n\nThe twin, but that it lists its four stores as the library does, and \
        `ragansils_make` makes them.";
    table(title, &heads(&names), rows)
}

fn instruction_table(results: &Results) -> String {
    let rows = results.instructions.iter().map(|counted| {
        let (library, twin) = (&counted.library, &counted.twin);
        let operation = match counted.operation {
            Operation::Recovery => format!("recovery, for a word, c = {}", counted.c),
            operation => operation.name().to_string(),
        };
        vec![
            operation,
            three_digits(library.instructions),
            three_digits(twin.instructions),
            format!("**{:.2}**", library.instructions / twin.instructions),
            format!("{:.2}", library.mispredicted),
            format!("{:.2}", twin.mispredicted),
        ]
    });
    let title = format!(
        "### Instructions of a call\n\nCounted by callgrind, with its model of a branch predictor; {}.",
        instructions::about()
    );
    let names = ["operation", "library", "twin", "ratio", "mispredicted, library", "mispredicted, twin"];
    table(&title, &heads(&names), rows)
}

/// The capacities that were measured, in order.
fn capacities(all: &[Measured]) -> Vec<u64> {
    let mut found: Vec<u64> = all.iter().map(|measured| measured.c).collect();
    found.sort_unstable();
    found.dedup();
    found
}

/// The library beside the twin, a table for each capacity.
fn twin_tables(title: &str, all: &[Measured]) -> String {
    let names = heads(&["operation", "library, ns", "twin, ns", "ratio", "middle half"]);
    let one = |c: u64| {
        let rows = all.iter().filter(|measured| measured.c == c).filter_map(|measured| {
            let middle = measured.ratio_to_twin()?;
            let [library, twin] = [LIBRARY, TWIN].map(|peer| time(measured, peer, 1.0));
            Some(vec![measured.operation.clone(), library, twin, ratio(middle), bounds(middle)])
        });
        table(&format!("### {title}, c = {c}"), &names, rows)
    };
    capacities(all).into_iter().map(one).collect::<Vec<String>>().join("\n")
}

/// The peers besides library and twin.
fn others(measured: &[Measured]) -> Vec<&'static str> {
    let all = measured.first().map_or(vec![], |one| one.series.iter().map(|series| series.peer).collect());
    all.into_iter().filter(|peer| ![LIBRARY, TWIN].contains(peer)).collect()
}

fn peer_tables(results: &Results) -> String {
    let others = others(&results.operations);
    let mut names = heads(&["operation", "library, ns"]);
    names.extend(others.iter().map(|peer| peer.to_string()));
    let cell = |measured: &Measured, peer: &str| {
        let middle = measured.ratio_to(peer)?;
        Some(format!("{} ({:.2})", time(measured, peer, 1.0), middle.median))
    };
    let one = |c: u64| {
        let rows = results.operations.iter().filter(|measured| measured.c == c).map(|measured| {
            let mut row = vec![measured.operation.clone(), time(measured, LIBRARY, 1.0)];
            row.extend(others.iter().map(|peer| cell(measured, peer).unwrap_or_default()));
            row
        });
        let title = format!("### Beside other tables, c = {c}\n\nNanoseconds, and in brackets the library's time as a multiple of it.");
        table(&title, &names, rows)
    };
    capacities(&results.operations).into_iter().map(one).collect::<Vec<String>>().join("\n")
}

fn recovery_table(results: &Results) -> String {
    let all = results.recovery.iter().chain(&results.more_recovery);
    let rows = all.filter_map(|measured| {
        let middle = measured.ratio_to_twin()?;
        let words = table_words(measured.c)? as f64;
        let library = measured.of(LIBRARY)?.middle().median;
        Some(vec![
            format!("{}", measured.c),
            format!("{words}"),
            measured.operation.replace("recovery, ", ""),
            three_digits(library / 1e6),
            time(measured, TWIN, 1e6),
            ratio(middle),
            bounds(middle),
            three_digits(library / words),
        ])
    });
    let names =
        ["c", "words", "table", "library, ms", "twin, ms", "ratio", "middle half", "library, ns for a word"];
    table("### Recovery of a whole table", &heads(&names), rows)
}

pub fn chain_table(all: &[Chains]) -> String {
    let rows = all.iter().filter_map(|chains| {
        let middle = chains.times.ratio(CHAIN, QUERIES)?;
        let [chain, queries] = &chains.instructions;
        Some(vec![
            chains.depths.to_string(),
            time(&chains.times, CHAIN, 1.0),
            time(&chains.times, QUERIES, 1.0),
            ratio(middle),
            bounds(middle),
            three_digits(chain.instructions),
            three_digits(queries.instructions),
            format!("**{:.2}**", chain.instructions / queries.instructions),
            if chains.check().is_ok() { "met" } else { "missed" }.to_string(),
        ])
    });
    let limit = format!("at most {:.2}", chains::LIMIT);
    let names = [
        "depths",
        "chain, ns",
        "queries, ns",
        "ratio",
        "middle half",
        "instructions, chain",
        "instructions, queries",
        "ratio",
        &limit,
    ];
    let title = format!(
        "### Chains\n\nAll frames at an address: one chain, and beside it a query for each of its depths; {}.",
        chains::about()
    );
    table(&title, &heads(&names), rows)
}

#[cfg(test)]
mod tests {
    use super::*;

    #[test]
    fn three_digits_count() {
        let said = [0.001234, 0.5, 9.876, 31.04, 314.2, 31415.9].map(three_digits);
        assert_eq!(said, ["0.00123", "0.500", "9.88", "31.0", "314", "31416"]);
    }
}
