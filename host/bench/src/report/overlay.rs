//! The figures of two tables that are asked together, beside the queries that would do the same.

use ragansils_counts::markdown::{heads, table};

use crate::overlay::{self, Overlays, QUERIES, TOGETHER};
use crate::rounds::Measured;

use super::{bounds, intro, limit_table, three_digits, time, ALL_TABLES};

/// The section of two tables.
pub fn overlays(all: &Overlays, seed: u64) -> String {
    let limits = limit_table("### Limits of asking two tables", all.worst_limits());
    [intro(seed, ALL_TABLES), limits, time_table(all), instruction_table(all)].join("\n")
}

fn time_table(all: &Overlays) -> String {
    let row = |(measured, limit): (&Measured, bool)| {
        let to_queries = measured.ratio(TOGETHER, QUERIES)?;
        Some(vec![
            format!("{}, c = {}", measured.operation, measured.c),
            measured.of(TOGETHER)?.rounds.len().to_string(),
            time(measured, TOGETHER, 1.0),
            time(measured, QUERIES, 1.0),
            format!("**{:.3}**", to_queries.median),
            bounds(to_queries),
            if limit { "" } else { "missed" }.to_string(),
        ])
    };
    let names =
        ["call", "rounds", "together, ns", "queries, ns", "together / queries", "middle half", "limit"];
    let title = format!("### Two tables asked together, for a key\n\n{}", overlay::about());
    let is_met = all.limits().into_iter().map(|limit| limit.is_met());
    table(&title, &heads(&names), all.times.iter().zip(is_met).filter_map(row))
}

fn instruction_table(all: &Overlays) -> String {
    let rows = all.instructions.iter().map(|(what, [together, queries])| {
        let mut row = vec![format!("{what}, {}", overlay::about_counted())];
        row.extend([together, queries].map(|count| three_digits(count.instructions)));
        row.push(format!("**{:.3}**", together.instructions / queries.instructions));
        row.extend([together, queries].map(|count| format!("{:.2}", count.mispredicted)));
        row
    });
    let names = [
        "call",
        "together",
        "queries",
        "together / queries",
        "mispredicted, together",
        "mispredicted, queries",
    ];
    let title = "### Instructions of asking two tables, for a key\n\nCounted by callgrind, with its model of a branch predictor.";
    table(title, &heads(&names), rows)
}

#[cfg(test)]
mod tests {
    use super::*;
    use crate::overlay::examples;

    #[test]
    fn each_call_has_its_row() {
        let text = overlays(&examples::overlays([100.0, 120.0]), 1);
        let rows = [
            "| time of part, keys of the newer, to that of its queries | at most 1.05 | missed | **1.200** | worst form 2, newer c = 10, c = 18 |",
            "| asked, keys of the newer, form 2, newer c = 10, c = 18 | 1 | 100 | 100 | **1.000** | 1.00 to 1.00 |  |",
            "| part, keys of the newer, form 2, newer c = 10, c = 18 | 1 | 120 | 100 | **1.200** | 1.20 to 1.20 | missed |",
            "| asked, keys of neither, form 2, newer c = 10, c = 12, load 0.8 | 90.0 | 80.0 | **1.125** | 0.50 | 0.50 |",
        ];
        for row in rows {
            assert!(text.lines().any(|line| line == row), "{row}\n{text}");
        }
    }
}
