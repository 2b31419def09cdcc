//! The figures of conversions beside the calls that would do the same.

use ragansils_counts::markdown::{heads, table};

use crate::conversion::{self, operation, Conversions, BY_CALLS, CONVERSION, RECOVERY};
use crate::rounds::Measured;

use super::{bounds, intro, limit_table, ratio, three_digits, time, ALL_TABLES};

/// Nanoseconds of a millisecond.
const UNIT: f64 = 1e6;

/// The section of conversions.
pub fn conversions(all: &Conversions, seed: u64) -> String {
    let limits = limit_table("### Limits of a conversion", all.limits());
    [intro(seed, ALL_TABLES), limits, time_table(all), instruction_table(all)].join("\n")
}

fn time_table(all: &Conversions) -> String {
    let row = |measured: &Measured| {
        let (to_calls, of_recovery) =
            (measured.ratio(CONVERSION, BY_CALLS)?, measured.ratio(RECOVERY, CONVERSION)?);
        Some(vec![
            format!("{}, c = {}", measured.operation, measured.c),
            measured.of(CONVERSION)?.rounds.len().to_string(),
            time(measured, CONVERSION, UNIT),
            time(measured, BY_CALLS, UNIT),
            ratio(to_calls),
            bounds(to_calls),
            time(measured, RECOVERY, UNIT),
            format!("{:.2}", of_recovery.median),
        ])
    };
    let names = [
        "way",
        "rounds",
        "conversion, ms",
        "create and inserts, ms",
        "conversion / calls",
        "middle half",
        "recovery of the source, ms",
        "recovery / conversion",
    ];
    let title = format!("### A conversion beside creating and inserting\n\n{}", conversion::about());
    table(&title, &heads(&names), all.times.iter().filter_map(row))
}

fn instruction_table(all: &Conversions) -> String {
    let rows = all.instructions.iter().map(|(form, [conversion, by_calls, recovery])| {
        let mut row = vec![format!("{}, {}", operation(*form), conversion::about_counted())];
        row.extend([conversion, by_calls].map(|count| three_digits(count.instructions)));
        row.push(format!("**{:.2}**", conversion.instructions / by_calls.instructions));
        row.push(three_digits(recovery.instructions));
        row.extend([conversion, by_calls, recovery].map(|count| format!("{:.2}", count.mispredicted)));
        row
    });
    let names = [
        "way",
        "conversion",
        "create and inserts",
        "conversion / calls",
        "recovery of the source",
        "mispredicted, conversion",
        "mispredicted, calls",
        "mispredicted, recovery",
    ];
    let title = "### Instructions of a conversion, for an item\n\nCounted by callgrind, with its model of a branch predictor.";
    table(title, &heads(&names), rows)
}

#[cfg(test)]
mod tests {
    use super::*;
    use crate::conversion::examples;

    #[test]
    fn each_way_has_its_row() {
        let text = conversions(&examples::conversions([100.0, 120.0]), 1);
        let rows = [
            "| time of a conversion from form 2 to 1 as a multiple of that of the calls | at most 1.1 | missed | **1.200** | c = 18 |",
            "| from form 1 to 2, c = 18 | 1 | 100 | 100 | **1.00** | 1.00 to 1.00 | 50.0 | 0.50 |",
            "| from form 2 to 1, c = 12, load 0.8 | 400 | 300 | **1.33** | 100 | 0.50 | 0.50 | 0.50 |",
        ];
        for row in rows {
            assert!(text.lines().any(|line| line == row), "{row}\n{text}");
        }
    }
}
