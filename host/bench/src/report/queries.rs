//! The figures of queries, before and after a change of the library.

use crate::instructions;
use crate::queries::{self, Queries};

use super::builds::{instruction_table, time_table};
use super::{intro, limit_table, OLD_TABLES};

/// The section of queries.
pub fn queries(all: &Queries, seed: u64) -> String {
    let title = format!("### A query\n\n{}", queries::about());
    let times = all.times.iter().map(|times| (times.name(), times));
    let about = instructions::about();
    let counts =
        all.counts.iter().map(|(operation, counts)| (format!("{}, {about}", operation.name()), counts));
    [
        intro(seed, OLD_TABLES),
        limit_table("### Limits of a query", all.limits()),
        time_table(&title, "operation", times),
        instruction_table("Instructions of a query", counts),
    ]
    .join("\n")
}

#[cfg(test)]
mod tests {
    use super::*;
    use crate::queries::examples;

    #[test]
    fn each_query_has_its_row() {
        let text = queries(&examples::queries([80.0, 102.0]), 1);
        let rows = [
            "| time of a query as a multiple of that before | at most 1.02 | met | **1.020** | worst query, positive, load 0.8, c = 18 |",
            "| time of a query as a multiple of the twin's | at most 1 | missed | **1.020** | worst query, positive, load 0.8, c = 18 |",
            "| query, positive, load 0.8, c = 14 | 1 | 100 | 80.0 | **0.80** | 0.80 to 0.80 | 100 | **0.80** | 0.80 to 0.80 | 2.00 |",
            "| query, positive, c = 12, load 0.8 | 400 | 100 | 200 | **0.25** | **0.50** | 0.00 | 0.00 | 0.00 |",
        ];
        for row in rows {
            assert!(text.lines().any(|line| line == row), "{row}\n{text}");
        }
    }
}
