//! The figures of imports, before and after a change of the library.

use crate::import::{self, Imports};
use crate::instructions;

use super::builds::{instruction_table, time_table};
use super::{intro, limit_table, twin_tables, OLD_TABLES};

/// The section of imports.
pub fn imports(imports: &Imports, seed: u64) -> String {
    let title = format!("### An import, for an insert\n\nA table filled from nothing {}.", import::about());
    let times = imports.times.iter().map(|times| (times.library.c.to_string(), times));
    let counts = [
        (format!("insert, {}", instructions::about()), &imports.insert_counts),
        (format!("insert of an import on average, {}", import::about_counted()), &imports.import_counts),
    ];
    [
        intro(seed, OLD_TABLES),
        limit_table("### Limits of an insert and an import", imports.limits()),
        time_table(&title, "c", times),
        twin_tables("Inserts beside the twin", &imports.inserts),
        instruction_table("Instructions of an insert", counts.into_iter()),
    ]
    .join("\n")
}

#[cfg(test)]
mod tests {
    use super::*;
    use crate::import::examples;

    #[test]
    fn what_was_before_stands_under_before() {
        let text = imports(&examples::imports([110.0, 120.0], 300.0, [80.0, 90.0]), 1);
        let rows = [
            "| 8 | 1 | 100 | 80.0 | **0.80** | 0.80 to 0.80 | 100 | **0.80** | 0.80 to 0.80 | 2.00 |",
            "| 18 | 1 | 100 | 90.0 | **0.90** | 0.90 to 0.90 | 100 | **0.90** | 0.90 to 0.90 | 2.00 |",
            "| insert, c = 12, load 0.8 | 400 | 300 | 200 | **0.75** | **1.50** | 0.00 | 0.00 | 0.00 |",
            "| insert | 110 | 100 | **1.10** | 1.10 to 1.10 |",
        ];
        for row in rows {
            assert!(text.lines().any(|line| line == row), "{row}\n{text}");
        }
    }
}
