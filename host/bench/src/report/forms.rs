//! The figures of form 2 beside form 1 and beside libcuckoo.

use ragansils_counts::markdown::{heads, table};
use ragansils_counts::spread_table;

use crate::forms::{self, FormCounts, Forms};
use crate::instructions;
use crate::peers::{CUCKOO, FORM_1, FORM_2};
use crate::rounds::Measured;

use super::{bounds, intro, limit_table, ratio, three_digits, time, ALL_TABLES};

/// The section of the forms.
pub fn forms(all: &Forms, seed: u64) -> String {
    [
        intro(seed, ALL_TABLES),
        limit_table("### Limits of form 2", all.limits()),
        time_table(all),
        instruction_table(all),
        spread_table(&all.spreads),
    ]
    .join("\n")
}

fn time_table(all: &Forms) -> String {
    let row = |measured: &Measured| {
        let (to_form_1, to_cuckoo) = (measured.ratio(FORM_2, FORM_1)?, measured.ratio(FORM_2, CUCKOO)?);
        Some(vec![
            format!("{}, c = {}", measured.operation, measured.c),
            measured.of(FORM_2)?.rounds.len().to_string(),
            time(measured, FORM_1, 1.0),
            time(measured, FORM_2, 1.0),
            ratio(to_form_1),
            bounds(to_form_1),
            time(measured, CUCKOO, 1.0),
            ratio(to_cuckoo),
            bounds(to_cuckoo),
        ])
    };
    let names = [
        "operation",
        "rounds",
        "form 1, ns",
        "form 2, ns",
        "form 2 / form 1",
        "middle half",
        "libcuckoo, ns",
        "form 2 / libcuckoo",
        "middle half",
    ];
    let title = format!("### Form 2 beside form 1 and libcuckoo\n\n{}", forms::about());
    table(&title, &heads(&names), all.times.iter().filter_map(row))
}

fn instruction_table(all: &Forms) -> String {
    let rows = all.instructions.iter().map(|FormCounts { operation, library, twin }| {
        let mut row = vec![format!("{}, {}", operation.name(), instructions::about())];
        for [one, two] in [library, twin] {
            row.extend([one, two].map(|count| three_digits(count.instructions)));
            row.push(format!("**{:.2}**", two.instructions / one.instructions));
        }
        row.extend(library.iter().map(|count| format!("{:.2}", count.mispredicted)));
        row
    });
    let names = [
        "operation",
        "form 1",
        "form 2",
        "form 2 / form 1",
        "twin, form 1",
        "twin, form 2",
        "twin, form 2 / form 1",
        "mispredicted, form 1",
        "mispredicted, form 2",
    ];
    let title = "### Instructions of a call in both forms\n\nCounted by callgrind, with its model of a branch predictor.";
    table(title, &heads(&names), rows)
}

#[cfg(test)]
mod tests {
    use super::*;
    use crate::forms::examples;

    #[test]
    fn each_operation_has_its_row() {
        let text = forms(&examples::forms([90.0, 80.0, 100.0], 0.95), 1);
        let rows = [
            "| query, negative: time in form 2 as a multiple of that of form 1 | at most 0.75 | missed | **0.800** | c = 18 |",
            "| insert: time in form 2 as a multiple of that of form 1 | at most 1.05 | met | **1.000** | c = 18 |",
            "| query, positive, load 0.8, c = 18 | 1 | 100 | 90.0 | **0.90** | 0.90 to 0.90 | 100 | **0.90** | 0.90 to 0.90 |",
            "| query, negative, c = 12, load 0.8 | 160 | 80.0 | **0.50** | 100 | 90.0 | **0.90** | 0.50 | 0.50 |",
            "| 18 | addresses 4 apart, depths 0 to 7 | 2 | 1 | 0.950 | **0.950** | **3.00** | **1.00** |",
        ];
        for row in rows {
            assert!(text.lines().any(|line| line == row), "{row}\n{text}");
        }
    }
}
