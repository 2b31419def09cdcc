//! The tables of what was measured before and after a change of the library.

use ragansils_counts::markdown::{heads, table};

use crate::builds::{BuildCounts, BuildTimes, AFTER, BEFORE};

use super::{bounds, ratio, three_digits, time};

/// The times of both builds, and the twin's. A row is of what stands first in it.
pub fn time_table<'a>(
    title: &str,
    first: &str,
    all: impl Iterator<Item = (String, &'a BuildTimes)>,
) -> String {
    let row = |(what, times): (String, &BuildTimes)| {
        let (to_before, to_twin) = (times.to_before()?, times.to_twin()?);
        let BuildTimes { library, twin, .. } = times;
        Some(vec![
            what,
            library.of(AFTER)?.rounds.len().to_string(),
            time(library, BEFORE, 1.0),
            time(library, AFTER, 1.0),
            ratio(to_before),
            bounds(to_before),
            time(twin, AFTER, 1.0),
            ratio(to_twin),
            bounds(to_twin),
            format!("{:.2}", twin.ratio(AFTER, BEFORE)?.median),
        ])
    };
    let names = [
        first,
        "rounds",
        "before, ns",
        "after, ns",
        "after / before",
        "middle half",
        "twin, ns",
        "after / twin",
        "middle half",
        "the twin's after / before",
    ];
    table(title, &heads(&names), all.filter_map(row))
}

/// The instructions of each operation, as callgrind counts them.
pub fn instruction_table<'a>(title: &str, all: impl Iterator<Item = (String, &'a BuildCounts)>) -> String {
    let rows = all.map(|(what, BuildCounts { before, after, twin })| {
        let mut row = vec![what];
        row.extend([before, after, twin].map(|count| three_digits(count.instructions)));
        row.extend([before, twin].map(|other| format!("**{:.2}**", after.instructions / other.instructions)));
        row.extend([before, after, twin].map(|count| format!("{:.2}", count.mispredicted)));
        row
    });
    let names = [
        "operation",
        "before",
        "after",
        "twin",
        "after / before",
        "after / twin",
        "mispredicted, before",
        "mispredicted, after",
        "mispredicted, twin",
    ];
    let how = "Counted by callgrind, with its model of a branch predictor";
    table(&format!("### {title}, before and after\n\n{how}."), &heads(&names), rows)
}
