//! The figures of whole shrinks.

use ragansils_counts::markdown::{heads, table};

use crate::shrink::{Shrinks, GROWTH};

use super::growth::{by_size_and_twin, instruction_table, BY_SIZE_AND_TWIN, UNIT};
use super::{intro, limit_table, ratio, time, NEW_TABLES};

/// The section of whole shrinks.
pub fn shrinks(shrinks: &Shrinks, seed: u64) -> String {
    let limits = limit_table("### Limits of a shrink", shrinks.limits());
    let instructions = instruction_table("shrink", 0, &shrinks.instructions);
    [intro(seed, NEW_TABLES), limits, time_table(shrinks), instructions].join("\n")
}

/// The library beside the twin, beside itself at half the size, and beside the growth between the same two sizes.
fn time_table(shrinks: &Shrinks) -> String {
    let rows = shrinks.times.iter().filter_map(|measured| {
        let mut row = by_size_and_twin(&shrinks.times, measured, measured.c)?;
        row.extend([time(measured, GROWTH, UNIT), ratio(measured.ratio_to(GROWTH)?)]);
        Some(row)
    });
    let names = [&BY_SIZE_AND_TWIN[..], &["growth from N/2, ms", "shrink / growth"]].concat();
    let title = "### One whole shrink, begun at load 0.4\n\nBeside it, in the same rounds, the library's growth from N/2 to N top buckets, \
        begun at load 0.8: as many items, and the same two sizes.";
    table(title, &heads(&names), rows)
}
