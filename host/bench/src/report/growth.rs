//! The figures of whole growths.

use ragansils_counts::markdown::{heads, table};

use crate::by_size::factors;
use crate::drivers::FROM_FIRST;
use crate::growth::Growths;
use crate::instructions::Count;
use crate::peers::{CUCKOO, LIBRARY, TWIN};
use crate::rounds::Measured;

use super::{bounds, intro, limit_table, others, ratio, three_digits, time, NEW_TABLES};

/// Milliseconds.
pub const UNIT: f64 = 1e6;

/// The section of whole growths.
pub fn growths(growths: &Growths, seed: u64) -> String {
    let limits = limit_table("### Limits of a growth", growths.limits());
    let instructions = instruction_table("growth", 1, &growths.instructions);
    [intro(seed, NEW_TABLES), limits, time_table(growths), peer_table(growths), instructions].join("\n")
}

/// The library beside the twin, and beside itself: at half the size, and in the old way.
fn time_table(growths: &Growths) -> String {
    let rows = growths.times.iter().filter_map(|measured| {
        let mut row = by_size_and_twin(&growths.times, measured, measured.c - 1)?;
        row.push(time(measured, FROM_FIRST, UNIT));
        Some(row)
    });
    let names = [&BY_SIZE_AND_TWIN[..], &["library from bucket 0 each time, ms"]].concat();
    table("### One whole growth, begun at load 0.8", &heads(&names), rows)
}

/// What the tables of growths and of shrinks begin with.
pub const BY_SIZE_AND_TWIN: [&str; 7] =
    ["k", "N = 2^k", "library, ms", "times that from N/2", "twin, ms", "library / twin", "middle half"];

/// The cells under it, where the table has 2^k top buckets before.
pub fn by_size_and_twin(all: &[Measured], measured: &Measured, k: u64) -> Option<Vec<String>> {
    let factor = factors(all).into_iter().find(|(c, _)| *c == measured.c);
    let factor = factor.map_or(String::new(), |(_, factor)| format!("{factor:.2}"));
    let middle = measured.ratio_to_twin()?;
    let [library, twin] = [LIBRARY, TWIN].map(|peer| time(measured, peer, UNIT));
    let n = (1u64 << k).to_string();
    Some(vec![k.to_string(), n, library, factor, twin, ratio(middle), bounds(middle)])
}

fn peer_table(growths: &Growths) -> String {
    let others: Vec<&str> = others(&growths.times).into_iter().filter(|peer| *peer != FROM_FIRST).collect();
    let mut names = heads(&["k", "library, ms"]);
    names.extend(others.iter().map(|peer| peer.to_string()));
    let cell = |measured: &Measured, peer: &str| {
        let middle = measured.ratio_to(peer)?;
        Some(format!("{} ({:.2})", time(measured, peer, UNIT), middle.median))
    };
    let rows = growths.times.iter().map(|measured| {
        let mut row = vec![(measured.c - 1).to_string(), time(measured, LIBRARY, UNIT)];
        row.extend(others.iter().map(|peer| cell(measured, peer).unwrap_or_default()));
        row
    });
    let title = format!(
        "### A growth beside the doubling of other tables\n\nMilliseconds, and in brackets the library's time as a multiple of it. \
         {CUCKOO} and `HashMap` hold as many items, and double their room at once."
    );
    table(&title, &names, rows)
}

/// Of a growth or a shrink to or from some capacities; k is less than the capacity by so much.
pub fn instruction_table(what: &str, less: u64, instructions: &[(u64, [Count; 2])]) -> String {
    let rows = instructions.iter().map(|(c, [library, twin])| {
        vec![
            (c - less).to_string(),
            three_digits(library.instructions),
            three_digits(twin.instructions),
            format!("**{:.2}**", library.instructions / twin.instructions),
            format!("{:.2}", library.mispredicted),
            format!("{:.2}", twin.mispredicted),
        ]
    });
    let title = format!(
        "### Instructions of a {what}, for an item moved\n\nOf the whole {what}, divided by the number of its items. Counted by \
         callgrind, with its model of a branch predictor."
    );
    let names = ["k", "library", "twin", "ratio", "mispredicted, library", "mispredicted, twin"];
    table(&title, &heads(&names), rows)
}
