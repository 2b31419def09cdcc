//! The pictures of docs/BENCHMARKS.md.

use ragansils_counts::{Bin, BINS};
use ragansils_model::table_words;

use crate::chart::{lines, rows, Axis, Line, Row};
use crate::drivers::FROM_FIRST;
use crate::growth::Growths;
use crate::peers::{CUCKOO, LIBRARY, TWIN};
use crate::rounds::Measured;
use crate::run::Results;

/// File names and pictures, but that of growths.
pub fn all(results: &Results) -> Vec<(&'static str, String)> {
    vec![
        ("ratios.svg", ratios(results)),
        ("peers.svg", peers(results)),
        ("recovery.svg", recovery(results)),
        ("filling.svg", filling(results)),
    ]
}

/// The library's time as a multiple of the twin's.
fn ratios(results: &Results) -> String {
    let all: Vec<&Measured> = results.operations.iter().chain(&results.recovery).collect();
    let mut capacities: Vec<u64> = all.iter().map(|measured| measured.c).collect();
    capacities.sort_unstable();
    capacities.dedup();
    let ratio = |c: u64, operation: &str| {
        let measured = all.iter().find(|measured| measured.c == c && measured.operation == operation)?;
        measured.ratio_to_twin().map(|middle| middle.median)
    };
    let row = |operation: &String| Row {
        label: operation.clone(),
        values: capacities.iter().map(|&c| ratio(c, operation)).collect(),
    };
    let rows_of: Vec<Row> = operations(&all).iter().map(row).collect();
    let most = rows_of.iter().flat_map(|row| row.values.iter().flatten()).copied().fold(1.5, f64::max);
    let axis = Axis::linear("library's time / twin's time", most);
    let names: Vec<String> = capacities.iter().map(|c| format!("c = {c}")).collect();
    let names: Vec<&str> = names.iter().map(String::as_str).collect();
    rows("The library beside its twin", &axis, &names, &rows_of, &[1.0])
}

/// The names of operations, each once, in the order in which they were measured.
fn operations(all: &[&Measured]) -> Vec<String> {
    let mut names: Vec<String> = vec![];
    for measured in all {
        if !names.contains(&measured.operation) {
            names.push(measured.operation.clone());
        }
    }
    names
}

/// All peers at the largest capacity below those that fit no cache.
fn peers(results: &Results) -> String {
    let c = results.operations.iter().map(|measured| measured.c).filter(|&c| c <= 18).max().unwrap_or(0);
    let chosen: Vec<&Measured> = results.operations.iter().filter(|measured| measured.c == c).collect();
    let names: Vec<&str> =
        chosen.first().map_or(vec![], |one| one.series.iter().map(|series| series.peer).collect());
    let median = |measured: &Measured, peer: &str| measured.of(peer).map(|series| series.middle().median);
    let row = |measured: &&Measured| Row {
        label: measured.operation.clone(),
        values: names.iter().map(|peer| median(measured, peer)).collect(),
    };
    let rows_of: Vec<Row> = chosen.iter().map(row).collect();
    let values = rows_of.iter().flat_map(|row| row.values.iter().flatten().copied());
    let axis = Axis::log("nanoseconds for one operation", 10, values);
    rows(&format!("All tables, c = {c}"), &axis, &names, &rows_of, &[])
}

/// A line of a peer's medians over something of the capacity.
fn line_of(all: &[&Measured], peer: &'static str, x: impl Fn(u64) -> f64, unit: f64) -> Line {
    let point = |measured: &&Measured| Some((x(measured.c), measured.of(peer)?.middle().median / unit));
    Line { label: peer.to_string(), points: all.iter().filter_map(point).collect(), is_guide: false }
}

/// What would begin where a line does and go with a power of x.
fn guide(label: &str, line: &Line, power: i32) -> Line {
    let (x0, y0) = line.points.first().copied().unwrap_or((1.0, 1.0));
    let points = line.points.iter().map(|&(x, _)| (x, y0 * (x / x0).powi(power))).collect();
    Line { label: label.to_string(), points, is_guide: true }
}

fn log_axes(x: &str, base: u32, y: &str, lines: &[Line]) -> [Axis; 2] {
    let points = || lines.iter().flat_map(|line| line.points.iter().copied());
    [Axis::log(x, base, points().map(|(x, _)| x)), Axis::log(y, 10, points().map(|(_, y)| y))]
}

fn recovery(results: &Results) -> String {
    let words = |c: u64| table_words(c).unwrap_or(1) as f64;
    let measured = results.sound_recoveries();
    let [library, twin] = [LIBRARY, TWIN].map(|side| line_of(&measured, side, words, 1e6));
    let linear = guide("linear", &library, 1);
    let all = [library, twin, linear];
    let [x, y] = log_axes("words of the table", 10, "milliseconds", &all);
    lines("Recovery of a sound table, load 0.8", &x, &y, &all)
}

pub fn growth(growths: &Growths) -> String {
    let top_buckets = |c: u64| f64::from(1u32 << (c - 1));
    let all: Vec<&Measured> = growths.times.iter().collect();
    let line = |peer: &'static str, label: &str| {
        let line = line_of(&all, peer, top_buckets, 1e6);
        Line { label: label.to_string(), ..line }
    };
    let library = line(LIBRARY, "library, going on");
    let old_way = line(FROM_FIRST, FROM_FIRST);
    let (linear, quadratic) = (guide("linear", &library, 1), guide("quadratic", &old_way, 2));
    let (twin, cuckoo) = (line(TWIN, "twin, going on"), line(CUCKOO, CUCKOO));
    let all = [library, old_way, twin, cuckoo, linear, quadratic];
    let [x, y] = log_axes("N, the top's buckets before the growth", 2, "milliseconds", &all);
    lines("One whole growth, begun at load 0.8", &x, &y, &all)
}

/// Over the load: how many inserts moved an item, and how many updates needed no log.
fn filling(results: &Results) -> String {
    let largest = results.counts.largest_random_fillings();
    let bins = largest.map_or([Bin::default(); BINS], |fillings| fillings.bins);
    let share = |label: &str, part: fn(&Bin) -> f64| {
        let met = bins.iter().enumerate().filter(|(_, bin)| bin.inserts.calls() > 0);
        let points = met.map(|(at, bin)| ((at as f64 + 0.5) / BINS as f64, part(bin))).collect();
        Line { label: label.to_string(), points, is_guide: false }
    };
    let all = [
        share("inserts that move an item", Bin::moving_share),
        share("updates without a log", Bin::plain_share),
    ];
    let x = Axis::linear("load", 1.0);
    let y = Axis::linear("share", 1.0);
    let k = largest.map_or(0, |fillings| fillings.k);
    lines(&format!("Tables filled until the first refusal 6, k = {k}"), &x, &y, &all)
}
