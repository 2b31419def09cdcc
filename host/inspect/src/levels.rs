//! How full the levels are.

use std::fmt::Display;

use ragansils::Level as Name;
use ragansils_model::{Level, Slot, Table, SLOTS_PER_BUCKET};

/// The width of a drawing, at most.
const CELLS: usize = 64;

/// The level in use that a slot stands in.
pub fn name_of(table: &Table, slot: Slot) -> String {
    let holds = |level: &Level| level.buckets().contains(&slot.bucket);
    let index = table.levels_in_use().iter().position(holds);
    index.map_or("unused".to_string(), |index| Name::ALL[index].to_string())
}

/// Each level in use with its fill, and its buckets drawn.
pub fn lines(table: &Table) -> Vec<String> {
    let levels = table.levels_in_use();
    let mut lines = vec![];
    for (level, name) in levels.iter().zip(Name::ALL) {
        lines.push(fill_line(name, level.size, taken_in(table, *level)));
    }
    let (buckets, taken) = levels
        .iter()
        .fold((0, 0), |(buckets, taken), level| (buckets + level.size, taken + taken_in(table, *level)));
    lines.push(fill_line("in all", buckets, taken));
    lines.push(format!("buckets, each by its taken slots{}:", cell_note(&levels)));
    for (level, name) in levels.iter().zip(Name::ALL) {
        lines.push(format!("{name:<8} |{}|", drawing(table, *level)));
    }
    lines
}

fn taken_in(table: &Table, level: Level) -> usize {
    level.buckets().map(|bucket| table.taken_count(bucket) as usize).sum()
}

fn fill_line(name: impl Display, buckets: usize, taken: usize) -> String {
    let slots = buckets * SLOTS_PER_BUCKET;
    let percent = 100.0 * taken as f64 / slots as f64;
    let full = taken * 20 / slots;
    let bar = "#".repeat(full) + &".".repeat(20 - full);
    format!("{name:<8} {buckets:>8} buckets, {taken:>8} of {slots:>8} slots taken, {percent:>5.1} % [{bar}]")
}

/// How many buckets of the largest level a character stands for, if several.
fn cell_note(levels: &[Level]) -> String {
    // Not always the top: while a table shrinks, the interim level is.
    match levels.iter().map(|level| buckets_per_cell(*level)).max().unwrap_or(1) {
        1 => String::new(),
        several => format!(" (up to {several} together, rounded up)"),
    }
}

fn buckets_per_cell(level: Level) -> usize {
    (level.size / CELLS).max(1)
}

/// A digit for each bucket, or for several together: their taken slots, rounded up to a whole number; a dot for none.
fn drawing(table: &Table, level: Level) -> String {
    let buckets: Vec<usize> = level.buckets().collect();
    let cells = buckets.chunks(buckets_per_cell(level));
    cells
        .map(|cell| digit(cell.iter().map(|&bucket| table.taken_count(bucket) as usize).sum(), cell.len()))
        .collect()
}

fn digit(taken: usize, buckets: usize) -> char {
    match (taken + buckets - 1) / buckets {
        0 => '.',
        average => char::from_digit(average as u32, 10).unwrap_or('?'),
    }
}
