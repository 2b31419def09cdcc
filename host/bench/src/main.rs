//! Measures the proved library beside its twin and beside tables that a user might pick. `./bench` builds and runs it.
//!
//! From the bottom up:
//! - `peers`: what is measured;
//! - `clock`, `rounds`: how it is timed, and what is said of the times;
//! - `limits`: what something may cost; `by_size`: limits of growths and shrinks;
//! - `drivers`: the ways through a growth or a shrink;
//! - `operations`, `recovery`, `growth` and `shrink` with their limits, `chains`: what is timed; `instructions`: what valgrind counts of it;
//! - `builds`: what is measured before a change of the library and after it; `import`, `queries`: this, with their limits;
//! - `processes`: rounds that are processes; `forms`: form 2 beside form 1, and `conversion`: from the one to the other, with their limits;
//!   `overlay`: a newer table over an older one, with its limits;
//! - `plan`, `run`: how much, and all of it;
//! - `svg`, `chart`, `plots`, `report`: what is written of it.
//!
//! The keys, the level tables and all counts that need no clock are host/counts'.

mod builds;
mod by_size;
mod chains;
mod chart;
mod clock;
mod conversion;
mod drivers;
mod forms;
mod growth;
mod import;
mod instructions;
mod limits;
mod operations;
mod overlay;
mod peers;
mod plan;
mod plots;
mod processes;
mod queries;
mod recovery;
mod report;
mod rounds;
mod run;
mod shrink;
mod svg;

use std::path::Path;
use std::process::ExitCode;
use std::time::Instant;

use ragansils_compare::random::Random;
use ragansils_compare::{program, say};

use crate::chains::Chains;
use crate::growth::Growths;
use crate::rounds::Measured;
use crate::run::{Results, Run};

const USAGE: &str =
    "usage: ragansils-bench quick|full SEED OUT-FOLDER LMDB-FOLDER   or   ragansils-bench chains|growth|shrink|forms|convert|overlay SEED OUT-FOLDER   or   \
    ragansils-bench import|query SEED OUT-FOLDER BUILD-WITH-THE-LIBRARY-BEFORE";

fn main() -> ExitCode {
    program::run(command)
}

fn command(arguments: &[String]) -> Result<(), String> {
    let words: Vec<&str> = arguments.iter().map(String::as_str).collect();
    match words[..] {
        ["chains", seed, out] => chains_alone(number(seed)?, Path::new(out)),
        ["growth", seed, out] => growth_alone(number(seed)?, Path::new(out)),
        ["shrink", seed, out] => shrink_alone(number(seed)?, Path::new(out)),
        ["forms", seed, out] => forms_alone(number(seed)?, Path::new(out)),
        ["convert", seed, out] => convert_alone(number(seed)?, Path::new(out)),
        ["overlay", seed, out] => overlay_alone(number(seed)?, Path::new(out)),
        ["import", seed, out, before] => import_alone(number(seed)?, Path::new(out), Path::new(before)),
        ["query", seed, out, before] => query_alone(number(seed)?, Path::new(out), Path::new(before)),
        ["quick", seed, out, lmdb] => bench(&plan::QUICK, number(seed)?, Path::new(out), Path::new(lmdb)),
        ["full", seed, out, lmdb] => bench(&plan::FULL, number(seed)?, Path::new(out), Path::new(lmdb)),
        _ => by_itself(&words).map(|answer| say!("{answer}")),
    }
}

/// What the program runs of itself, and what one build of it runs of another.
fn by_itself(words: &[&str]) -> Result<String, String> {
    match *words {
        // These seven under valgrind.
        ["counted", operation, side, form, c] => {
            instructions::run_counted(operation, side, number(form)?, number(c)?)
                .map(|calls| calls.to_string())
        }
        ["counted-frames", way, depths] => {
            chains::run_counted(way, number(depths)?).map(|calls| calls.to_string())
        }
        ["counted-growth", side, c] => growth::run_counted(side, number(c)?).map(|items| items.to_string()),
        ["counted-shrink", side, c] => shrink::run_counted(side, number(c)?).map(|items| items.to_string()),
        ["counted-import", side, c] => import::run_counted(side, number(c)?).map(|calls| calls.to_string()),
        ["counted-convert", way, form] => {
            conversion::run_counted(way, number(form)?).map(|items| items.to_string())
        }
        ["counted-overlay", way, call, asked, form] => {
            overlay::run_counted(way, call, asked, number(form)?).map(|keys| keys.to_string())
        }
        ["import-round", c, seed] => {
            import::run_round(number(c)?, number(seed)?).map(|times| times.to_string())
        }
        ["query-round", when, c, seed] => {
            queries::run_round(when, number(c)?, number(seed)?).map(|times| times.to_string())
        }
        ["form-round", c, seed] => forms::run_round(number(c)?, number(seed)?).map(|times| times.to_string()),
        ["convert-round", c, seed] => {
            conversion::run_round(number(c)?, number(seed)?).map(|times| times.to_string())
        }
        ["overlay-round", c, seed] => {
            overlay::run_round(number(c)?, number(seed)?).map(|times| times.to_string())
        }
        _ => Err(USAGE.to_string()),
    }
}

fn number(text: &str) -> Result<u64, String> {
    text.parse().map_err(|_| USAGE.to_string())
}

/// Writes the section, and then says where a chain costs more than it may.
fn chains_alone(seed: u64, out: &Path) -> Result<(), String> {
    let chains = chains::measure(seed, out)?;
    program::say(report::chain_table(&chains));
    chains.iter().try_for_each(Chains::check)
}

/// Writes the section and its picture, and then says where a growth costs more than it may.
fn growth_alone(seed: u64, out: &Path) -> Result<(), String> {
    let begun = Instant::now();
    let growths = growth::measure(&plan::FULL, seed, out, |part| note(begun, part))?;
    let section = write_growths(&growths, seed, out)?;
    write(out, "growth-rounds.txt", &report::rounds_of(growths.times.iter()))?;
    program::say(section);
    growths.check()
}

/// Writes the section, and then says where a shrink costs more than it may.
fn shrink_alone(seed: u64, out: &Path) -> Result<(), String> {
    let begun = Instant::now();
    let shrinks = shrink::measure(&plan::FULL, seed, out, |part| note(begun, part))?;
    write_section("shrink", out, report::shrinks(&shrinks, seed), shrinks.times.iter())?;
    shrinks.check()
}

/// Writes the section, and then says where form 2 costs more than it may.
fn forms_alone(seed: u64, out: &Path) -> Result<(), String> {
    let begun = Instant::now();
    let forms = forms::measure(&plan::FULL.counts, seed, out, |part| note(begun, part))?;
    write_section("forms", out, report::forms(&forms, seed), forms.times.iter())?;
    forms.check()
}

/// Writes the section, and then says where a conversion costs more than it may.
fn convert_alone(seed: u64, out: &Path) -> Result<(), String> {
    let begun = Instant::now();
    let conversions = conversion::measure(seed, out, |part| note(begun, part))?;
    write_section("convert", out, report::conversions(&conversions, seed), conversions.times.iter())?;
    conversions.check()
}

/// Writes the section, and then says where asking two tables costs more than it may.
fn overlay_alone(seed: u64, out: &Path) -> Result<(), String> {
    let begun = Instant::now();
    let overlays = overlay::measure(seed, out, |part| note(begun, part))?;
    write_section("overlay", out, report::overlays(&overlays, seed), overlays.times.iter())?;
    overlays.check()
}

/// Writes the section, and then says where an insert or an import costs more than it may.
fn import_alone(seed: u64, out: &Path, before: &Path) -> Result<(), String> {
    let begun = Instant::now();
    let imports = import::measure(&plan::HELD, seed, before, out, |part| note(begun, part))?;
    write_section("import", out, report::imports(&imports, seed), imports.measured())?;
    imports.check()
}

/// The same of queries.
fn query_alone(seed: u64, out: &Path, before: &Path) -> Result<(), String> {
    let begun = Instant::now();
    let queries = queries::measure(seed, before, out, |part| note(begun, part))?;
    write_section("query", out, report::queries(&queries, seed), queries.measured())?;
    queries.check()
}

/// A part of the page, and every round of it, to files; and the part to standard output.
fn write_section<'a>(
    part: &str,
    out: &Path,
    section: String,
    measured: impl Iterator<Item = &'a Measured>,
) -> Result<(), String> {
    write(out, &format!("{part}.md"), &section)?;
    write(out, &format!("{part}-rounds.txt"), &report::rounds_of(measured))?;
    program::say(section);
    Ok(())
}

fn write_growths(growths: &Growths, seed: u64, out: &Path) -> Result<String, String> {
    let section = report::growths(growths, seed);
    write(out, "growth.svg", &plots::growth(growths))?;
    write(out, "growth.md", &section)?;
    Ok(section)
}

fn bench(plan: &plan::Plan, seed: u64, out: &Path, lmdb: &Path) -> Result<(), String> {
    let (random, begun, results) = (Random::new(seed), Instant::now(), Results::default());
    let mut run = Run { plan, random, folder: lmdb, begun, results };
    run.everything(seed, out)?;
    for (name, picture) in plots::all(&run.results) {
        write(out, name, &picture)?;
    }
    write(out, "figures.md", &report::figures(&run.results, seed))?;
    write_growths(&run.results.growths, seed, out)?;
    write(out, "shrink.md", &report::shrinks(&run.results.shrinks, seed))?;
    write(out, "rounds.txt", &report::every_round(&run.results))?;
    say!("{}", report::targets(&run.results));
    Ok(())
}

fn write(folder: &Path, name: &str, text: &str) -> Result<(), String> {
    let file = folder.join(name);
    std::fs::write(&file, text).map_err(|error| format!("{}: {error}", file.display()))
}

/// How far a long run is.
fn note(begun: Instant, part: &str) {
    program::note(format_args!("bench: {:4} s: {part}", begun.elapsed().as_secs()));
}
