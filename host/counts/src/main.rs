//! `ragansils-counts quick|full SEED`: the counts alone, as Markdown. `./bench counts` builds and runs it.

use std::process::ExitCode;

use ragansils_compare::program;
use ragansils_counts::{plan, Counts};

const USAGE: &str = "usage: ragansils-counts quick|full SEED";

fn main() -> ExitCode {
    program::run(|arguments| command(arguments).map(program::say))
}

fn command(arguments: &[String]) -> Result<String, String> {
    let words: Vec<&str> = arguments.iter().map(String::as_str).collect();
    let (extent, seed) = match words[..] {
        [extent, seed] => (extent, seed.parse().map_err(|_| USAGE.to_string())?),
        _ => return Err(USAGE.to_string()),
    };
    let plan = match extent {
        "quick" => &plan::QUICK,
        "full" => &plan::FULL,
        _ => return Err(USAGE.to_string()),
    };
    let counts = Counts::count(seed, plan, |part| program::note(format_args!("counts: {part}")))?;
    Ok(counts.sections())
}
