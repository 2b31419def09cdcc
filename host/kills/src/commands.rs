//! What the command line asks for.

use std::path::{Path, PathBuf};

use ragansils::Form;
use ragansils_compare::random::Random;
use ragansils_compare::say;

use crate::collector;
use crate::exact::{Exact, Kills};
use crate::moments::Moments;
use crate::process::read_task;
use crate::self_test;
use crate::tables::prepare;
use crate::wrong::Wrong;

const USAGE: &str = "\
usage: kills run FOLDER SEED TABLES MOMENTS
       kills self-test FOLDER SEED
run kills a collector at every store of every kind of change, on so many tables of each kind, and at so many random moments, all that in
each form of a table; self-test checks that collectors with a mistake are caught. Files are kept in FOLDER.";

type Answer = Result<(), String>;

pub fn run(arguments: &[String]) -> Answer {
    let words: Vec<&str> = arguments.iter().map(String::as_str).collect();
    match words[..] {
        ["run", folder, seed, tables, moments] => {
            kill(&file_in(folder)?, number(seed)?, number(tables)? as usize, number(moments)?)
        }
        ["self-test", folder, seed] => self_test::run(&mut Random::new(number(seed)?), &file_in(folder)?),
        // The process that is killed; only this program starts it.
        ["collect", path, wrong, ref task @ ..] => {
            collector::run(Path::new(path), Wrong::read(wrong), read_task(task)?)
        }
        _ => Err(USAGE.to_string()),
    }
}

pub fn number(text: &str) -> Result<u64, String> {
    text.parse().map_err(|error| format!("{text}: {error}\n{USAGE}"))
}

fn file_in(folder: &str) -> Result<PathBuf, String> {
    std::fs::create_dir_all(folder).map_err(|error| format!("{folder}: {error}"))?;
    Ok(Path::new(folder).join("positions.table"))
}

fn kill(path: &Path, seed: u64, tables: usize, moments: u64) -> Answer {
    say!("kills: seed {seed}");
    let mut random = Random::new(seed);
    let mut kills = Kills::default();
    for form in Form::ALL {
        for prepared in &prepare(&mut random, form, tables)? {
            Exact { path, random: &mut random, kills: &mut kills, wrong: None }.every_store(prepared)?;
        }
    }
    kills.print();
    let mut total = kills.total();
    for form in Form::ALL {
        let mut at_moments = Moments::of(form);
        at_moments.run(&mut random, path, moments)?;
        at_moments.print();
        total += at_moments.kills;
    }
    if total == 0 {
        return Err("nothing was killed".to_string());
    }
    say!("kills: {total} in all, nothing lost, no record half new");
    Ok(())
}
