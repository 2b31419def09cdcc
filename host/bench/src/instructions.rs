//! Instructions and mispredicted branches of a call, counted by callgrind. Instructions are the same on every run, where times are not;
//! mispredicted branches are those of callgrind's simple model, and change with where the linker puts the code.
//! The program runs itself under valgrind, one operation of one side at a time.

use std::path::{Path, PathBuf};
use std::process::Command;

use ragansils_compare::random::Random;
use ragansils_counts::{full_size, items_at, Keys, Kind, NEW_FORM};
use ragansils_model::table_words;

use crate::operations::{split_by_update, Filled, Operation};
use crate::peers::{one_side, Peer, LIBRARY, TWIN};

/// A table that fits no first-level cache, and that valgrind fills in a second.
const USUAL_C: u64 = 12;
/// The tables whose recovery is counted.
const RECOVERED: [u64; 5] = [6, 8, 10, 12, 14];
const LOAD: f64 = 0.8;
const CALLS: usize = 2_000;
pub const SEED: u64 = 7;

/// Of one call; of a recovery, for one word of the table.
pub struct Count {
    pub instructions: f64,
    pub mispredicted: f64,
}

pub struct Counted {
    pub c: u64,
    pub operation: Operation,
    pub library: Count,
    pub twin: Count,
}

pub fn about() -> String {
    format!("c = {USUAL_C}, load {LOAD}")
}

/// Counts every operation of both sides, and recovery in tables of several capacities. Callgrind's files go to a folder.
pub fn count_all(folder: &Path) -> Result<Vec<Counted>, String> {
    let program = this_program()?;
    let calls = Operation::ALL.into_iter().filter(|&operation| operation != Operation::Recovery);
    let recoveries = RECOVERED.into_iter().map(|c| (Operation::Recovery, c));
    let all = calls.map(|operation| (operation, USUAL_C)).chain(recoveries);
    all.map(|(operation, c)| {
        let count = |side| count(&program, operation, side, (NEW_FORM, c), folder);
        Ok(Counted { c, operation, library: count(LIBRARY)?, twin: count(TWIN)? })
    })
    .collect()
}

fn count(
    program: &Path,
    operation: Operation,
    side: &str,
    (form, c): (u64, u64),
    folder: &Path,
) -> Result<Count, String> {
    let arguments = ["counted", operation.name(), side, &form.to_string(), &c.to_string()];
    count_run(program, &arguments, folder)
}

/// One operation of one side, in the usual table of a form, by a build of this program.
pub fn count_usual(
    program: &Path,
    operation: Operation,
    side: &str,
    form: u64,
    folder: &Path,
) -> Result<Count, String> {
    count(program, operation, side, (form, USUAL_C), folder)
}

/// The growths and shrinks whose instructions are counted: to and from capacities of tables that valgrind fills in some seconds.
const DRIVEN: [u64; 4] = [8, 10, 12, 14];

/// What this program's command for a whole growth or shrink counts for an item that moves, by the library and by the twin.
pub fn count_driven(command: &str, folder: &Path) -> Result<Vec<(u64, [Count; 2])>, String> {
    let program = this_program()?;
    let count = |side, c: u64| count_run(&program, &[command, side, &c.to_string()], folder);
    DRIVEN.into_iter().map(|c| Ok((c, [count(LIBRARY, c)?, count(TWIN, c)?]))).collect()
}

pub fn this_program() -> Result<PathBuf, String> {
    std::env::current_exe().map_err(|error| format!("no path to this program: {error}"))
}

/// What one call costs in a run of a build of this program with these arguments; the run writes how many calls it made.
pub fn count_run(program: &Path, arguments: &[&str], folder: &Path) -> Result<Count, String> {
    let file = folder.join("callgrind.out");
    let output = Command::new("valgrind")
        .args(["--tool=callgrind", "--branch-sim=yes", "--toggle-collect=counted_calls"])
        .arg(format!("--callgrind-out-file={}", file.display()))
        .arg(program)
        .args(arguments)
        .output()
        .map_err(|error| format!("valgrind could not be run: {error}"))?;
    let written = String::from_utf8_lossy(&output.stdout).trim().to_string();
    let calls: f64 = match written.parse() {
        Ok(calls) if output.status.success() => calls,
        _ => return Err(format!("valgrind: {}", String::from_utf8_lossy(&output.stderr))),
    };
    let text = std::fs::read_to_string(&file).map_err(|error| format!("{}: {error}", file.display()))?;
    totals(&text, calls)
}

/// What callgrind's file says, for one of so many calls.
fn totals(text: &str, calls: f64) -> Result<Count, String> {
    let line = |name: &str| text.lines().find_map(|line| line.strip_prefix(name));
    let (events, totals) = match (line("events:"), line("totals:")) {
        (Some(events), Some(totals)) => (events, totals),
        _ => return Err("callgrind wrote no totals".to_string()),
    };
    let of = |event: &str| {
        let at = events.split_whitespace().position(|name| name == event)?;
        totals.split_whitespace().nth(at)?.parse::<f64>().ok().map(|total| total / calls)
    };
    match (of("Ir"), of("Bcm"), of("Bim")) {
        (Some(instructions), Some(direct), Some(indirect)) => {
            Ok(Count { instructions, mispredicted: direct + indirect })
        }
        _ => Err(format!("callgrind counted other events: {events}")),
    }
}

/// What callgrind counts and nothing else, by its name. The answers are stored here, so that a run is no jump out of it.
#[no_mangle]
#[inline(never)]
pub fn counted_calls(run: &mut dyn FnMut() -> u64, answers: &mut u64) {
    *answers = run();
}

fn call_all(operation: Operation, peer: &mut dyn Peer, keys: &[u64]) -> u64 {
    match operation {
        Operation::PositiveQuery | Operation::NegativeQuery => peer.get_all(keys),
        Operation::Insert => peer.insert_all(keys),
        Operation::Delete => peer.remove_all(keys),
        Operation::UpdateBeside | Operation::UpdateLogged => peer.update_all(keys),
        Operation::Recovery => peer.recover().into(),
    }
}

/// Runs one operation of one side, under valgrind, and answers how many calls it was, or words that it recovered.
pub fn run_counted(name: &str, side: &str, form: u64, c: u64) -> Result<usize, String> {
    let operation = Operation::ALL.into_iter().find(|operation| operation.name() == name);
    let operation = operation.ok_or_else(|| format!("no operation {name}"))?;
    let mut random = Random::new(SEED);
    let setting = full_size(&mut random, form, c);
    let items = items_at(setting, LOAD);
    let keys = Keys::new(&mut random, Kind::Random, items + CALLS / 10, CALLS);
    let peers = vec![one_side(setting, side)?];
    let mut filled = Filled { c, peers, keys: &keys, items: 0, when: String::new() };
    filled.fill(items)?;
    let peer = &mut filled.peers[0];
    let chosen = keys_for(operation, &mut random, &keys, items, peer.words().ok_or("no words")?);
    let mut answers = 0;
    counted_calls(&mut || call_all(operation, peer.as_mut(), &chosen), &mut answers);
    match (answers, operation) {
        (0, _) => Err(format!("{name} by the {side} did nothing")),
        (_, Operation::Recovery) => Ok(table_words(c).unwrap_or(0)),
        _ => Ok(chosen.len()),
    }
}

fn keys_for(operation: Operation, random: &mut Random, keys: &Keys, items: usize, words: &[u64]) -> Vec<u64> {
    let present = keys.draw_present(random, items, CALLS);
    match operation {
        Operation::PositiveQuery => present,
        Operation::NegativeQuery => keys.draw_absent(random, CALLS),
        Operation::Insert => keys.present()[items..].to_vec(),
        Operation::Delete => keys.present()[..CALLS].to_vec(),
        Operation::UpdateBeside => split_by_update(words, &present).1,
        Operation::UpdateLogged => split_by_update(words, &present).0,
        Operation::Recovery => vec![],
    }
}

#[cfg(test)]
mod tests {
    use super::*;

    #[test]
    fn callgrind_is_read() {
        let text = "events: Ir Bc Bcm Bi Bim\nfn=counted\ntotals: 1000 90 20 5 10\n";
        let count = totals(text, 10.0).unwrap();
        assert_eq!([count.instructions, count.mispredicted], [100.0, 3.0]);
        assert!(totals("events: Ir\ntotals: 5\n", 1.0).is_err());
        assert!(totals("", 1.0).is_err());
    }
}
