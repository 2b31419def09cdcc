//! A program and the model, output against output: on scripts, and on ledgers.

use std::io::{self, Write};
use std::os::unix::process::ExitStatusExt;
use std::path::Path;
use std::process::Stdio;

use crate::random::Random;
use crate::runner::built;
use crate::script_damage::split_lines;
use crate::smallest::drop_pieces;

/// Of inputs below this single bytes are dropped, too.
const SHORT_INPUT: usize = 400;

/// An input that two programs answer differently.
pub struct Disagreement {
    pub input: Vec<u8>,
    pub what: String,
}

/// Where the texts of a run come from. One in three is damaged.
pub struct Source {
    /// That of one text.
    pub name: &'static str,
    pub text: fn(&mut Random) -> Vec<u8>,
    pub damage: fn(&mut Random, &[u8]) -> Vec<u8>,
}

impl Source {
    /// So many texts from a seed; `compare` says where a program and the model differ on one.
    pub fn run(
        &self,
        seed: u64,
        texts: u64,
        mut compare: impl FnMut(&[u8]) -> Result<(), String>,
    ) -> Result<(), Disagreement> {
        let mut random = Random::new(seed);
        for number in 0..texts {
            let mut input = (self.text)(&mut random);
            if number % 3 == 2 {
                input = (self.damage)(&mut random, &input);
            }
            if let Err(what) = compare(&input) {
                return Err(Disagreement { input, what: format!("{} {number}: {what}", self.name) });
            }
        }
        Ok(())
    }
}

/// Answers the output that a program and the model agree on, or says where they differ.
pub fn compare(program: &Path, model: fn(&[u8]) -> Vec<u8>, input: &[u8]) -> Result<Vec<u8>, String> {
    let expected = model(input);
    let output = program_output(program, input).map_err(|error| format!("{}: {error}", program.display()))?;
    match difference(("program", &output), ("model", &expected)) {
        Some(what) => Err(what),
        None => Ok(expected),
    }
}

/// Drops events and samples, then lines, then bytes, as long as the programs still differ.
pub fn smallest(input: Vec<u8>, differs: impl Fn(&[u8]) -> bool) -> Vec<u8> {
    let fails = |pieces: &[Vec<u8>]| differs(&pieces.concat());
    let events = drop_pieces(split_events(&input), fails).concat();
    let input = drop_pieces(split_lines(&events), fails).concat();
    if input.len() > SHORT_INPUT {
        return input;
    }
    let bytes = input.iter().map(|&byte| vec![byte]).collect();
    drop_pieces(bytes, fails).concat()
}

pub fn script_output(script: &[u8]) -> Vec<u8> {
    written(|output| ragansils_model::run_script(script, output))
}

pub fn ledger_output(ledger: &[u8]) -> Vec<u8> {
    written(|output| ragansils_model::run_ledger(ledger, output))
}

pub fn convert_output(script: &[u8]) -> Vec<u8> {
    written(|output| ragansils_model::run_convert(script, output))
}

fn written(run: impl FnOnce(&mut Vec<u8>) -> io::Result<()>) -> Vec<u8> {
    let mut output = Vec::new();
    run(&mut output).expect("memory takes every byte");
    output
}

/// Where an output differs first from another, each with the name of who wrote it.
pub fn difference(one: (&str, &[u8]), other: (&str, &[u8])) -> Option<String> {
    if one.1 == other.1 {
        return None;
    }
    let (lines, other_lines) = (split_lines(one.1), split_lines(other.1));
    let at = (0..).find(|&index| lines.get(index) != other_lines.get(index)).unwrap_or(0);
    let show = |lines: &[Vec<u8>]| match lines.get(at) {
        Some(line) => format!("{:?}", String::from_utf8_lossy(line)),
        None => "nothing".to_string(),
    };
    let (line, other_line) = (show(&lines), show(&other_lines));
    Some(format!("output line {}: {} {line}, {} {other_line}", at + 1, one.0, other.0))
}

fn program_output(program: &Path, input: &[u8]) -> io::Result<Vec<u8>> {
    let mut child = built(program).stdin(Stdio::piped()).stdout(Stdio::piped()).spawn()?;
    let mut pipe = child.stdin.take().expect("stdin is piped");
    let output = std::thread::scope(|scope| {
        // The program may stop at a bad line and leave the rest unread; that is no failure.
        scope.spawn(move || pipe.write_all(input).ok());
        child.wait_with_output()
    })?;
    match output.status.signal() {
        Some(signal) => Err(io::Error::new(io::ErrorKind::Other, format!("ended by signal {signal}"))),
        None => Ok(output.stdout),
    }
}

/// Pieces that each begin at an `op=` or a `sample=` line, the header before them.
fn split_events(input: &[u8]) -> Vec<Vec<u8>> {
    let mut events: Vec<Vec<u8>> = vec![vec![]];
    for line in split_lines(input) {
        if line.starts_with(b"op=") || line.starts_with(b"sample=") {
            events.push(vec![]);
        }
        events.last_mut().expect("there is the header").extend(line);
    }
    events
}

#[cfg(test)]
mod tests {
    use super::*;

    #[test]
    fn the_first_line_that_differs_is_told() {
        let of = |program: &str, model: &str| {
            difference(("program", program.as_bytes()), ("model", model.as_bytes()))
        };
        assert_eq!(of("made=0\nbad=5\n", "made=0\nbad=5\n"), None);
        let what = "output line 2: program \"bad=5\\n\", model \"bad=6\\n\"";
        assert_eq!(of("made=0\nbad=5\n", "made=0\nbad=6\n").as_deref(), Some(what));
        let what = "output line 2: program nothing, model \"bad=6\\n\"";
        assert_eq!(of("made=0\n", "made=0\nbad=6\n").as_deref(), Some(what));
    }

    #[test]
    fn a_ledger_falls_into_its_header_its_events_and_its_samples() {
        let pieces: [&[u8]; 4] = [b"cap=1\ntop=1\n", b"op=delete\nkey=1\n", b"sample=1\n", b"sample=2"];
        assert_eq!(split_events(&pieces.concat()), pieces);
    }
}
