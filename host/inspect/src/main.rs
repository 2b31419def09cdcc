//! Tells what a table's file holds, and what recovery would do with it. The file is only read.
//!
//! What recovery would do, and where a key stands, is asked of the proved library. All else is read by the layout of the independent
//! model, so that what is told of a table does not come from the code that wrote it.
//!
//! - `arguments`: what is asked for;
//! - `file`: the words of a file; `text`: how a report is written;
//! - `header`: the header, and what is wrong with it;
//! - `levels`: how full the levels are, drawn as text;
//! - `faults`: what is unsound;
//! - `recovery`: the stores that recovery lists, in words;
//! - `report`: all of it, and the verdict;
//! - `tags`: the tags of form 2, and what is wrong with them;
//! - `places`: where a key may stand; `buckets`: a bucket, drawn as text;
//! - `key_report`: what a query of a key answers, with its places, and the verdict.

mod arguments;
mod buckets;
mod faults;
mod file;
mod header;
mod key_report;
mod levels;
mod places;
mod recovery;
mod report;
mod tags;
mod text;

use std::path::Path;
use std::process::ExitCode;

use arguments::Asked;
use file::Content;
use ragansils::program::{Program, DONE, FAILED};

const USAGE: &str = "\
usage: ragansils-inspect FILE
       ragansils-inspect FILE --key ADDRESS DEPTH
Tells what the table in FILE holds, and what recovery would do with it. With --key it tells what a query of a key answers, where the key
stands, and what stands in every bucket where it may. ADDRESS and DEPTH are decimal, or hexadecimal with 0x before them;
the key that the table holds is ADDRESS * 256 + DEPTH. FILE is only read.
exit status: 0 the table is sound;             with --key: the key was found
             1 FILE could not be read, or the answer could not be written
             2 the command line is wrong
             3 recovery would mend the table;  with --key: the update flag is set, and recovery comes first
             4 recovery would refuse it;       with --key: FILE is no table
             5                                 with --key: the key is absent
";

const PROGRAM: Program = Program { name: "ragansils-inspect", usage: USAGE };

fn main() -> ExitCode {
    let arguments: Vec<_> = std::env::args_os().skip(1).collect();
    match arguments::read(&arguments) {
        Ok(Asked::Help) => PROGRAM.say(USAGE, DONE),
        Ok(Asked::Table(path)) => inspect(&path, |name, content| {
            let (text, verdict) = report::report(name, content);
            (text, status_of_table(verdict))
        }),
        Ok(Asked::Key(path, key)) => inspect(&path, |name, content| {
            let (text, verdict) = key_report::report(name, content, key);
            (text, status_of_key(verdict))
        }),
        Err(what) => PROGRAM.refuse_arguments(what),
    }
}

fn status_of_table(verdict: report::Verdict) -> u8 {
    match verdict {
        report::Verdict::Sound => DONE,
        report::Verdict::Mendable => 3,
        report::Verdict::Refused => 4,
    }
}

fn status_of_key(verdict: key_report::Verdict) -> u8 {
    match verdict {
        key_report::Verdict::Found => DONE,
        key_report::Verdict::RecoveryFirst => 3,
        key_report::Verdict::NoTable => 4,
        key_report::Verdict::Absent => 5,
    }
}

/// Reads a file, and says what is told of it.
fn inspect(path: &Path, tell: impl FnOnce(&str, &Content) -> (String, u8)) -> ExitCode {
    match file::read(path) {
        Ok(content) => {
            let (text, status) = tell(&path.display().to_string(), &content);
            PROGRAM.say(&text, status)
        }
        Err(error) => PROGRAM.complain(format_args!("{}: {error}", path.display()), FAILED),
    }
}
