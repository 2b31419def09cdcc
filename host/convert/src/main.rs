//! Makes a new file with the table of another one, in the other form. That one is only read.
//!
//! The proved library converts. What is told of the table, and how far it is, is read by the layout of the independent model, so that no
//! layout stands here.
//!
//! - `arguments`: what is asked for;
//! - `facts`: what a table holds;
//! - `sample`: how much of it the new file has so far; `progress`: a thread that tells it;
//! - `sentences`: what is said at the end, with the exit status.

mod arguments;
mod facts;
mod progress;
mod sample;
mod sentences;

use std::process::ExitCode;

use arguments::{Asked, Conversion};
use facts::{count_items, Facts};
use progress::{Progress, Stage};
use ragansils::program::{Program, DONE};
use ragansils::{calls, FileError, NewFile, ReadOnlyFile};
use sentences::Complaint;

const USAGE: &str = "\
usage: ragansils-convert [--progress] FILE NEW-FILE
Makes NEW-FILE, a table with the same items as the one in FILE, in the other form: in form 2 where FILE is of form 1, and in form 1 where it
is of form 2. FILE is only read, and no collector may have it open. A file that has the name NEW-FILE is not replaced. The new file is made
under another name (NEW-FILE, with the process id and .new behind it) and gets its own when it is whole and on the disk. So a cut leaves FILE
as it is, and at worst a file with that other name, which may be removed.
Where it takes long, a line on standard error tells how far it is, if that is a terminal; with --progress in any case.
exit status: 0 NEW-FILE was made
             1 a file could not be read or made, is in use, or is there already
             2 the command line is wrong
             3 the table in FILE needs recovery first
             4 FILE is no table, or recovery would refuse it
             5 the table is growing or shrinking
             6 an item has no place in the other form
";

const PROGRAM: Program = Program { name: "ragansils-convert", usage: USAGE };

fn main() -> ExitCode {
    let arguments: Vec<_> = std::env::args_os().skip(1).collect();
    match arguments::read(&arguments) {
        Some(Asked::Help) => PROGRAM.say(USAGE, DONE),
        Some(Asked::Conversion(asked)) => match run(&asked) {
            Ok(text) => PROGRAM.say(&text, DONE),
            Err(Complaint { text, status }) => PROGRAM.complain(text, status),
        },
        None => PROGRAM.refuse_arguments(None),
    }
}

/// Converts, and answers what is to be said.
fn run(asked: &Conversion) -> Result<String, Complaint> {
    let (old_name, new_name) = (asked.old.display().to_string(), asked.new.display().to_string());
    let old = ReadOnlyFile::open(&asked.old).map_err(|error| sentences::unopened(&old_name, &error))?;
    let facts = Facts::of(old.as_ref());
    let progress =
        Progress { display: asked.display(), old: &old_name, new: &new_name, facts: facts.as_ref() };
    let items = convert(&old, asked, &progress).map_err(|error| match error {
        FileError::Unconverted(refused) => sentences::refused(&old_name, refused, old.as_ref()),
        error => sentences::unmade(&new_name, &error),
    })?;
    Ok(facts.map_or(String::new(), |facts| sentences::made(&old_name, &new_name, &facts, items)))
}

/// Makes the new file; answers the number of its items.
fn convert(old: &ReadOnlyFile, asked: &Conversion, progress: &Progress) -> Result<u64, FileError> {
    let words = old.as_ref();
    let mut new = NewFile::make(&asked.new, words.len())?;
    let reader = new.reader()?;
    // Whoever may read or write the old file may do so with the new one.
    reader.set_permissions(old.file().metadata()?.permissions())?;
    progress.tell_while(reader, |begin| {
        // This may be the first to read the file from the disk, which can take longer than all that follows.
        let items = count_items(words);
        begin(Stage::Converting { items });
        calls::convert(words, new.as_mut())?;
        begin(Stage::Writing);
        new.link().map(|_| items)
    })
}
