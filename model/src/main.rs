//! The script program: `model` reads standard input, `model FILE` a file.
//! The sample ledger: `model ledger` and `model ledger FILE`.
//! The conversion to form 2 and back: `model convert` and `model convert FILE`.

#![forbid(unsafe_code)]

use std::fs::File;
use std::io::{self, BufRead, BufReader, BufWriter, Write};
use std::process::ExitCode;

#[derive(Clone, Copy)]
enum Program {
    Script,
    Ledger,
    Convert,
}

/// The programs that are asked for by name.
const NAMED_PROGRAMS: [(&str, Program); 2] = [("ledger", Program::Ledger), ("convert", Program::Convert)];

fn main() -> ExitCode {
    match run() {
        Ok(()) => ExitCode::SUCCESS,
        Err(error) => {
            // Where standard error fails too, the exit status is all that is left to tell.
            let _ = writeln!(io::stderr(), "model: {error}");
            ExitCode::FAILURE
        }
    }
}

fn run() -> io::Result<()> {
    let mut arguments = std::env::args_os().skip(1).peekable();
    // A script in a file of such a name is still reached as `./ledger` or `./convert`.
    let named =
        NAMED_PROGRAMS.iter().find(|(name, _)| arguments.next_if(|argument| argument == name).is_some());
    let program = named.map_or(Program::Script, |&(_, program)| program);
    match arguments.next() {
        Some(path) => run_program(program, BufReader::new(File::open(path)?)),
        None => run_program(program, io::stdin().lock()),
    }
}

fn run_program(program: Program, input: impl BufRead) -> io::Result<()> {
    let output = BufWriter::new(io::stdout().lock());
    match program {
        Program::Script => ragansils_model::run_script(input, output),
        Program::Ledger => ragansils_model::run_ledger(input, output),
        Program::Convert => ragansils_model::run_convert(input, output),
    }
}
