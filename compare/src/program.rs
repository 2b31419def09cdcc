//! What the programs over this library share: arguments in, answers out, a failure told.

use std::fmt::Display;
use std::io::Write;
use std::process::ExitCode;

/// Runs a program's command with its arguments. A failure is told on standard error, and is the program's.
pub fn run<E: Display>(command: impl FnOnce(&[String]) -> Result<(), E>) -> ExitCode {
    let arguments: Vec<String> = std::env::args().skip(1).collect();
    match command(&arguments) {
        Ok(()) => ExitCode::SUCCESS,
        Err(message) => {
            complain(&message);
            ExitCode::FAILURE
        }
    }
}

/// Writes to standard output. Where that fails it is told, and ends the program: `print!` would panic, which is told in no sentence.
pub fn say(text: impl Display) {
    let mut output = std::io::stdout().lock();
    write!(output, "{text}")
        .and_then(|()| output.flush())
        .unwrap_or_else(|error| stop(format_args!("standard output: {error}")))
}

/// Writes a line to standard error: how far a long run is.
pub fn note(line: impl Display) {
    writeln!(std::io::stderr(), "{line}")
        .unwrap_or_else(|error| stop(format_args!("standard error: {error}")))
}

/// Tells a failure, and ends the program with it.
pub fn stop(message: impl Display) -> ! {
    complain(&message);
    std::process::exit(1)
}

/// Writes a line, which is formatted as by `println!`, to standard output by [`say`](program::say).
#[macro_export]
macro_rules! say {
    ($($part:tt)*) => { $crate::program::say(format_args!("{}\n", format_args!($($part)*))) };
}

fn complain(message: &impl Display) {
    // Where standard error fails too, the exit status is all that is left to tell.
    let _ = writeln!(std::io::stderr(), "FAILED: {message}");
}
