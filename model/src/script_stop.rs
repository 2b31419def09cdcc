//! Why a program that reads a script ends before its time, and what it tells then.

use std::io::{self, Write};

#[derive(Debug)]
pub enum Stop {
    /// The number of the first bad line.
    BadLine(u64),
    /// The header was refused, with this number, by a program that tells nothing else then.
    NotMade(u64),
    Io(io::Error),
}

impl From<io::Error> for Stop {
    fn from(error: io::Error) -> Stop {
        Stop::Io(error)
    }
}

/// Ends a program's output: with the line that tells why it stopped, if it did.
pub fn end_output(outcome: Result<(), Stop>, mut output: impl Write) -> io::Result<()> {
    match outcome {
        Ok(()) => {}
        Err(Stop::BadLine(number)) => writeln!(output, "bad={number}")?,
        Err(Stop::NotMade(number)) => writeln!(output, "made={number}")?,
        Err(Stop::Io(error)) => return Err(error),
    }
    output.flush()
}
