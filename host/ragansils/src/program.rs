//! What the programs over this crate share that a user calls: how they answer, and with which exit status.
//!
//! A status from 3 on is a program's own, and tells what it found.

use std::ffi::OsStr;
use std::fmt::Display;
use std::io::Write;
use std::path::PathBuf;
use std::process::ExitCode;

/// All went well.
pub const DONE: u8 = 0;
/// A read or a write failed.
pub const FAILED: u8 = 1;
/// The command line is wrong.
pub const WRONG_USAGE: u8 = 2;

/// A program: its name, with which its complaints begin, and its usage.
#[derive(Clone, Copy, Debug)]
pub struct Program {
    /// As it is called.
    pub name: &'static str,
    /// How it is called, in lines.
    pub usage: &'static str,
}

impl Program {
    /// Writes to standard output. A reader that went away is no reason to panic.
    pub fn say(&self, text: &str, status: u8) -> ExitCode {
        let mut output = std::io::stdout().lock();
        match output.write_all(text.as_bytes()).and_then(|()| output.flush()) {
            Ok(()) => ExitCode::from(status),
            Err(error) => self.complain(format_args!("standard output: {error}"), FAILED),
        }
    }

    /// Writes a line to standard error.
    pub fn complain(&self, what: impl Display, status: u8) -> ExitCode {
        write_error(&format!("{}: {what}\n", self.name));
        ExitCode::from(status)
    }

    /// Tells how the program is called, with a sentence before it where the usage alone does not tell what was wrong.
    pub fn refuse_arguments(&self, what: Option<String>) -> ExitCode {
        if let Some(what) = what {
            self.complain(what, WRONG_USAGE);
        }
        write_error(self.usage);
        ExitCode::from(WRONG_USAGE)
    }
}

fn write_error(text: &str) {
    // Where standard error fails too, the status is all that is left to tell.
    let _ = std::io::stderr().write_all(text.as_bytes());
}

/// The file that an argument names. A name that begins as an option does is not taken for a file's.
pub fn path_of(argument: &OsStr) -> Option<PathBuf> {
    let is_option = argument.to_string_lossy().starts_with('-');
    (!is_option).then(|| PathBuf::from(argument))
}
