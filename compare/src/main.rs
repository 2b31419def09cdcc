//! Compares the proved library and the script program with the model.

use std::process::ExitCode;

use ragansils_compare::{commands, program};

fn main() -> ExitCode {
    program::run(commands::run)
}
