//! Starting a program that was built for x86-64, on whatever processor this is.

use std::ffi::OsStr;
use std::process::Command;

/// What cargo starts such a program with, where `tests/processor.sh` found another processor: an emulator. A program under
/// it cannot start another one by itself.
const RUNNER: &str = "CARGO_TARGET_X86_64_UNKNOWN_LINUX_GNU_RUNNER";

/// A command that starts a built program. Every program of this project starts others by it.
pub fn built(program: impl AsRef<OsStr>) -> Command {
    started_by(&std::env::var(RUNNER).unwrap_or_default(), program.as_ref())
}

/// Whether an emulator starts the built programs. Then their time and memory are the emulator's.
pub fn is_emulated() -> bool {
    std::env::var(RUNNER).map_or(false, |runner| !runner.trim().is_empty())
}

/// The runner with its options, in words as cargo has them, and then the program; or the program alone.
fn started_by(runner: &str, program: &OsStr) -> Command {
    let mut words = runner.split_whitespace();
    match words.next() {
        None => Command::new(program),
        Some(emulator) => {
            let mut command = Command::new(emulator);
            command.args(words).arg(program);
            command
        }
    }
}

#[cfg(test)]
mod tests {
    use super::*;

    fn words(runner: &str) -> Vec<String> {
        let mut command = started_by(runner, OsStr::new("a program"));
        command.arg("argument");
        let words = std::iter::once(command.get_program()).chain(command.get_args());
        words.map(|word| word.to_str().unwrap().to_string()).collect()
    }

    #[test]
    fn without_a_runner_the_program_starts_itself() {
        assert_eq!(words(""), ["a program", "argument"]);
    }

    #[test]
    fn a_runner_with_options_comes_first() {
        assert_eq!(words("emulator -v"), ["emulator", "-v", "a program", "argument"]);
    }
}
