//! What the command line asks for.

use std::ffi::OsString;
use std::path::PathBuf;

use ragansils::program::path_of;

use crate::progress::Display;

#[derive(Debug, PartialEq, Eq)]
pub enum Asked {
    Help,
    Conversion(Conversion),
}

#[derive(Debug, PartialEq, Eq)]
pub struct Conversion {
    pub old: PathBuf,
    pub new: PathBuf,
    /// Whether progress is told in any case.
    pub progress: bool,
}

impl Conversion {
    pub fn display(&self) -> Display {
        if self.progress {
            Display::Lines
        } else {
            Display::of_standard_error()
        }
    }
}

/// What is asked for; nothing where the command line is wrong.
pub fn read(arguments: &[OsString]) -> Option<Asked> {
    let (progress, paths) = match arguments {
        [only] if only == "--help" || only == "-h" => return Some(Asked::Help),
        [option, paths @ ..] if option == "--progress" => (true, paths),
        paths => (false, paths),
    };
    match paths {
        [old, new] => {
            Some(Asked::Conversion(Conversion { old: path_of(old)?, new: path_of(new)?, progress }))
        }
        _ => None,
    }
}

#[cfg(test)]
mod tests {
    use super::*;

    fn asked(words: &[&str]) -> Option<Asked> {
        read(&words.iter().map(OsString::from).collect::<Vec<_>>())
    }

    #[test]
    fn two_files_are_asked_for_with_progress_or_without() {
        let conversion =
            |progress| Some(Asked::Conversion(Conversion { old: "old".into(), new: "new".into(), progress }));
        assert_eq!(asked(&["old", "new"]), conversion(false));
        assert_eq!(asked(&["--progress", "old", "new"]), conversion(true));
        assert_eq!([asked(&["--help"]), asked(&["-h"])], [Some(Asked::Help), Some(Asked::Help)]);
    }

    #[test]
    fn all_else_is_wrong() {
        for words in [
            &[][..],
            &["old"],
            &["old", "new", "newer"],
            &["--progress", "old"],
            &["--progress"],
            &["old", "new", "--progress"],
            &["--progress", "--progress", "old", "new"],
            &["--progres", "old", "new"],
            &["-old", "new"],
            &["old", "-new"],
            &["--help", "old"],
        ] {
            assert_eq!(asked(words), None, "{words:?}");
        }
    }
}
