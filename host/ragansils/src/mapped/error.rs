//! Why a file gives no table.

use std::error::Error;
use std::fmt;
use std::io;

use crate::{Refusal, Unconverted};

/// Why a file gives no words for a table, or was not made. A file that was there is as it was.
#[derive(Debug)]
#[non_exhaustive]
pub enum FileError {
    /// The system refused to open, make, map or write it.
    System(io::Error),
    /// Another process, or another part of this one, has the table.
    InUse,
    /// Its length in bytes, which is no table's.
    Length(u64),
    /// No table can be created so.
    Refused(Refusal),
    /// The table that the file should hold in the other form was not converted.
    Unconverted(Unconverted),
}

impl From<io::Error> for FileError {
    fn from(error: io::Error) -> FileError {
        FileError::System(error)
    }
}

impl From<Unconverted> for FileError {
    fn from(refused: Unconverted) -> FileError {
        FileError::Unconverted(refused)
    }
}

impl fmt::Display for FileError {
    fn fmt(&self, f: &mut fmt::Formatter) -> fmt::Result {
        match self {
            FileError::System(error) => error.fmt(f),
            FileError::InUse => f.write_str("the table is in use"),
            FileError::Length(bytes) => write!(f, "a length of {bytes} bytes is no table's"),
            FileError::Refused(refusal) => refusal.fmt(f),
            FileError::Unconverted(refused) => refused.fmt(f),
        }
    }
}

impl Error for FileError {
    fn source(&self) -> Option<&(dyn Error + 'static)> {
        match self {
            FileError::System(error) => Some(error),
            FileError::Refused(refusal) => Some(refusal),
            FileError::Unconverted(refused) => Some(refused),
            FileError::InUse | FileError::Length(_) => None,
        }
    }
}
