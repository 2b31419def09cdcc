//! What the tests of the program share: tables, files of them, and a run of the program.
#![allow(dead_code)] // not every test uses all of it

use std::fs;
use std::path::{Path, PathBuf};
use std::process::Output;

use ragansils::{bytes_of, Creation, Key, OrdinaryMemory, Record, Table};
use ragansils_compare::runner::built;

pub const PROGRAM: &str = env!("CARGO_BIN_EXE_ragansils-convert");

/// A table with these keys.
pub fn table_of(creation: &Creation, keys: impl IntoIterator<Item = Key>) -> Vec<u64> {
    let words = vec![0; creation.words().unwrap()];
    let mut table = Table::create(words, creation, OrdinaryMemory).unwrap();
    for key in keys {
        table.insert(key, Record { function: key.word() + 1, place: !key.word() }).unwrap();
    }
    table.into_parts().0
}

/// A file of these words in a folder, and the name of a new one there.
pub fn files(folder: &Path, words: &[u64]) -> (PathBuf, PathBuf) {
    let old = folder.join("old.table");
    fs::write(&old, bytes_of(words)).unwrap();
    (old, folder.join("new.table"))
}

pub fn run(options: &[&str], old: &Path, new: &Path) -> Output {
    built(PROGRAM).args(options).arg(old).arg(new).output().unwrap()
}

/// What it said on standard output and on standard error, and its status.
pub fn said(output: Output) -> (String, String, i32) {
    let text = |bytes| String::from_utf8(bytes).unwrap();
    (text(output.stdout), text(output.stderr), output.status.code().unwrap())
}
