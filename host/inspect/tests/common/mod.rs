//! What the tests of the program share: tables, files of them, and what is told of these.
#![allow(dead_code)] // not every test uses all of it

use std::fs;
use std::path::{Path, PathBuf};
use std::process::Output;

use ragansils::{bytes_of, calls, Creation, Form, Record};
use ragansils_compare::runner::built;

/// The exit statuses that tell what was found.
pub const SOUND: i32 = 0;
pub const MENDABLE: i32 = 3;
pub const REFUSED: i32 = 4;

/// In form 1; the tests of form 2 say so.
pub const MARKED: Creation =
    Creation { form: Form::One, multipliers: [4294967297, 12884901889], ..Creation::new(2, 1) };

/// A file of its own for each test.
pub fn path(name: &str) -> PathBuf {
    Path::new(env!("CARGO_TARGET_TMPDIR")).join(name)
}

pub fn run(arguments: &[&str]) -> Output {
    built(env!("CARGO_BIN_EXE_ragansils-inspect")).args(arguments).output().unwrap()
}

/// What is told of a file of these bytes, and the exit status; with these words behind the file's name.
pub fn told_of_bytes(name: &str, bytes: &[u8], options: &[&str]) -> (String, i32) {
    let path = path(name);
    fs::write(&path, bytes).unwrap();
    let output = run(&[&[path.to_str().unwrap()], options].concat());
    assert!(output.stderr.is_empty(), "{}", String::from_utf8_lossy(&output.stderr));
    assert_eq!(fs::read(&path).unwrap(), bytes, "the file is only read");
    (String::from_utf8(output.stdout).unwrap(), output.status.code().unwrap())
}

pub fn told_of(name: &str, words: &[u64]) -> (String, i32) {
    told_of_bytes(name, &bytes_of(words), &[])
}

pub fn has(told: (String, i32), status: i32, lines: &[&str]) {
    assert_eq!(told.1, status, "{}", told.0);
    for line in lines {
        assert!(told.0.lines().any(|told| told.trim() == *line), "no line '{line}' in\n{}", told.0);
    }
}

pub fn empty(creation: &Creation) -> Vec<u64> {
    let mut words = vec![0; creation.words().unwrap()];
    calls::create(&mut words, creation).unwrap();
    words
}

/// A table with these keys, each with a record of its own.
pub fn table(keys: impl IntoIterator<Item = u64>) -> Vec<u64> {
    table_of(Form::One, keys)
}

pub fn table_of(form: Form, keys: impl IntoIterator<Item = u64>) -> Vec<u64> {
    let mut words = empty(&Creation { form, ..MARKED });
    for key in keys {
        let list =
            calls::insert(&words, key.into(), Record { function: 100 + key, place: 200 + key }).unwrap();
        calls::make(&mut words, list.words(), list.count()).unwrap();
    }
    words
}

/// The same with some words changed.
pub fn with(mut words: Vec<u64>, changes: &[(usize, u64)]) -> Vec<u64> {
    for &(index, value) in changes {
        words[index] = value;
    }
    words
}

/// Tells of words whatever they are: the status is the one that recovery's answer asks for, and faults are named exactly where they are not
/// sound. Answers that status.
pub fn told_as_recovered(name: &str, words: &[u64]) -> i32 {
    let (told, status) = told_of(name, words);
    let expected = match calls::recover(words) {
        Ok(list) if list.count() == 0 => SOUND,
        Ok(_) => MENDABLE,
        Err(_) => REFUSED,
    };
    assert_eq!(status, expected, "{told}");
    assert_eq!(told.lines().any(|line| line.starts_with("  - ")), status != SOUND, "{told}");
    status
}
