//! A table in a mapped file: what stays, and what is refused.
#![cfg(all(target_os = "linux", target_pointer_width = "64"))]

mod files;

use std::fs;

use files::{folder, names_in};
use ragansils::{bytes_of, Creation, FileError, Form, MappedFile, OrdinaryMemory, Record, Refusal, Table};

const CREATION: Creation = Creation { multipliers: [4294967297, 12884901889], ..Creation::new(3, 1) };
const RECORD: Record = Record { function: 10, place: 20 };

#[test]
fn what_is_stored_is_there_after_reopening() {
    let path = folder("reopened").join("positions");
    let mut table = Table::open(MappedFile::create(&path, &CREATION).unwrap(), OrdinaryMemory).unwrap();
    table.insert(1.into(), RECORD).unwrap();
    table.into_parts().0.sync().unwrap();
    assert_eq!(fs::metadata(&path).unwrap().len(), 8 * CREATION.words().unwrap() as u64);

    let table = Table::open(MappedFile::open(&path).unwrap(), OrdinaryMemory).unwrap();
    assert_eq!(table.query(1.into()).unwrap().record(), Some(RECORD));
    assert_eq!(fs::read(&path).unwrap(), bytes_of(table.words()));
}

/// The words of a table in which key 1 stands, as a collector wrote them before there was a second form.
#[test]
fn a_file_of_form_1_opens_and_stays_of_form_1() {
    let path = folder("form-1").join("positions");
    let mut words = vec![0; CREATION.words().unwrap()];
    words[..5].copy_from_slice(&[1, 3, 4294967297, 12884901889, 1]);
    words[35..39].copy_from_slice(&[1, 1, 10, 20]);
    fs::write(&path, bytes_of(&words)).unwrap();

    let mut table = Table::open(MappedFile::open(&path).unwrap(), OrdinaryMemory).unwrap();
    assert_eq!((table.form(), table.query(1.into()).unwrap().record()), (Ok(Form::One), Some(RECORD)));
    // With a tag its token word would be above 15.
    table.insert(((5 << 24) + 3).into(), RECORD).unwrap();
    drop(table);
    words[35..42].copy_from_slice(&[3, 1, 10, 20, (5 << 24) + 3, 10, 20]);
    assert_eq!(fs::read(&path).unwrap(), bytes_of(&words));
}

#[test]
fn a_new_file_is_of_the_form_that_is_asked_for() {
    let folder = folder("forms");
    for form in Form::ALL {
        let path = folder.join(form.to_string());
        drop(MappedFile::create(&path, &Creation { form, ..CREATION }).unwrap());
        let table = Table::open(MappedFile::open(&path).unwrap(), OrdinaryMemory).unwrap();
        assert_eq!(table.form(), Ok(form));
    }
}

#[test]
fn a_table_is_open_once() {
    let path = folder("open-once").join("positions");
    let first = MappedFile::create(&path, &CREATION).unwrap();
    assert!(matches!(MappedFile::open(&path), Err(FileError::InUse)));
    drop(first);
    let second = MappedFile::open(&path).unwrap();
    assert!(matches!(MappedFile::open(&path), Err(FileError::InUse)));
    drop(second);
    assert!(MappedFile::open(&path).is_ok());
}

#[test]
fn a_file_that_is_there_is_not_replaced() {
    let folder = folder("not-replaced");
    let path = folder.join("positions");
    fs::write(&path, "a letter").unwrap();
    assert!(matches!(MappedFile::create(&path, &CREATION), Err(FileError::System(_))));
    assert_eq!(fs::read(&path).unwrap(), b"a letter");
    assert_eq!(names_in(&folder), ["positions"]);
}

#[test]
fn a_refused_creation_leaves_no_file() {
    let folder = folder("refused");
    let even = Creation { multipliers: [2, 3], ..CREATION };
    let too_large = Creation { capacity: 21, ..CREATION };
    for creation in [even, too_large] {
        let made = MappedFile::create(folder.join("positions"), &creation);
        assert!(matches!(made, Err(FileError::Refused(Refusal::BadCreation))));
    }
    assert!(names_in(&folder).is_empty());
}

#[test]
fn a_length_that_is_no_tables_is_refused_and_left() {
    let path = folder("lengths").join("positions");
    let good = 8 * CREATION.words().unwrap();
    for length in [0, 7, 8, good - 8, good - 1, good + 1, good + 8] {
        fs::write(&path, vec![1; length]).unwrap();
        let refused = MappedFile::open(&path).unwrap_err();
        assert_eq!(refused.to_string(), format!("a length of {length} bytes is no table's"));
        assert_eq!(fs::read(&path).unwrap(), vec![1; length]);
    }
}

#[test]
fn a_file_of_a_right_length_that_is_no_table_is_refused_by_open() {
    let path = folder("no-table").join("positions");
    let content = vec![1; 8 * CREATION.words().unwrap()];
    fs::write(&path, &content).unwrap();
    let opened = Table::open(MappedFile::open(&path).unwrap(), OrdinaryMemory);
    assert_eq!(opened.map(drop), Err(Refusal::BadHeader));
    assert_eq!(fs::read(&path).unwrap(), content);
}

#[test]
fn a_missing_file_is_told() {
    let missing = MappedFile::open(folder("missing").join("positions"));
    assert!(matches!(missing, Err(FileError::System(error)) if error.kind() == std::io::ErrorKind::NotFound));
}
