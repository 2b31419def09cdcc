//! Conversion into a new file: what is made, what is refused, and that nothing else is left.
#![cfg(all(target_os = "linux", target_pointer_width = "64"))]

mod crowded;
mod files;

use std::fs;
use std::os::unix::fs::symlink;
use std::path::Path;

use crowded::{crowding_keys, LAST, MARKED};
use files::{folder, names_in};
use ragansils::{
    bytes_of, calls, Creation, FileError, Form, MappedFile, NewFile, OrdinaryMemory, ReadOnlyFile, Record,
    Table, Unconverted,
};

const CREATION: Creation = Creation { form: Form::One, capacity: 3, ..MARKED };
const RECORD: Record = Record { function: 10, place: 20 };
const WORDS: usize = 204;

/// The words of a table of form 1 with some keys.
fn table() -> Vec<u64> {
    let mut table = Table::create(vec![0; CREATION.words().unwrap()], &CREATION, OrdinaryMemory).unwrap();
    for key in 0..8 {
        table.insert((key << 40 | key).into(), RECORD).unwrap();
    }
    table.into_parts().0
}

/// The words that the table is converted to.
fn converted(words: &[u64]) -> Vec<u64> {
    let mut second = vec![0; words.len()];
    calls::convert(words, &mut second).unwrap();
    second
}

fn is_there_already(error: FileError) -> bool {
    matches!(error, FileError::System(error) if error.kind() == std::io::ErrorKind::AlreadyExists)
}

#[test]
fn a_file_is_converted_to_a_new_one_and_back() {
    let folder = folder("converted");
    let [old, new, back] = ["old", "new", "back"].map(|name| folder.join(name));
    let words = table();
    fs::write(&old, bytes_of(&words)).unwrap();

    let file = MappedFile::convert(&new, ReadOnlyFile::open(&old).unwrap().as_ref()).unwrap();
    assert!(
        matches!(ReadOnlyFile::open(&new), Err(FileError::InUse)),
        "a new file is locked from its first moment on"
    );
    let table = Table::open(file, OrdinaryMemory).unwrap();
    assert_eq!(table.form(), Ok(Form::Two));
    assert_eq!(fs::read(&old).unwrap(), bytes_of(&words));
    assert_eq!(fs::read(&new).unwrap(), bytes_of(&converted(&words)));

    // From an open table, without a second opening.
    drop(MappedFile::convert(&back, table.words()).unwrap());
    assert_eq!(fs::read(&back).unwrap(), bytes_of(&converted(&converted(&words))));
    assert_eq!(names_in(&folder), ["back", "new", "old"]);
}

#[test]
fn what_has_the_new_name_is_not_replaced() {
    let folder = folder("kept");
    fs::write(folder.join("file"), "a letter").unwrap();
    fs::create_dir(folder.join("folder")).unwrap();
    symlink("nowhere", folder.join("link")).unwrap();
    for name in ["file", "folder", "link"] {
        let refused = MappedFile::convert(folder.join(name), &table()).unwrap_err();
        assert!(is_there_already(refused), "{name}");
    }
    assert_eq!(fs::read(folder.join("file")).unwrap(), b"a letter");
    assert_eq!(fs::read_link(folder.join("link")).unwrap(), Path::new("nowhere"));
    assert_eq!(names_in(&folder), ["file", "folder", "link"]);
}

/// That the name is free was looked at before; what comes meanwhile stays.
#[test]
fn what_takes_the_new_name_meanwhile_is_not_replaced() {
    let folder = folder("meanwhile");
    let path = folder.join("positions");
    let mut new = NewFile::make(&path, WORDS).unwrap();
    calls::convert(&table(), new.as_mut()).unwrap();
    fs::write(&path, "a letter").unwrap();
    assert!(is_there_already(new.link().unwrap_err()));
    assert_eq!(fs::read(&path).unwrap(), b"a letter");
    assert_eq!(names_in(&folder), ["positions"]);
}

#[test]
fn a_refused_conversion_leaves_no_file() {
    let folder = folder("unconverted");
    let path = folder.join("positions");
    let changed = |index: usize, value: u64| {
        let mut words = table();
        words[index] = value;
        MappedFile::convert(&path, &words).unwrap_err()
    };
    assert!(matches!(changed(0, 3), FileError::Unconverted(Unconverted::BadHeader)));
    assert!(matches!(changed(5, 1), FileError::Unconverted(Unconverted::NotSound)));
    assert!(matches!(changed(4, 258), FileError::Unconverted(Unconverted::Resizing)));
    let refused = changed(2, 2);
    assert_eq!(refused.to_string(), Unconverted::BadHeader.to_string());
    assert!(matches!(MappedFile::convert(&path, &table()[1..]), Err(FileError::Length(1624))));
    assert!(names_in(&folder).is_empty());
}

#[test]
fn an_item_without_a_place_leaves_no_file() {
    let folder = folder("no-place");
    let keys = crowding_keys(Form::One);
    let mut table = Table::create(vec![0; WORDS], &CREATION, OrdinaryMemory).unwrap();
    for key in keys {
        table.insert(key, RECORD).unwrap();
    }
    let refused = MappedFile::convert(folder.join("positions"), table.words()).unwrap_err();
    assert!(matches!(refused, FileError::Unconverted(Unconverted::NoPlace(key)) if key == keys[LAST]));
    assert!(names_in(&folder).is_empty());
}

#[test]
fn a_new_file_has_another_name_until_it_is_linked() {
    let folder = folder("unfinished");
    let path = folder.join("positions");
    let unfinished = format!("positions.{}.new", std::process::id());
    drop(NewFile::make(&path, WORDS).unwrap());
    assert!(names_in(&folder).is_empty(), "what is not wanted is removed");

    // Left from a process that was killed and had the same id; another thread's looks the same.
    fs::write(folder.join(&unfinished), "a letter").unwrap();
    let mut new = NewFile::make(&path, WORDS).unwrap();
    let second_name = format!("positions.{}.1.new", std::process::id());
    assert_eq!(names_in(&folder), [second_name, unfinished.clone()]);
    new.as_mut().copy_from_slice(&table());
    drop(new.link().unwrap());
    assert_eq!(fs::read(&path).unwrap(), bytes_of(&table()));
    assert_eq!(fs::read(folder.join(&unfinished)).unwrap(), b"a letter");
    assert_eq!(names_in(&folder), ["positions", &unfinished]);
}

#[test]
fn a_new_file_can_be_looked_at_while_it_is_written() {
    use std::os::unix::fs::FileExt;

    let mut new = NewFile::make(folder("looked-at").join("positions"), WORDS).unwrap();
    assert!(new.as_ref().iter().all(|&word| word == 0));
    let reader = new.reader().unwrap();
    new.as_mut()[35] = 7;
    let mut word = [0; 8];
    reader.read_exact_at(&mut word, 8 * 35).unwrap();
    assert_eq!(u64::from_ne_bytes(word), 7);
    assert!(reader.write_all_at(&word, 0).is_err(), "it is for reading only");
}

#[test]
fn only_a_tables_number_of_words_is_made() {
    let folder = folder("words");
    for words in [0, 1, WORDS - 1, WORDS + 1, usize::MAX] {
        let refused = NewFile::make(folder.join("positions"), words).unwrap_err();
        assert!(matches!(refused, FileError::Length(_)), "{refused}");
    }
    assert!(names_in(&folder).is_empty());
}

/// Nobody makes files there, whatever he may do elsewhere.
#[test]
fn a_folder_that_takes_no_file_is_told() {
    let missing = folder("folders").join("missing").join("positions");
    for path in [missing.as_path(), Path::new("/proc/positions")] {
        let refused = MappedFile::convert(path, &table()).unwrap_err();
        assert!(matches!(refused, FileError::System(_)), "{refused}");
    }
}

#[test]
fn a_file_is_read_by_several_or_written_by_one() {
    let path = folder("shared").join("positions");
    let writing = MappedFile::create(&path, &CREATION).unwrap();
    assert!(matches!(ReadOnlyFile::open(&path), Err(FileError::InUse)));
    drop(writing);
    let reading = ReadOnlyFile::open(&path).unwrap();
    let second = ReadOnlyFile::open(&path).unwrap();
    assert!(matches!(MappedFile::open(&path), Err(FileError::InUse)));
    drop(reading);
    assert!(matches!(MappedFile::open(&path), Err(FileError::InUse)));
    drop(second);
    assert!(MappedFile::open(&path).is_ok());
}

#[test]
fn what_is_no_plain_file_of_a_tables_length_is_not_read() {
    let folder = folder("not-read");
    assert_eq!(ReadOnlyFile::open(&folder).unwrap_err().to_string(), "not a plain file");
    let short = folder.join("short");
    fs::write(&short, vec![1; 8 * WORDS - 8]).unwrap();
    assert!(matches!(ReadOnlyFile::open(&short), Err(FileError::Length(1624))));
    let missing = ReadOnlyFile::open(folder.join("missing")).unwrap_err();
    assert!(matches!(missing, FileError::System(error) if error.kind() == std::io::ErrorKind::NotFound));
}
