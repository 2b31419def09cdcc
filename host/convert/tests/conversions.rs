//! What the program makes, and what it says where it makes nothing.

mod common;
#[path = "../../ragansils/tests/crowded/mod.rs"]
mod crowded;
#[path = "../../ragansils/tests/files/mod.rs"]
mod files;

use std::fs::{self, Permissions};
use std::os::unix::fs::{symlink, PermissionsExt};
use std::path::Path;

use common::{files, run, said, table_of, PROGRAM};
use crowded::{crowding_keys, LAST, MARKED};
use files::{folder, names_in};
use ragansils::{bytes_of, calls, Creation, Form, Key, MappedFile, ReadOnlyFile, Unconverted};
use ragansils_compare::damage::damage;
use ragansils_compare::random::Random;
use ragansils_compare::runner::built;

/// The exit statuses.
const MADE: i32 = 0;
const FAILED: i32 = 1;
const WRONG_USAGE: i32 = 2;
const RECOVERY_FIRST: i32 = 3;
const NO_TABLE: i32 = 4;
const RESIZING: i32 = 5;
const NO_PLACE: i32 = 6;

/// Words of the header.
const FORM: usize = 0;
const STATE: usize = 4;
const FLAG: usize = 5;

fn keys(count: u64) -> impl Iterator<Item = Key> {
    (0..count).map(|number| Key::new(0x5555_0000_1000 + 4 * number + ((number % 5) << 36), 0).unwrap())
}

fn converted(words: &[u64]) -> Vec<u64> {
    let mut second = vec![0; words.len()];
    calls::convert(words, &mut second).unwrap();
    second
}

#[test]
fn a_table_is_converted_and_back() {
    let folder = folder("converted");
    let words = table_of(&Creation { form: Form::One, ..Creation::new(6, 5) }, keys(100));
    let (old, new) = files(&folder, &words);
    let told = |new: &str, form, old: &str| {
        let [new, old] = [new, old].map(|name| folder.join(name).display().to_string());
        format!("{new} was made: {form}, 100 items, c = 6, k = 5. {old} is as it was.\n")
    };
    let expected = (told("new.table", Form::Two, "old.table"), String::new(), MADE);
    assert_eq!(said(run(&[], &old, &new)), expected);
    assert_eq!(fs::read(&old).unwrap(), bytes_of(&words));
    assert_eq!(fs::read(&new).unwrap(), bytes_of(&converted(&words)));

    let back = folder.join("back.table");
    let expected = (told("back.table", Form::One, "new.table"), String::new(), MADE);
    assert_eq!(said(run(&[], &new, &back)), expected);
    assert_eq!(fs::read(&back).unwrap(), bytes_of(&converted(&converted(&words))));
    assert_eq!(names_in(&folder), ["back.table", "new.table", "old.table"]);
    let keys = keys(100).map(|key| calls::query(ReadOnlyFile::open(&back).unwrap().as_ref(), key));
    assert!(keys.map(Result::unwrap).all(|lookup| lookup.found.is_some()));
}

#[test]
fn one_item_and_none_are_told() {
    let folder = folder("few");
    for (count, items) in [(0, "0 items"), (1, "1 item")] {
        let (old, new) = files(&folder, &table_of(&MARKED, keys(count)));
        let (told, _, status) = said(run(&[], &old, &new));
        assert_eq!(status, MADE);
        assert!(told.contains(&format!(": form 1, {items}, c = 2, k = 1. ")), "{told}");
        fs::remove_file(&new).unwrap();
    }
}

/// In a folder of the file's own, which is as it was afterwards: what is said, without the program's name and the end of the line.
fn refused(name: &str, words: &[u64], status: i32) -> String {
    let folder = folder(name);
    let (old, new) = files(&folder, words);
    let (told, complaint, ended) = said(run(&[], &old, &new));
    assert_eq!((told.as_str(), ended), ("", status), "{complaint}");
    assert_eq!(names_in(&folder), ["old.table"]);
    assert_eq!(fs::read(&old).unwrap(), bytes_of(words));
    let complaint = complaint.replace(&folder.join("").display().to_string(), "");
    let sentence = complaint.strip_prefix("ragansils-convert: ").and_then(|rest| rest.strip_suffix('\n'));
    sentence.unwrap_or_else(|| panic!("{complaint}")).to_string()
}

fn with(changes: &[(usize, u64)]) -> Vec<u64> {
    let mut words = table_of(&MARKED, [1, 3, 5, 7, 9].map(Key::from));
    for &(index, value) in changes {
        words[index] = value;
    }
    words
}

#[test]
fn each_refusal_is_told_with_what_to_do() {
    let no_table =
        "old.table is no table: length, form, capacity exponent, multipliers or state are bad (refusal 1). \
                    'ragansils-inspect old.table' tells what is wrong. No file was made.";
    assert_eq!(refused("form", &with(&[(FORM, 3)]), NO_TABLE), no_table);
    let mendable = "old.table is not sound (refusal 12), but recovery would mend it. Let the collector open the table, which recovers it, \
                    and close it, and convert again. 'ragansils-inspect old.table' tells what recovery would do. No file was made.";
    assert_eq!(refused("flag", &with(&[(FLAG, 1), (6, 36), (STATE, 258)]), RECOVERY_FIRST), mendable);
    let damaged = "old.table is damaged (refusal 12), and recovery would refuse it too. 'ragansils-inspect old.table' tells what is \
                   wrong. No file was made.";
    assert_eq!(refused("damaged", &with(&[(36, 2)]), NO_TABLE), damaged);
    for (state, phase) in [(258, "growing"), (513, "shrinking")] {
        let resizing = format!(
            "old.table is {phase} (refusal 7). Let the collector finish that, and convert again. No file was made."
        );
        assert_eq!(refused(phase, &with(&[(STATE, state)]), RESIZING), resizing);
    }
}

/// Both ways, in a table that can grow and in one that cannot.
#[test]
fn an_item_without_a_place_is_told_with_its_key() {
    for form in Form::ALL {
        let keys = crowding_keys(form);
        for capacity in [1, 2] {
            let words = table_of(&Creation { form, capacity, ..MARKED }, keys);
            let way = match capacity {
                1 => "The table cannot grow, since k = c = 1: let the collector delete some keys, and convert again",
                _ => "Let the collector grow the table, or delete some keys, and convert again",
            };
            let expected = format!(
                "old.table: {} has no place in the other form (refusal 6). {way}. No file was made.",
                keys[LAST]
            );
            assert_eq!(refused(&format!("no-place-{form}-{capacity}"), &words, NO_PLACE), expected);
        }
    }
}

#[test]
fn a_file_of_another_length_is_no_table() {
    let told = |bytes| {
        format!(
            "old.table is no table: a length of {bytes} bytes is no table's. 'ragansils-inspect old.table' tells what is wrong. No \
             file was made."
        )
    };
    assert_eq!(refused("empty", &[], NO_TABLE), told(0));
    assert_eq!(refused("short", &with(&[])[1..], NO_TABLE), told(792));
    assert_eq!(refused("letter", &[0x6d61_6572_6420], NO_TABLE), told(8));
}

#[test]
fn what_has_the_new_name_is_not_replaced() {
    let folder = folder("kept");
    let (old, _) = files(&folder, &with(&[]));
    fs::write(folder.join("file"), "a letter").unwrap();
    fs::create_dir(folder.join("folder")).unwrap();
    symlink("nowhere", folder.join("link")).unwrap();
    let before = names_in(&folder);
    for name in ["file", "folder", "link", "old.table"] {
        let new = folder.join(name);
        let (told, complaint, status) = said(run(&[], &old, &new));
        assert_eq!((told.as_str(), status), ("", FAILED));
        let told = "is there already, and is not replaced. Name a file that is not there. No file was made.";
        assert_eq!(complaint, format!("ragansils-convert: {} {told}\n", new.display()));
    }
    assert_eq!(fs::read(folder.join("file")).unwrap(), b"a letter");
    assert_eq!(fs::read(&old).unwrap(), bytes_of(&with(&[])));
    assert_eq!(names_in(&folder), before);
}

/// The complaint names the file that is to blame, and is one line.
#[test]
fn files_that_cannot_be_read_or_made_are_told() {
    let folder = folder("failed");
    let (old, new) = files(&folder, &with(&[]));
    let missing = folder.join("missing");
    let inside = missing.join("new.table");
    let rows: [(&Path, &Path, &Path); 5] = [
        (&missing, &new, &missing),
        (&folder, &new, &folder),
        (Path::new("/dev/null"), &new, Path::new("/dev/null")),
        (&old, &inside, &inside),
        // Nobody makes files there.
        (&old, Path::new("/proc/new.table"), Path::new("/proc/new.table")),
    ];
    for (old, new, told) in rows {
        let (_, complaint, status) = said(run(&[], old, new));
        assert_eq!(status, FAILED, "{complaint}");
        assert!(complaint.starts_with(&format!("ragansils-convert: {}: ", told.display())), "{complaint}");
        assert!(
            complaint.ends_with(". No file was made.\n") && complaint.lines().count() == 1,
            "{complaint}"
        );
    }
    assert_eq!(names_in(&folder), ["old.table"]);
}

#[test]
fn a_folder_that_may_not_be_written_is_told() {
    let folder = folder("read-only");
    let (old, new) = files(&folder, &with(&[]));
    fs::set_permissions(&folder, Permissions::from_mode(0o555)).unwrap();
    let (_, complaint, status) = said(run(&[], &old, &new));
    // Whoever may do everything may write there too.
    let may_write = fs::write(folder.join("tried"), "").is_ok();
    fs::set_permissions(&folder, Permissions::from_mode(0o755)).unwrap();
    assert_eq!(status, if may_write { MADE } else { FAILED }, "{complaint}");
    assert_eq!(new.exists(), may_write);
}

#[test]
fn a_table_that_a_collector_has_open_is_not_converted() {
    let folder = folder("in-use");
    let (old, new) = files(&folder, &with(&[]));
    let collector = MappedFile::open(&old).unwrap();
    let (_, complaint, status) = said(run(&[], &old, &new));
    let told = "is in use. Stop the collector that has it, and convert again. No file was made.";
    assert_eq!((complaint, status), (format!("ragansils-convert: {} {told}\n", old.display()), FAILED));
    assert_eq!(names_in(&folder), ["old.table"]);
    drop(collector);
    assert_eq!(said(run(&[], &old, &new)).2, MADE);
}

#[test]
fn the_new_file_may_be_opened_by_whoever_may_open_the_old_one() {
    let folder = folder("permissions");
    for mode in [0o600, 0o664, 0o400] {
        let (old, new) = files(&folder, &with(&[]));
        fs::set_permissions(&old, Permissions::from_mode(mode)).unwrap();
        assert_eq!(said(run(&[], &old, &new)).2, MADE);
        assert_eq!(fs::metadata(&new).unwrap().permissions().mode() & 0o777, mode);
        fs::remove_file(&new).unwrap();
        fs::remove_file(&old).unwrap();
    }
}

/// Each line is told once, and the last is that of the last part. Without the option nothing is told, since this is no terminal.
#[test]
fn progress_is_told_where_it_is_asked_for() {
    let folder = folder("progress");
    let (old, new) = files(&folder, &table_of(&Creation::new(12, 12), keys(15_000)));
    let (told, lines, status) = said(run(&["--progress"], &old, &new));
    assert_eq!(status, MADE);
    assert!(told.contains(" was made: form 1, 15000 items, c = 12, k = 12. "), "{told}");
    let mut lines: Vec<&str> = lines.lines().collect();
    assert_eq!(lines.pop(), Some(format!("writing {} to the disk", new.display()).as_str()));
    let checking = format!("checking {}", old.display());
    let is_known = |line: &str| {
        let percent =
            line.strip_prefix("converted about ").and_then(|rest| rest.strip_suffix(" % of 15000 items"));
        line == checking || percent.map_or(false, |percent| percent.parse::<u64>().unwrap() < 100)
    };
    assert!(!lines.is_empty() && lines.iter().all(|line| is_known(line)), "{lines:?}");

    fs::remove_file(&new).unwrap();
    assert_eq!(said(run(&[], &old, &new)).1, "");
}

#[test]
fn wrong_usage_is_told() {
    for arguments in [&[][..], &["one"], &["one", "two", "three"], &["--unknown", "one", "two"]] {
        let output = built(PROGRAM).args(arguments).output().unwrap();
        let (told, complaint, status) = said(output);
        assert_eq!((told.as_str(), status), ("", WRONG_USAGE));
        assert!(complaint.starts_with("usage: ragansils-convert "), "{complaint}");
    }
    let (help, complaint, status) = said(built(PROGRAM).arg("--help").output().unwrap());
    assert_eq!((complaint.as_str(), status), ("", MADE));
    assert!(help.contains("exit status"), "{help}");
}

/// Whatever the words, the program does as the library does.
#[test]
fn damaged_tables_are_answered_as_the_library_answers() {
    let mut random = Random::new(1);
    let mut seen = [0; NO_PLACE as usize + 1];
    let folder = folder("random");
    for round in 0..300 {
        let form = Form::ALL[round % 2];
        let mut words =
            table_of(&Creation { form, ..MARKED }, crowding_keys(form).into_iter().take(round % 10));
        if random.one_in(2) {
            damage(&mut random, &mut words);
        }
        let (old, new) = files(&folder, &words);
        let mut second = vec![0; words.len()];
        let expected = match calls::convert(&words, &mut second) {
            Ok(()) => MADE,
            Err(Unconverted::NotSound) if calls::recover(&words).is_ok() => RECOVERY_FIRST,
            Err(Unconverted::BadHeader | Unconverted::NotSound) => NO_TABLE,
            Err(Unconverted::Resizing) => RESIZING,
            Err(Unconverted::NoPlace(_)) => NO_PLACE,
            Err(Unconverted::OtherLength) => unreachable!("both have one length"),
        };
        let (_, complaint, status) = said(run(&[], &old, &new));
        assert_eq!(status, expected, "{complaint}");
        let names: &[&str] = if status == MADE { &["new.table", "old.table"] } else { &["old.table"] };
        assert_eq!(names_in(&folder), names);
        assert_eq!(fs::read(&old).unwrap(), bytes_of(&words));
        if status == MADE {
            assert_eq!(fs::read(&new).unwrap(), bytes_of(&second));
            fs::remove_file(&new).unwrap();
        }
        seen[status as usize] += 1;
    }
    assert!(
        [MADE, RECOVERY_FIRST, NO_TABLE, NO_PLACE].iter().all(|&status| seen[status as usize] > 5),
        "{seen:?}"
    );
}
