//! Two tables asked as one: which of them answers and from where, what is refused, and a build's file that is only read.
#![cfg(all(target_os = "linux", target_pointer_width = "64"))]

mod files;

use std::error::Error;
use std::fs::{self, Permissions};
use std::os::unix::fs::{FileExt, PermissionsExt};
use std::path::Path;

use files::{folder, names_in};
use ragansils::{
    bytes_of, calls, Asked, Creation, FileError, Form, Key, MappedFile, OrdinaryMemory, Overlay,
    OverlayFound, OverlayRefusal, Phase, ReadOnlyFile, Record, Refusal, Source, Table,
};

/// The table of document 01's marked examples.
const MARKED: Creation = Creation { multipliers: [4294967297, 12884901889], ..Creation::new(2, 1) };
const RECORD: Record = Record { function: 10, place: 20 };
const OTHER: Record = Record { function: 30, place: 40 };
/// The header's words for the form and the update flag.
const FORM: usize = 0;
const FLAG: usize = 5;

type OwnTable = Table<Vec<u64>, OrdinaryMemory>;

fn created(creation: &Creation) -> OwnTable {
    Table::create(vec![0; creation.words().unwrap()], creation, OrdinaryMemory).unwrap()
}

/// A table in which these keys lead to functions from `first` on.
fn filled(creation: &Creation, keys: impl IntoIterator<Item = u64>, first: u64) -> OwnTable {
    let mut table = created(creation);
    for key in keys {
        table.insert(key.into(), Record { function: first + key, place: key }).unwrap();
    }
    table
}

/// What the overlay must answer, from one query of each table.
fn by_queries(newer: &[u64], older: &[u64], key: Key) -> (Option<OverlayFound>, u64) {
    let [first, second] = [newer, older].map(|words| calls::query(words, key).unwrap());
    let found_in = |source, lookup: ragansils::Lookup| {
        lookup.found.map(|found| OverlayFound { record: found.record, source, word: found.slot.word })
    };
    match found_in(Source::Newer, first) {
        Some(found) => (Some(found), first.buckets),
        None => (found_in(Source::Older, second), first.buckets + second.buckets),
    }
}

/// Asks in every way, and answers which table has the key.
fn check(newer: &[u64], older: &[u64], key: Key) -> Option<Source> {
    let overlay = Overlay::new(newer, older);
    let (found, buckets) = by_queries(newer, older, key);
    let lookup = overlay.query(key).unwrap();
    assert_eq!((lookup.found, lookup.buckets), (found, buckets));
    assert_eq!(lookup.record(), found.map(|found| found.record));
    let asked = calls::asked(newer, older, key);
    let source = found.map_or(Source::Older, |found| found.source);
    assert_eq!((asked.answer.is_ok(), asked.source, asked.buckets), (found.is_some(), source, buckets));
    let (word, length) = found.map_or((0, 0), |found| (found.word, 3));
    assert!(is_part(overlay.part(key), overlay.words(source), word, length));
    found.map(|found| found.source)
}

/// Whether this is a part of these words, in their own memory.
fn is_part(part: &[u64], words: &[u64], from: usize, length: usize) -> bool {
    std::ptr::eq(part, &words[from..from + length])
}

#[test]
fn a_key_in_the_newer_hides_the_same_key_in_the_older() {
    let newer = filled(&MARKED, [1, 5], 1000);
    let older = filled(&Creation { form: Form::One, ..MARKED }, [1, 3], 2000);
    let sources = [1, 3, 5, 7].map(|key| check(newer.words(), older.words(), Key::from(key)));
    assert_eq!(sources, [Some(Source::Newer), Some(Source::Older), Some(Source::Newer), None]);

    let overlay = Overlay::new(&newer, &older);
    let found = OverlayFound { record: Record { function: 1001, place: 1 }, source: Source::Newer, word: 36 };
    assert_eq!(overlay.query(1.into()).unwrap().found, Some(found));
    let found = OverlayFound { record: Record { function: 2003, place: 3 }, source: Source::Older, word: 39 };
    let lookup = overlay.query(3.into()).unwrap();
    assert_eq!((lookup.found, lookup.buckets), (Some(found), 3));
    assert_eq!(overlay.part(3.into()), [3, 2003, 3]);
    let absent = overlay.query(7.into()).unwrap();
    assert_eq!((absent.found, absent.record(), absent.buckets), (None, None, 4));
    assert!(overlay.part(7.into()).is_empty());
}

/// Every form in every phase.
fn kinds() -> impl Iterator<Item = (Form, Phase)> {
    Form::ALL.into_iter().flat_map(|form| Phase::ALL.map(|phase| (form, phase)))
}

/// A table of some keys, with a few of its items moved where it grows or shrinks.
fn of_kind((form, phase): (Form, Phase), capacity: u64, keys: &[u64], first: u64) -> OwnTable {
    let creation = Creation { form, ..Creation::new(capacity, capacity - 1) };
    let mut table = filled(&creation, keys.iter().copied(), first);
    let begun = match phase {
        Phase::AtRest => Ok(0),
        Phase::Growing => table.begin(),
        Phase::Shrinking => table.begin_shrink(),
    };
    begun.unwrap();
    for _ in 0..3 {
        let _ = table.step();
    }
    assert_eq!(table.phase(), Ok(phase));
    table
}

/// The bound for the buckets of a table in this phase.
fn most_buckets((_, phase): (Form, Phase)) -> u64 {
    match phase {
        Phase::AtRest => 4,
        Phase::Growing | Phase::Shrinking => 6,
    }
}

#[test]
fn tables_of_every_form_phase_and_size_are_asked_as_one() {
    let key_of = |line: u64| Key::new(0x5555_0000_1000 + 4 * line, 0).unwrap().word();
    let keys: Vec<u64> = (0..60).map(key_of).collect();
    for (first, second) in kinds().flat_map(|first| kinds().map(move |second| (first, second))) {
        let newer = of_kind(first, 4, &keys[20..], 1000);
        let older = of_kind(second, 5, &keys[..40], 2000);
        for (line, &key) in keys.iter().enumerate() {
            let expected = if line < 20 { Source::Older } else { Source::Newer };
            assert_eq!(check(newer.words(), older.words(), key.into()), Some(expected));
        }
        let absent = (100..300).map(key_of).map(Key::from);
        let buckets = absent.map(|key| {
            assert_eq!(check(newer.words(), older.words(), key), None);
            calls::asked(newer.words(), older.words(), key).buckets
        });
        assert_eq!(buckets.max(), Some(most_buckets(first) + most_buckets(second)), "the bound is met");
    }
}

#[test]
fn one_table_may_be_both() {
    let table = filled(&MARKED, [1, 3], 1000);
    assert_eq!(check(table.words(), table.words(), 1.into()), Some(Source::Newer));
    assert_eq!(check(table.words(), table.words(), 5.into()), None);
    assert_eq!(Overlay::new(&table, &table).query(5.into()).unwrap().buckets, 4);
}

/// Each key is asked before and after; the slots and counts of other keys may change.
#[test]
fn what_becomes_of_a_hidden_key_in_the_older_changes_no_record() {
    let newer = filled(&MARKED, [1, 5, 7], 1000);
    let mut older = filled(&MARKED, [1, 3, 9], 2000);
    let records = |older: &OwnTable| -> Vec<Option<Record>> {
        let overlay = Overlay::new(&newer, older);
        (0..16).map(|key| overlay.query(key.into()).unwrap().record()).collect()
    };
    let before = records(&older);
    older.update(1.into(), OTHER).unwrap();
    assert_eq!(records(&older), before);
    older.delete(1.into()).unwrap();
    assert_eq!(records(&older), before);
    older.insert(5.into(), OTHER).unwrap();
    assert_eq!(records(&older), before);
}

fn refused(newer: &[u64], older: &[u64], source: Source, refusal: Refusal) {
    for key in [1, 3, 5, u64::MAX].map(Key::from) {
        let overlay = Overlay::new(newer, older);
        assert_eq!(overlay.query(key), Err(OverlayRefusal { source, refusal }));
        let asked = Asked { answer: Err(refusal), source, buckets: 0 };
        assert_eq!(calls::asked(newer, older, key), asked);
        assert!(is_part(overlay.part(key), overlay.words(source), 0, 0));
    }
}

/// Each of these would be refused for all later reasons too. The newer has key 1, and is not asked for it.
#[test]
fn both_tables_are_tested_before_any_lookup_the_newer_first() {
    let [mut newer, mut older] = [1, 3].map(|key| filled(&MARKED, [key], 1000).into_parts().0);
    older[FLAG] = 1;
    refused(&newer, &older, Source::Older, Refusal::FlagSet);
    refused(&newer, &older[1..], Source::Older, Refusal::BadHeader);
    older[FORM] = 3;
    refused(&newer, &older, Source::Older, Refusal::BadHeader);
    newer[FLAG] = u64::MAX;
    refused(&newer, &older, Source::Newer, Refusal::FlagSet);
    refused(&newer, &[], Source::Newer, Refusal::FlagSet);
    refused(&newer[..99], &older, Source::Newer, Refusal::BadHeader);
    newer[FORM] = 0;
    refused(&newer, &older, Source::Newer, Refusal::BadHeader);
    refused(&[], &[], Source::Newer, Refusal::BadHeader);
}

#[test]
fn a_refusal_names_its_table_in_words() {
    let refused = OverlayRefusal { source: Source::Newer, refusal: Refusal::BadHeader };
    assert_eq!(
        refused.to_string(),
        "the newer table: length, form, capacity exponent, multipliers or state are bad (refusal 1)"
    );
    assert_eq!(refused.source().unwrap().to_string(), Refusal::BadHeader.to_string());
    assert_eq!(
        Source::ALL.map(|source| (source.number(), source.to_string())),
        [(0, "newer".to_string()), (1, "older".to_string())]
    );
    assert_eq!(format!("{:<6}|", Source::Older), "older |");
}

/// The frames of an address come from the one table in which its depth 0 stands. Here the build had three frames, and the reloaded code has two.
#[test]
fn frames_are_taken_from_one_table() {
    let (reloaded_address, build_address) = (16, 17);
    let key = |address, depth| Key::new(address, depth).unwrap();
    let mut build = created(&Creation::new(4, 3));
    for (address, depth) in [16, 17].into_iter().flat_map(|address| (0..3).map(move |depth| (address, depth)))
    {
        build.insert(key(address, depth), Record { function: u64::from(depth), place: address }).unwrap();
    }
    let mut reloaded = created(&Creation::new(4, 1));
    for depth in 0..2 {
        reloaded
            .insert(key(reloaded_address, depth), Record { function: 100 + u64::from(depth), place: 0 })
            .unwrap();
    }
    let overlay = Overlay::new(&reloaded, &build);
    let mut lent = [Record::default(); 3];
    let mut functions = |address, depth| {
        let source = overlay.query(key(address, 0)).unwrap().found.unwrap().source;
        let chain = calls::chain(overlay.words(source), address, depth, &mut lent);
        chain.records.map(|records| records.iter().map(|record| record.function).collect::<Vec<_>>())
    };
    assert_eq!(functions(reloaded_address, 1), Ok(vec![101, 100]));
    assert_eq!(functions(build_address, 2), Ok(vec![2, 1, 0]));
    // The build's depth 2 is still there, but it belongs to code that is gone.
    assert_eq!(functions(reloaded_address, 2), Err(Refusal::KeyAbsent));
    assert!(overlay.query(key(reloaded_address, 2)).unwrap().found.is_some());
}

// ---- files ----

const BUILD: Creation = Creation { capacity: 3, ..MARKED };

/// A build's table with keys 1 and 3, in a file that nobody may write.
fn shipped(path: &Path) -> Vec<u8> {
    let mut table = Table::open(MappedFile::create(path, &BUILD).unwrap(), OrdinaryMemory).unwrap();
    table.insert(1.into(), RECORD).unwrap();
    table.insert(3.into(), RECORD).unwrap();
    drop(table);
    fs::set_permissions(path, Permissions::from_mode(0o444)).unwrap();
    fs::read(path).unwrap()
}

/// The permissions of the mapping that these words are in, as the system tells them.
fn mapped_as(words: &[u64]) -> String {
    let at = words.as_ptr() as usize;
    let maps = fs::read_to_string("/proc/self/maps").unwrap();
    let line = maps.lines().find(|line| {
        let (range, _) = line.split_once(' ').unwrap();
        let (from, to) = range.split_once('-').unwrap();
        let [from, to] = [from, to].map(|end| usize::from_str_radix(end, 16).unwrap());
        (from..to).contains(&at)
    });
    line.unwrap().split(' ').nth(1).unwrap().to_string()
}

/// Root may write such a file; so it is also looked at how it was opened and mapped.
#[test]
fn a_file_that_may_only_be_read_is_opened_for_reading_alone() {
    let path = folder("read-only").join("build");
    let content = shipped(&path);
    let build = ReadOnlyFile::open(&path).unwrap();
    assert_eq!(build.file().metadata().unwrap().permissions().mode() & 0o777, 0o444);
    assert!(build.file().write_all_at(&[7; 8], 0).is_err(), "it is open for reading only");
    assert_eq!(mapped_as(build.as_ref()), "r--s");
    assert_eq!(bytes_of(build.as_ref()), content);
    // What recovery would do can be asked of a table that is only read: nothing.
    assert_eq!(calls::recover(build.as_ref()).unwrap().count(), 0);
}

#[test]
fn changes_of_the_newer_are_seen_at_once_and_the_build_stays() {
    let folder = folder("reloaded");
    let (build_path, path) = (folder.join("build"), folder.join("reloaded"));
    let content = shipped(&build_path);
    let build = ReadOnlyFile::open(&build_path).unwrap();
    let mut reloaded = Table::open(MappedFile::create(&path, &MARKED).unwrap(), OrdinaryMemory).unwrap();
    let seen = |reloaded: &Table<MappedFile, OrdinaryMemory>, key: u64| {
        check(reloaded.words(), build.as_ref(), key.into());
        let found = Overlay::new(reloaded, &build).query(key.into()).unwrap().found;
        found.map(|found| (found.source, found.record))
    };
    assert_eq!(seen(&reloaded, 1), Some((Source::Older, RECORD)));
    reloaded.insert(1.into(), OTHER).unwrap();
    assert_eq!(seen(&reloaded, 1), Some((Source::Newer, OTHER)));
    reloaded.update(1.into(), RECORD).unwrap();
    assert_eq!(seen(&reloaded, 1), Some((Source::Newer, RECORD)));
    assert_eq!((seen(&reloaded, 3), seen(&reloaded, 5)), (Some((Source::Older, RECORD)), None));
    reloaded.insert(5.into(), OTHER).unwrap();
    reloaded.begin().unwrap();
    assert_eq!(seen(&reloaded, 5), Some((Source::Newer, OTHER)));
    reloaded.delete(1.into()).unwrap();
    assert_eq!(seen(&reloaded, 1), Some((Source::Older, RECORD)));
    drop(reloaded);

    // After a restart the newer is as it was; the file as such may be asked too.
    let file = MappedFile::open(&path).unwrap();
    assert_eq!(Overlay::new(&file, &build).query(5.into()).unwrap().record(), Some(OTHER));
    assert_eq!(fs::read(&build_path).unwrap(), content);
    assert_eq!(names_in(&folder), ["build", "reloaded"]);
}

#[test]
fn several_collectors_read_one_build() {
    let folder = folder("several");
    let build_path = folder.join("build");
    shipped(&build_path);
    let own = ["first", "second"].map(|name| {
        let mut table =
            Table::open(MappedFile::create(folder.join(name), &MARKED).unwrap(), OrdinaryMemory).unwrap();
        table.insert(3.into(), Record { function: name.len() as u64, place: 0 }).unwrap();
        (table, ReadOnlyFile::open(&build_path).unwrap())
    });
    let functions = [&own[0], &own[1]].map(|(table, build)| {
        assert_eq!(check(table.words(), build.as_ref(), 1.into()), Some(Source::Older));
        Overlay::new(table, build).query(3.into()).unwrap().record().unwrap().function
    });
    assert_eq!(functions, [5, 6]);
    assert!(matches!(MappedFile::open(&build_path), Err(FileError::InUse)));
}

/// A file of a right length is opened, and each query names the table that is bad; nothing is written to it.
#[test]
fn a_damaged_build_is_refused_by_its_name() {
    let path = folder("damaged").join("build");
    let newer = filled(&MARKED, [1], 1000);
    let good = filled(&BUILD, [1, 3], 2000).into_parts().0;
    for (word, value, refusal) in [(FORM, 7, Refusal::BadHeader), (FLAG, 1, Refusal::FlagSet)] {
        let mut words = good.clone();
        words[word] = value;
        fs::write(&path, bytes_of(&words)).unwrap();
        let build = ReadOnlyFile::open(&path).unwrap();
        refused(newer.words(), build.as_ref(), Source::Older, refusal);
        refused(build.as_ref(), newer.words(), Source::Newer, refusal);
        assert_eq!(fs::read(&path).unwrap(), bytes_of(&words));
    }
    fs::write(&path, &bytes_of(&good)[8..]).unwrap();
    let refused = ReadOnlyFile::open(&path).unwrap_err();
    assert_eq!(refused.to_string(), "a length of 1624 bytes is no table's");
}
