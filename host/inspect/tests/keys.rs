//! What the program tells of a key: where it stands, or why it is not found, and the buckets where it may stand.

mod common;

use ragansils::{bytes_of, calls, Refusal};
use ragansils_compare::damage::damage;
use ragansils_compare::random::Random;

use common::{has, table, told_of_bytes, with};

/// The exit statuses.
const FOUND: i32 = 0;
const RECOVERY_FIRST: i32 = 3;
const NO_TABLE: i32 = 4;
const ABSENT: i32 = 5;

/// Told of a key in every table that is not sound, and in no other.
const NOT_SOUND: &str =
    "the table is not sound: without --key this program tells why, and what recovery would do";

/// What is told of a key that is a depth of address 0.
fn told_of_key(name: &str, words: &[u64], depth: u64) -> (String, i32) {
    told_of_bytes(name, &bytes_of(words), &["--key", "0x0", &depth.to_string()])
}

/// Keys 1, 3, 5 and 7 fill bucket 2, which is of the top; 9 stands in bucket 0, the bottom.
const KEYS: [u64; 5] = [1, 3, 5, 7, 9];

#[test]
fn a_key_is_shown_where_it_stands() {
    has(
        told_of_key("key-top", &table(KEYS), 3),
        FOUND,
        &[
            "key 3 (address 0x0, depth 3)",
            "found: function 103, place 203",
            "where: word 39, byte 312 of the file, in the top level; marked * below",
            "buckets looked at: 1 of 2",
            "1. top bucket 2 [#*##], looked at; its token, word 35, is 15",
            "slot 0, word 36: key 1 (address 0x0, depth 1), function 101, place 201",
            "* slot 1, word 39: key 3 (address 0x0, depth 3), function 103, place 203",
            "2. bottom bucket 0 [#...], not looked at; its token, word 9, is 1",
            "slot 0, word 10: key 9 (address 0x0, depth 9), function 109, place 209",
            "slot 1, word 13: free",
        ],
    );
}

#[test]
fn a_key_is_shown_in_the_bottom_and_in_the_interim_level() {
    let at_rest = table(KEYS);
    has(
        told_of_key("key-bottom", &at_rest, 9),
        FOUND,
        &[
            "where: word 10, byte 80 of the file, in the bottom level; marked * below",
            "buckets looked at: 2 of 2",
            "1. top bucket 2 [####], looked at; its token, word 35, is 15",
            "2. bottom bucket 0 [*...], looked at; its token, word 9, is 1",
        ],
    );
    // k = 2, growing: the bottom has become the interim level.
    has(
        told_of_key("key-interim", &with(at_rest, &[(4, 258)]), 9),
        FOUND,
        &[
            "where: word 10, byte 80 of the file, in the interim level; marked * below",
            "buckets looked at: 4 of 4",
            "1. top bucket 4 [....], looked at; its token, word 61, is 0",
            "2. top bucket 6 [....], looked at; its token, word 87, is 0",
            "3. bottom bucket 2 [####], looked at; its token, word 35, is 15",
            "4. interim bucket 0 [*...], looked at; its token, word 9, is 1",
        ],
    );
}

/// k = 1, shrinking: the top has become the interim level, of four buckets, and is looked at last.
#[test]
fn a_key_is_shown_in_the_interim_level_of_a_shrink() {
    let shrinking = with(table([1, 3, 5, 7]), &[(4, 513), (61, 1), (62, 9), (63, 109), (64, 209)]);
    has(
        told_of_key("key-shrink", &shrinking, 9),
        FOUND,
        &[
            "where: word 62, byte 496 of the file, in the interim level; marked * below",
            "buckets looked at: 3 of 4",
            "1. top bucket 2 [####], looked at; its token, word 35, is 15",
            "2. bottom bucket 0 [....], looked at; its token, word 9, is 0",
            "3. interim bucket 4 [*...], looked at; its token, word 61, is 1",
            "4. interim bucket 6 [....], not looked at; its token, word 87, is 0",
        ],
    );
}

#[test]
fn of_a_key_that_stands_twice_the_first_slot_is_marked() {
    let doubled = with(table([3]), &[(9, 1), (10, 3), (11, 103), (12, 203)]);
    has(
        told_of_key("key-doubled", &doubled, 3),
        FOUND,
        &[
            NOT_SOUND,
            "* slot 0, word 36: key 3 (address 0x0, depth 3), function 103, place 203",
            "2. bottom bucket 0 [#...], not looked at; its token, word 9, is 1",
            "slot 0, word 10: key 3 (address 0x0, depth 3), function 103, place 203",
        ],
    );
}

fn has_no_mark(told: &(String, i32)) {
    assert!(!told.0.contains('*'), "a slot is marked in\n{}", told.0);
}

/// A slot whose token bit is not set holds no key; and of a token word four bits count.
#[test]
fn an_absent_key_is_looked_for_everywhere() {
    let told = told_of_key("key-absent", &with(table([1, 3]), &[(35, 17)]), 3);
    has_no_mark(&told);
    has(
        told,
        ABSENT,
        &[
            "absent: the key stands in none of its places",
            NOT_SOUND,
            "buckets looked at: 2 of 2",
            "1. top bucket 2 [#...], looked at; its token, word 35, is 17, and read as 1",
            "slot 1, word 39: free",
            "2. bottom bucket 0 [....], looked at; its token, word 9, is 0",
        ],
    );
}

#[test]
fn where_an_update_was_cut_the_places_are_drawn_and_none_is_marked() {
    let told = told_of_key("key-flagged", &with(table([1]), &[(5, 1), (6, 36)]), 1);
    has_no_mark(&told);
    has(
        told,
        RECOVERY_FIRST,
        &[
            "refused: the update flag is not 0, so recovery comes first (refusal 3)",
            NOT_SOUND,
            "buckets looked at: 0 of 2",
            "1. top bucket 2 [#...], not looked at; its token, word 35, is 1",
            "slot 0, word 36: key 1 (address 0x0, depth 1), function 101, place 201",
        ],
    );
}

#[test]
fn of_what_is_no_table_nothing_is_drawn() {
    let told = told_of_key("key-no-table", &with(table([1]), &[(0, 3)]), 1);
    assert!(!told.0.contains("bucket"), "{}", told.0);
    let refused = format!("refused: {}", Refusal::BadHeader);
    has(told, NO_TABLE, &[&refused, "this is no table:", "- form 3 is not known; known are 1 and 2"]);
}

/// Whatever the words, the slot that is marked is the one that the library tells, and nothing is marked where it tells none.
#[test]
fn a_key_of_a_damaged_table_is_shown_as_the_library_answers() {
    let mut random = Random::new(1);
    let mut seen = [0; ABSENT as usize + 1];
    for round in 0..400 {
        let mut words = table((1..16).step_by(2).take(1 + round % 8));
        damage(&mut random, &mut words);
        let key = random.below(16);
        let (told, status) = told_of_key("key-damaged", &words, key);
        let answer = calls::query(&words, key.into());
        let expected = match answer {
            Ok(lookup) if lookup.found.is_some() => FOUND,
            Ok(_) => ABSENT,
            Err(Refusal::FlagSet) => RECOVERY_FIRST,
            Err(_) => NO_TABLE,
        };
        assert_eq!(status, expected, "{told}");
        let is_sound = matches!(calls::recover(&words), Ok(list) if list.count() == 0);
        assert_eq!(told.contains(NOT_SOUND), !is_sound && status != NO_TABLE, "{told}");
        let marks: Vec<&str> = told.lines().filter(|line| line.trim_start().starts_with('*')).collect();
        let slot = answer.ok().and_then(|lookup| lookup.found).map(|found| found.slot);
        assert_eq!(marks.len(), slot.iter().count(), "{told}");
        slot.iter().for_each(|slot| {
            assert!(marks[0].contains(&format!("word {}: key {key} ", slot.word)), "{told}")
        });
        seen[expected as usize] += 1;
    }
    assert!(
        [FOUND, RECOVERY_FIRST, NO_TABLE, ABSENT].iter().all(|&status| seen[status as usize] > 5),
        "{seen:?}"
    );
}
