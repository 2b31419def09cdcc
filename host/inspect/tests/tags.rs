//! What the program tells of tables of form 2: the form, the tags, and what is wrong with them.

mod common;

use ragansils::{bytes_of, Form, Refusal};
use ragansils_compare::damage::damage;
use ragansils_compare::random::Random;
use ragansils_model::{Slot, Table};

use common::{has, table_of, told_as_recovered, told_of, told_of_bytes, with, MENDABLE, REFUSED, SOUND};

const ABSENT: i32 = 5;

/// With the multipliers of these tables a key has its bits 24 to 31 as its tag. These four fill bucket 2, which is of the top, and the last
/// stands in bucket 0, the bottom.
const KEYS: [u64; 5] = [(5 << 24) + 1, (7 << 24) + 3, (9 << 24) + 5, (11 << 24) + 7, (13 << 24) + 9];

fn tagged(keys: &[u64]) -> Vec<u64> {
    table_of(Form::Two, keys.iter().copied())
}

fn told_of_key(name: &str, words: &[u64], key: u64) -> (String, i32) {
    let (address, depth) = (format!("{:#x}", key >> 8), (key % 256).to_string());
    told_of_bytes(name, &bytes_of(words), &["--key", &address, &depth])
}

#[test]
fn the_form_is_told() {
    let lines = ["form         2: keys are mixed before they are hashed, and taken slots have tags", "sound"];
    has(told_of("told-form-2", &tagged(&KEYS)), SOUND, &lines);
    has(told_of("told-form-1", &table_of(Form::One, KEYS)), SOUND, &["form         1", "sound"]);
}

#[test]
fn a_form_that_there_is_not_is_named() {
    let other_order =
        "form 144115188075855872 is 2 in the other byte order: the table was made on another kind of machine";
    for (form, fault) in [(0, "form 0 is not known; known are 1 and 2"), (2 << 56, other_order)] {
        let told = told_of("no-form", &with(tagged(&KEYS), &[(0, form)]));
        has(told, REFUSED, &["this is no table:", &format!("- {fault}")]);
    }
}

#[test]
fn a_key_is_shown_with_its_tag_and_those_of_its_neighbours() {
    has(
        told_of_key("tag-found", &tagged(&KEYS), KEYS[1]),
        SOUND,
        &[
            "key 117440515 (address 0x70000, depth 3)",
            "its tag is 0x07: a query reads only the slots that have it",
            "where: word 39, byte 312 of the file, in the top level; marked * below",
            "1. top bucket 2 [#*##], looked at; its token, word 35, is 47396095247 (0xb0907050f)",
            "slot 0, word 36, tag 0x05: key 83886081 (address 0x50000, depth 1), function 83886181, place 83886281",
            "* slot 1, word 39, tag 0x07: key 117440515 (address 0x70000, depth 3), function 117440615, place 117440715",
            "2. bottom bucket 0 [#...], not looked at; its token, word 9, is 3329 (0xd01)",
            "slot 1, word 13: free",
        ],
    );
    // Tag 0 is a tag too; and a word without tags is told as in form 1.
    has(
        told_of_key("tag-0", &tagged(&[1]), 1),
        SOUND,
        &[
            "its tag is 0x00: a query reads only the slots that have it",
            "1. top bucket 2 [*...], looked at; its token, word 35, is 1",
            "* slot 0, word 36, tag 0x00: key 1 (address 0x0, depth 1), function 101, place 201",
        ],
    );
}

#[test]
fn form_1_has_no_tags_to_tell() {
    let (told, status) = told_of_key("plain", &table_of(Form::One, KEYS), KEYS[1]);
    assert_eq!((status, told.contains("tag")), (SOUND, false), "{told}");
    // As it was told before there was a second form.
    let (told, status) = told_of("plain", &with(table_of(Form::One, [1]), &[(35, 1281)]));
    let fault = "- the token word of bucket 2 is 1281, which is above 15";
    assert!(!told.contains("tag"), "{told}");
    has((told, status), REFUSED, &[fault]);
}

#[test]
fn a_key_that_its_tag_hides_is_told() {
    let damaged = with(tagged(&KEYS), &[(35, 47396095247 ^ 1 << 8)]);
    let (told, status) = told_of_key("tag-wrong", &damaged, KEYS[0]);
    assert!(!told.contains('*'), "{told}");
    has(
        (told, status),
        ABSENT,
        &[
            "its tag is 0x05: a query reads only the slots that have it",
            "absent: the key stands in slot 0 of top bucket 2, but its tag there is 0x04",
            "buckets looked at: 2 of 2",
            "slot 0, word 36, tag 0x04: key 83886081 (address 0x50000, depth 1), function 83886181, place 83886281; the key's own tag is 0x05",
        ],
    );
    // Its neighbours are found as ever, and a key that stands nowhere is told as such.
    assert_eq!(told_of_key("tag-wrong", &damaged, KEYS[1]).1, SOUND);
    let nowhere = told_of_key("tag-wrong", &damaged, (5 << 24) + 11);
    has(nowhere, ABSENT, &["absent: the key stands in none of its places"]);
}

/// Each sort of damage to a token word, and the one line that is told of it.
#[test]
fn damaged_token_words_are_named() {
    let three = tagged(&KEYS[..3]);
    let good = three[35];
    let rows = [
        (
            good ^ 2 << 8,
            "key 83886081 (address 0x50000, depth 1) has tag 0x07 in slot 0 of top bucket 2, and its own tag is 0x05: no call finds it there",
        ),
        (good | 6 << 32, "slot 3 of top bucket 2 is free and has tag 0x06; a free slot has tag 0x00"),
        (good | 1 << 4, "of the token word of bucket 2, 151454999, bit 4 means nothing"),
        (good | 1 << 7, "of the token word of bucket 2, 151455111, bit 7 means nothing"),
        (good | 1 << 40, "of the token word of bucket 2, 1099663082759, bit 40 means nothing"),
        (good | 1 << 63 | 3 << 40 | 1 << 5, "of the token word of bucket 2, 9223375335541114151, bits 5, 40, 41 and 63 mean nothing"),
    ];
    for (token, fault) in rows {
        let (told, status) = told_of("token-words", &with(three.clone(), &[(35, token)]));
        let faults: Vec<&str> = told.lines().filter_map(|line| line.strip_prefix("  - ")).collect();
        assert_eq!(faults, [fault]);
        let refused = format!("would refuse and change nothing: {}", Refusal::NoKind);
        has((told, status), REFUSED, &["damaged, and not by a cut alone:", &refused]);
    }
    let stray = told_of_key("token-stray", &with(three, &[(35, good | 1 << 40)]), KEYS[0]);
    let token = "1. top bucket 2 [*##.], looked at; its token, word 35, is 1099663082759 (0x10009070507), where bit 40 means nothing";
    has(stray, SOUND, &[token]);
}

#[test]
fn several_faults_are_all_told() {
    let words = with(
        tagged(&KEYS[..3]),
        &[(35, 7 | 0x04 << 8 | 0x07 << 16 | 0x09 << 24 | 0x06 << 32 | 16), (48, 0x0500)],
    );
    has(
        told_of("several", &words),
        REFUSED,
        &[
            "- the token word of bucket 3 is 1280, and its level is not in use",
            "- key 83886081 (address 0x50000, depth 1) has tag 0x04 in slot 0 of top bucket 2, and its own tag is 0x05: no call finds it there",
            "- slot 3 of top bucket 2 is free and has tag 0x06; a free slot has tag 0x00",
            "- of the token word of bucket 2, 25921258519, bit 4 means nothing",
        ],
    );
    // Three free slots in each of the three buckets in use.
    let free: Vec<(usize, u64)> = [9, 22, 35].map(|word| (word, 0x01_0101_0000)).to_vec();
    has(told_of("many-tags", &with(tagged(&[]), &free)), REFUSED, &["- and 1 more of this kind"]);
}

#[test]
fn what_a_cut_left_is_mended_with_its_tags() {
    // The last key stands in the top too, once a growth has begun.
    let record = [KEYS[4], KEYS[4] + 100, KEYS[4] + 200];
    let doubled =
        with(tagged(&KEYS), &[(4, 258), (61, 3329), (62, record[0]), (63, record[1]), (64, record[2])]);
    has(
        told_of("tag-doubled", &doubled),
        MENDABLE,
        &[
            "would clear the later of two equal copies of key 218103817 (address 0xd0000, depth 9): slot 0 of interim bucket 0",
            "word 9 becomes 0",
        ],
    );
    // With another tag on one copy no cut can have left it.
    has(
        told_of("tag-unequal", &with(doubled, &[(61, 3585)])),
        REFUSED,
        &["- key 218103817 (address 0xd0000, depth 9) has tag 0x0e in slot 0 of top bucket 4, and its own tag is 0x0d: no call finds it there"],
    );
}

/// One bit of a token word, or all of its tags.
fn damage_tags(random: &mut Random, words: &mut [u64]) {
    let bucket = random.index((words.len() - 9) / 13);
    let token = &mut words[9 + 13 * bucket];
    match random.below(3) {
        0 => *token = *token & 15 | random.word() & 0xff_ffff_ff00,
        _ => *token ^= 1 << random.below(64),
    }
}

/// Whatever the words, the program answers as recovery does and tells why; and what it says of an absent key is so.
#[test]
fn random_damage_of_tags_is_explained() {
    let mut random = Random::new(1);
    let (mut seen, mut hidden) = ([0; REFUSED as usize + 1], 0);
    for round in 0..300 {
        let mut words = tagged(&KEYS[..1 + round % 5]);
        if random.one_in(3) {
            damage(&mut random, &mut words);
        }
        if words.len() > 22 && !random.one_in(4) {
            damage_tags(&mut random, &mut words);
        }
        seen[told_as_recovered("tags-damaged", &words) as usize] += 1;
        hidden += u32::from(absence_is_explained(&words, KEYS[round % 5]));
    }
    assert!(
        seen[SOUND as usize] > 5 && seen[MENDABLE as usize] > 0 && seen[REFUSED as usize] > 5,
        "{seen:?}"
    );
    assert!(hidden > 5, "{hidden} keys were hidden by a tag");
}

/// Answers whether the key is told to be hidden by a tag.
fn absence_is_explained(words: &[u64], key: u64) -> bool {
    let (told, status) = told_of_key("tags-absent", words, key);
    if status != ABSENT {
        return false;
    }
    let table = Table::read(words).unwrap();
    let levels = table.levels_in_use();
    let buckets = levels.iter().flat_map(|&level| table.places(key, level));
    let stands = buckets.flat_map(Slot::all_of).any(|slot| table.is_taken(slot) && table.key(slot) == key);
    assert_eq!(told.contains("absent: the key stands in none of its places"), !stands, "{told}");
    assert_eq!(told.contains(", but its tag there is 0x"), stands, "{told}");
    stands
}
