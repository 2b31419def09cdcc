//! What the program tells of sound, cut and damaged tables, and of files that are none.

mod common;

use ragansils::{bytes_of, Creation, Refusal};
use ragansils_compare::damage::damage;
use ragansils_compare::random::Random;

use common::{empty, has, path, run, table, told_as_recovered, told_of, told_of_bytes, with, MARKED};
use common::{MENDABLE, REFUSED, SOUND};

/// The other exit statuses.
const FAILED: i32 = 1;
const WRONG_USAGE: i32 = 2;

#[test]
fn a_sound_table_is_drawn() {
    has(
        told_of("sound", &table([1, 3, 5, 7, 9])),
        SOUND,
        &[
            "state        1: k = 1, at rest",
            "top             2 buckets,        4 of        8 slots taken,  50.0 % [##########..........]",
            "bottom          1 buckets,        1 of        4 slots taken,  25.0 % [#####...............]",
            "in all          3 buckets,        5 of       12 slots taken,  41.7 % [########............]",
            "top      |.4|",
            "bottom   |1|",
            "sound",
            "would do nothing",
        ],
    );
}

#[test]
fn a_large_level_is_drawn_with_several_buckets_to_a_digit() {
    let mut words = empty(&Creation { capacity: 8, first_top: 8, ..MARKED });
    // Slots 0 and 1 of the first top bucket, and slot 0 of the last.
    words[9 + 13 * 255] = 3;
    words[9 + 13 * 255 + 4] = 256;
    words[9 + 13 * 510] = 1;
    words[9 + 13 * 510 + 1] = 255;
    let dots = ".".repeat(62);
    has(
        told_of("large", &words),
        SOUND,
        &[
            "buckets, each by its taken slots (up to 4 together, rounded up):",
            &format!("top      |1{dots}1|"),
        ],
    );
}

/// Key 9 stands in the second of four interim buckets, which were the top; all other keys are where they were.
const SHRINKING: [(usize, u64); 5] = [(4, 513), (61, 1), (62, 9), (63, 109), (64, 209)];

#[test]
fn three_levels_are_drawn_while_a_table_grows_or_shrinks() {
    has(
        told_of("growing", &with(table([1, 3, 5, 7, 9]), &[(4, 258)])),
        SOUND,
        &[
            "state        258: k = 2, growing",
            "top             4 buckets,        0 of       16 slots taken,   0.0 % [....................]",
            "in all          7 buckets,        5 of       28 slots taken,  17.9 % [###.................]",
            "top      |....|",
            "bottom   |.4|",
            "interim  |1|",
        ],
    );
    has(
        told_of("shrinking", &with(table([1, 3, 5, 7]), &SHRINKING)),
        SOUND,
        &[
            "state        513: k = 1, shrinking",
            "interim         4 buckets,        1 of       16 slots taken,   6.2 % [#...................]",
            "in all          7 buckets,        5 of       28 slots taken,  17.9 % [###.................]",
            "top      |.4|",
            "bottom   |.|",
            "interim  |.1..|",
            "would do nothing",
        ],
    );
}

/// While a table shrinks the interim level is the largest, and the largest tells how many buckets a digit has.
#[test]
fn a_large_interim_level_is_drawn_with_several_buckets_to_a_digit() {
    let mut words = empty(&Creation { capacity: 8, first_top: 7, ..MARKED });
    words[4] = 512 + 7;
    words[9 + 13 * 510] = 1;
    words[9 + 13 * 510 + 1] = 255;
    has(
        told_of("large-interim", &words),
        SOUND,
        &[
            "buckets, each by its taken slots (up to 4 together, rounded up):",
            &format!("top      |{}|", ".".repeat(64)),
            &format!("interim  |{}1|", ".".repeat(63)),
        ],
    );
}

/// Of two copies the one in the interim level goes, though that level is the largest; and what lies below the bottom is not in use.
#[test]
fn a_shrink_that_was_cut_is_told_by_its_own_levels() {
    let doubled = with(table([1, 3, 5, 7, 9]), &SHRINKING);
    has(
        told_of("shrink-cut", &doubled),
        MENDABLE,
        &[
            "- key 9 (address 0x0, depth 9) stands in 2 slots with equal records: slot 0 of bottom bucket 0, slot 0 of interim bucket 4",
            "would clear the later of two equal copies of key 9 (address 0x0, depth 9): slot 0 of interim bucket 4",
            "word 61 becomes 0",
        ],
    );
    let mut words = empty(&Creation { capacity: 3, first_top: 2, ..MARKED });
    words[4] = 512 + 2;
    has(told_of("shrink-empty", &words), SOUND, &["interim  |........|"]);
    words[9] = 1;
    let fault = "- the token word of bucket 0 is 1, and its level is not in use";
    has(told_of("shrink-unused", &words), REFUSED, &[fault]);
}

#[test]
fn an_update_that_was_cut_would_be_made_again() {
    let cut = with(table([1, 3, 5, 7]), &[(6, 36), (7, 30), (8, 40), (5, 1), (37, 30)]);
    has(
        told_of("flagged", &cut),
        MENDABLE,
        &[
            "update log   target 36, function 30, place 40",
            "- the update flag is 1: an update of key 1 (address 0x0, depth 1) was cut",
            "would write function 30 and place 40 of key 1 (address 0x0, depth 1) again, in slot 0 of top bucket 2, and clear the update flag",
            "word 37 becomes 30",
            "word 38 becomes 40",
            "word 5 becomes 0",
        ],
    );
}

#[test]
fn the_later_of_two_copies_would_go() {
    // Key 3 in the bottom bucket too.
    let doubled = with(table([3]), &[(9, 1), (10, 3), (11, 103), (12, 203)]);
    has(
        told_of("doubled", &doubled),
        MENDABLE,
        &[
            "- key 3 (address 0x0, depth 3) stands in 2 slots with equal records: slot 0 of top bucket 2, slot 0 of bottom bucket 0",
            "would clear the later of two equal copies of key 3 (address 0x0, depth 3): slot 0 of bottom bucket 0",
            "word 9 becomes 0",
        ],
    );
}

#[test]
fn what_is_damaged_is_named() {
    let double = [(9, 1), (10, 3), (11, 103), (12, 999)];
    let rows: [(&str, Vec<u64>, &str); 7] = [
        ("flag", with(table([1]), &[(5, 2)]), "the update flag is 2, which is neither 0 nor 1"),
        (
            "target",
            with(table([1]), &[(5, 1), (6, 39)]),
            "the update flag is 1, and the update target 39 is no taken slot's key word",
        ),
        ("token", with(table([1]), &[(35, 17)]), "the token word of bucket 2 is 17, which is above 15"),
        (
            "unused",
            with(table([1]), &[(48, 1)]),
            "the token word of bucket 3 is 1, and its level is not in use",
        ),
        (
            "misplaced",
            with(table([1]), &[(36, 2)]),
            "key 2 (address 0x0, depth 2) stands in slot 0 of top bucket 2, which is none of its places",
        ),
        (
            "unequal",
            with(table([3]), &double),
            "key 3 (address 0x0, depth 3) stands in 2 slots with records that differ: slot 0 of top bucket 2, slot 0 of bottom bucket 0",
        ),
        ("both", with(table([1]), &[(5, 7), (35, 16)]), "the token word of bucket 2 is 16, which is above 15"),
    ];
    for (name, words, fault) in rows {
        let refusal = Refusal::NoKind;
        let refused = format!("would refuse and change nothing: {refusal}");
        has(
            told_of(name, &words),
            REFUSED,
            &[&format!("- {fault}"), "damaged, and not by a cut alone:", &refused],
        );
    }
}

#[test]
fn many_faults_of_a_kind_are_counted() {
    let tokens: Vec<(usize, u64)> = (0..20).map(|bucket| (9 + 13 * bucket, 16)).collect();
    let words = with(empty(&Creation { capacity: 4, ..MARKED }), &tokens);
    has(told_of("many", &words), REFUSED, &["- and 12 more of this kind"]);
}

#[test]
fn a_bad_header_is_named() {
    let good = table([1]);
    let rows: [(&str, Vec<u64>, &str); 12] = [
        ("length", good[..47].to_vec(), "the length 376 bytes is no table's length; a table of c = 1 has 384"),
        ("tiny", good[..3].to_vec(), "the file is too short for a header of 9 words"),
        ("form", with(good.clone(), &[(0, 3)]), "form 3 is not known; known are 1 and 2"),
        (
            "order",
            with(good.clone(), &[(0, 1 << 56)]),
            "form 72057594037927936 is 1 in the other byte order: the table was made on another kind of machine",
        ),
        ("capacity", with(good.clone(), &[(1, 21)]), "the capacity exponent 21 is not 1 to 20"),
        ("other", with(good.clone(), &[(1, 3)]), "a table of c = 3 has 1632 bytes, and the file has 800"),
        ("even", with(good.clone(), &[(3, 4)]), "the second multiplier 4 is even"),
        ("k", with(good.clone(), &[(4, 3)]), "the state 3 has k = 3, which is not 1 to c = 2"),
        ("growing", with(good.clone(), &[(4, 257)]), "the state 257 has k = 1, which is not 2 to c = 2"),
        ("shrinking", with(good.clone(), &[(4, 514)]), "the state 514 has k = 2, which is not 1 to c - 1 = 1"),
        (
            "phase",
            with(good.clone(), &[(4, 769)]),
            "the state 769 has phase 3; known are 0, at rest, 1, growing, and 2, shrinking",
        ),
        (
            "zeros",
            vec![0; good.len()],
            "all words are 0: this table was never created, or its creation was cut; create it again",
        ),
    ];
    for (name, words, fault) in rows {
        let refused = format!("would refuse and change nothing: {}", Refusal::BadHeader);
        has(
            told_of(&format!("header-{name}"), &words),
            REFUSED,
            &[&format!("- {fault}"), "this is no table:", &refused],
        );
    }
}

#[test]
fn bytes_that_are_no_words_are_told() {
    has(
        told_of_bytes("empty", b"", &[]),
        REFUSED,
        &["- the length 0 bytes is no table's length; a table of c = 1 has 384"],
    );
    let too_short = ["capacity     missing", "- the file is too short for a header of 9 words"];
    has(told_of_bytes("letter", b"a letter", &[]), REFUSED, &too_short);
    let mut odd = bytes_of(&table([1]));
    odd.push(0);
    has(
        told_of_bytes("odd", &odd, &[]),
        REFUSED,
        &["- the length 801 bytes is no table's length; a table of c = 2 has 800"],
    );
}

#[test]
fn usage_and_missing_files_are_told() {
    for arguments in [&[][..], &["one", "two"], &["--unknown"], &["one", "--key", "1"]] {
        let output = run(arguments);
        assert_eq!(output.status.code(), Some(WRONG_USAGE));
        assert!(String::from_utf8(output.stderr).unwrap().starts_with("usage: "));
    }
    let bad_key = run(&["one", "--key", "1", "256"]);
    assert_eq!(bad_key.status.code(), Some(WRONG_USAGE));
    let told = String::from_utf8(bad_key.stderr).unwrap();
    assert!(told.starts_with("ragansils-inspect: '256' is no depth: a depth is 0 to 255\nusage: "), "{told}");
    let missing = path("missing-file");
    for name in [missing.to_str().unwrap(), env!("CARGO_TARGET_TMPDIR"), "/dev/null"] {
        let output = run(&[name]);
        assert_eq!(output.status.code(), Some(FAILED));
        assert!(String::from_utf8(output.stderr).unwrap().contains(name));
    }
    let help = run(&["--help"]);
    assert_eq!(help.status.code(), Some(SOUND));
    assert!(String::from_utf8(help.stdout).unwrap().contains("exit status"));
}

/// Whatever the words, the program answers as recovery does, and a refused table has its reason told.
#[test]
fn random_damage_is_explained() {
    let mut random = Random::new(1);
    let mut seen = [0; REFUSED as usize + 1];
    for round in 0..400 {
        let mut words = table((1..16).step_by(2).take(round % 9));
        damage(&mut random, &mut words);
        if random.one_in(10) {
            let length = random.index(120);
            words = random.words(length);
        }
        seen[told_as_recovered("damaged", &words) as usize] += 1;
    }
    assert!([SOUND, MENDABLE, REFUSED].iter().all(|&status| seen[status as usize] > 5), "{seen:?}");
}
