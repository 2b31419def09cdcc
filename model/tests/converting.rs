//! Request h) of document 02: the conversion to the other form, and the program over it.
//!
//! Most tables have the multipliers 1 and 2^32 + 1. For a key with the upper half u and the lower half l the hashes are u
//! and u + l in form 1, and u and u + (l ^ u) in form 2. So the first place is the same in both forms, and a test may
//! choose the second one in each. The tag in form 2 is the upper byte of l ^ u.
//!
//! With c = 1 and k = 1 the bottom is bucket 0 with its token at word 9, and the top is buckets 1 and 2 with their tokens
//! at 22 and 35. A key with u = 1 has the first place 1, which is bucket 2. Its second place is then 1 + l in form 1 and,
//! modulo 2, l in form 2.

mod common;
use common::resizing::*;
use common::scripts::*;
use common::*;
use ragansils_model::*;

fn small_table(form: u64) -> Story {
    Story::in_form(form, 1, 1, 1, MARKED_1)
}

/// Both buckets of the top are places of this key in `form`, and bucket 2 alone in the other one.
fn key_that_narrows(form: u64, n: u64) -> u64 {
    key_with_halves(1, 2 * n + u64::from(form == 1))
}

/// The other way round: bucket 2 alone in `form`, both buckets in the other one.
fn key_that_widens(form: u64, n: u64) -> u64 {
    key_that_narrows(3 - form, n)
}

/// Puts keys into chosen slots, told as bucket, slot and key; the table must be sound with them.
fn put_keys(story: &mut Story, items: &[(usize, usize, u64)]) {
    for &(bucket, slot, key) in items {
        put(story, bucket, slot, record_of(key));
        story.table[9 + 13 * bucket] = by_hand::meant_token(&story.table, bucket);
    }
    story.assert_sound();
}

/// The same record as `insert_keys` gives a key.
fn record_of(key: u64) -> [u64; 3] {
    [key, key + 100, key + 200]
}

/// What a conversion answers and leaves, whatever the second table held before.
fn outcome(source: &[u64]) -> ((u64, u64), Story) {
    let words = source.len();
    let full_of_items = [&source[..9], &vec![15; words - 9]].concat();
    let outcomes =
        [vec![0; words], vec![UNTOUCHED; words], vec![u64::MAX; words], full_of_items].map(|mut second| {
            let answer = convert(source, &mut second);
            (answer, second)
        });
    assert!(outcomes.iter().all(|other| other == &outcomes[0]));
    let [(answer, table), ..] = outcomes;
    (answer, Story { table })
}

/// The second table of a conversion that must be accepted, and the laws of one.
fn converted(source: &Story) -> Story {
    let (answer, second) = outcome(&source.table);
    assert_eq!(answer, (SUCCESS, 0));
    assert_eq!(second.table[..9], fresh_other_form(&source.table).table[..9]);
    second.assert_sound();
    assert_eq!(map_of(&second.table), map_of(&source.table));
    assert_free_slots_hold_0(&second.table);
    second
}

/// A conversion moves items but deletes none, so that nothing is left in a free slot.
fn assert_free_slots_hold_0(table: &[u64]) {
    for bucket in table[9..].chunks(13) {
        let free_slots = (0..4).filter(|slot| bucket[0] >> slot & 1 == 0);
        assert!(free_slots.map(|slot| &bucket[1 + 3 * slot..4 + 3 * slot]).all(|words| words == [0; 3]));
    }
}

/// "the second table freshly created": the source's header with the other form, at rest.
fn fresh_other_form(source: &[u64]) -> Story {
    Story::in_form(3 - source[0], source[1], source[4], source[2], source[3])
}

fn assert_no_place_for(key: u64, source: &Story) {
    let (answer, second) = outcome(&source.table);
    assert_eq!(answer, (6, key));
    assert_eq!(second.table, fresh_other_form(&source.table).table);
}

/// Refused, with no word of the second table changed, whatever its length is.
fn assert_refused(source: &Story, number: u64) {
    for words in [source.table.len(), 0, 1, 9, 48, 99, 101, 204] {
        let mut second = vec![UNTOUCHED; words];
        assert_eq!(convert(&source.table, &mut second), (number, 0), "{words} words");
        assert_eq!(second, vec![UNTOUCHED; words]);
    }
}

// ---- Which table comes out.

/// All keys have place 1 alone in the new table, so that they come to stand there in the order in which they are read:
/// four in bucket 2, and the fifth in the bottom. Any other order would give other words.
#[test]
fn top_before_bottom_and_buckets_and_slots_ascending() {
    // With the tags 13 and 5, 7, 9, 11: 1 + 13·2^8 = 3329 and 15 + 5·2^8 + 7·2^16 + 9·2^24 + 11·2^32 = 47396095247.
    for (form, bottom_token, top_token) in [(1, 3329, 47396095247), (2, 1, 15)] {
        let keys = [5, 7, 9, 11, 13].map(|tag| key_that_narrows(form, tag) + (tag << 24));
        let mut source = small_table(form);
        let slots = [(1, 1), (1, 3), (2, 0), (2, 2), (0, 1)];
        let items: Vec<_> =
            slots.iter().zip(keys).map(|(&(bucket, slot), key)| (bucket, slot, key)).collect();
        put_keys(&mut source, &items);
        // Words 6 to 8 and the words of a free slot play no part.
        source.table[6..9].fill(UNTOUCHED);
        source.table[23..26].fill(UNTOUCHED);

        let records = keys.map(record_of).concat();
        let (first_four, fifth) = records.split_at(12);
        let header = [3 - form, 1, 1, MARKED_1, 1, 0, 0, 0, 0];
        let bottom = [&[bottom_token], fifth, &[0; 9]].concat();
        let expected = [&header, &bottom[..], &[0; 13], &[top_token], first_four].concat();
        assert_eq!(converted(&source).table, expected);
    }
}

/// The keys of bucket `bucket`, whose taken slots are the first ones.
fn keys_of_bucket(story: &Story, bucket: usize) -> Vec<u64> {
    let slots = (0..4).take_while(|&slot| by_hand::is_taken(&story.table, bucket, slot));
    slots.map(|slot| by_hand::key_at(&story.table, bucket, slot)).collect()
}

/// Items are inserted as insert does it. The last one finds bucket 2 and the bottom full and moves an earlier one.
#[test]
fn an_item_may_move_another() {
    for form in BOTH_FORMS {
        let narrow: Vec<u64> = (0..8).map(|n| key_that_narrows(form, n)).collect();
        let wide = key_that_widens(form, 8);
        // Key 2 has u = 0 and place 0 in both forms. With it the two top buckets are level when the wide key comes, which
        // then takes its first place.
        let mut source = small_table(form);
        put_keys(&mut source, &[(1, 0, narrow[0]), (1, 1, 2), (2, 0, wide)]);
        put_keys(&mut source, &[(2, 1, narrow[1]), (2, 2, narrow[2]), (2, 3, narrow[3])]);
        put_keys(&mut source, &[(0, 0, narrow[4]), (0, 1, narrow[5]), (0, 2, narrow[6]), (0, 3, narrow[7])]);
        let second = converted(&source);
        // The last key took slot 1, where the wide one was.
        assert_eq!(keys_of_bucket(&second, 2), [narrow[0], narrow[7], narrow[1], narrow[2]]);
        assert_eq!(keys_of_bucket(&second, 1), [2, wide]);
        assert_eq!(keys_of_bucket(&second, 0), narrow[3..7]);
    }
}

#[test]
fn c_k_and_multipliers_are_kept() {
    for form in BOTH_FORMS {
        for (c, k) in (1..=5).flat_map(|c| (1..=c).map(move |k| (c, k))) {
            for [mul1, mul2] in [[1, 1], [MARKED_1, MARKED_2], [u64::MAX, 3], [1 << 63 | 5, u64::MAX]] {
                let mut source = Story::in_form(form, c, k, mul1, mul2);
                let empty = converted(&source);
                assert_eq!(empty.table[..9], [3 - form, c, mul1, mul2, k, 0, 0, 0, 0]);
                assert!(empty.table[9..].iter().all(|&word| word == 0));
                // Eight keys always find a place: four of them in the top and four in the bottom at the worst.
                source.insert_keys((1..=8).map(|n| n << 40 | n));
                converted(&source);
            }
        }
    }
}

#[test]
fn records_of_any_words_are_carried_over() {
    let mut source = Story::marked();
    for (key, function, place) in [(0, 0, 0), (u64::MAX, u64::MAX, 0), (1 << 63, 7, u64::MAX), (3, 3, 3)] {
        source.whole(insert_event(key, function, place));
    }
    let there = converted(&source);
    let back = converted(&there);
    assert_eq!(back.query(u64::MAX).1[..2], [u64::MAX, 0]);
}

/// What a finished update leaves in words 6 to 8, and a delete in its slot, stays behind.
#[test]
fn what_is_left_of_earlier_changes_plays_no_part() {
    for form in BOTH_FORMS {
        let mut source = Story::marked_in(form);
        source.insert_keys([1, 3, 5, 7]);
        assert_eq!(source.whole(update_event(1, 30, 40)).len(), 7);
        source.whole(Event::Delete { key: 7 });
        assert_eq!([source.table[6], source.table[45]], [36, 7]);
        let second = converted(&source);
        assert_eq!(second.table[5..9], [0; 4]);
        assert_eq!(second.table[45..48], [0; 3]);
        assert_eq!(second.query(1), (0, [30, 40, 1, 36, 0]));
    }
}

// ---- An item without a place.

/// From the ninth on, keys with place 1 alone have no place: four stand in bucket 2 and four in the bottom.
#[test]
fn the_first_item_without_a_place_is_named() {
    for form in BOTH_FORMS {
        let keys: Vec<u64> = (1..=12).map(|n| key_that_narrows(form, n)).collect();
        for count in 8..=12 {
            let mut source = small_table(form);
            source.insert_keys(keys[..count].iter().copied());
            // They are read as they stand: from bucket 1 the second, fourth, sixth and eighth, from bucket 2 the four odd
            // ones, and then the rest. With the bottom first another one would be named.
            match count {
                8 => drop(converted(&source)),
                _ => assert_no_place_for(keys[8], &source),
            }
        }
    }
}

/// Both multipliers are 2^32 + 1, so that a key has one place: u + l in form 1 and u + (l ^ u) in form 2.
#[test]
fn key_0_may_be_the_one_without_a_place() {
    for form in BOTH_FORMS {
        let mut source = Story::in_form(form, 1, 1, MARKED_1, MARKED_1);
        // Place 1 in this form and place 0 in the other one.
        let keys: Vec<u64> = (0..7).map(|n| key_that_widens(form, n)).collect();
        put_keys(&mut source, &[(1, 0, 2)]);
        put_keys(&mut source, &[(2, 0, keys[0]), (2, 1, keys[1]), (2, 2, keys[2]), (2, 3, keys[3])]);
        put_keys(&mut source, &[(0, 0, keys[4]), (0, 1, keys[5]), (0, 2, keys[6]), (0, 3, 0)]);
        // Keys 2 and 0 have place 0 in both forms. So all nine share the eight slots of bucket 1 and the bottom.
        assert_no_place_for(0, &source);
    }
}

// ---- There and back.

#[test]
fn the_way_back_gives_the_same_map() {
    let mut source = Story::marked();
    source.insert_keys((0..12).map(|n| n << 33 | n));
    let there = converted(&source);
    let back = converted(&there);
    assert_eq!(map_of(&back.table), map_of(&source.table));
    assert_eq!(back.table[..9], source.table[..9]);
}

/// Keys with u = 1, eight with l = 0 and five with l = 3 modulo 4. Their places in a top of four and a bottom of two:
///
/// | l | top, form 1 | bottom, form 1 | top, form 2 | bottom, form 2 |
/// |---|---|---|---|---|
/// | 0 | 1 | 1 | 1, 2 | 1, 0 |
/// | 3 | 1, 0 | 1, 0 | 1, 3 | 1 |
fn keys_that_do_not_come_back() -> [Vec<u64>; 2] {
    let keys = |lower: u64, count: u64| (0..count).map(|n| key_with_halves(1, lower + 4 * n)).collect();
    [keys(0, 8), keys(3, 5)]
}

/// A map that form 2 gives back in an order in which form 1 has no place for its last key.
#[test]
fn the_way_back_may_be_refused() {
    let [first, others] = keys_that_do_not_come_back();
    let mut source = Story::with(2, 2, 1, MARKED_1);
    // In form 1 the first eight fill the places 1 of top and bottom. Four of the others fill place 0 of the top, and the
    // fifth stands in place 0 of the bottom. The places of the top are buckets 3 to 6, those of the bottom 1 and 2.
    source.insert_keys(first.iter().chain(&others).copied());
    assert_eq!([3, 1].map(|bucket| keys_of_bucket(&source, bucket)), [&others[..4], &others[4..]]);
    assert_eq!([4, 2].map(|bucket| keys_of_bucket(&source, bucket)), [&first[..4], &first[4..]]);
    let there = converted(&source);
    let [f, o] = [first, others];
    assert_eq!(keys_of_bucket(&there, 4), [o[0], o[2], f[2], f[4]]);
    assert_eq!(keys_of_bucket(&there, 5), [f[0], f[1], f[3], f[5]]);
    assert_eq!(keys_of_bucket(&there, 6), [o[1], o[3], o[4]]);
    assert_eq!([1, 2].map(|bucket| keys_of_bucket(&there, bucket)), [[f[7]], [f[6]]]);
    // On the way back o[0] takes a slot in place 1 of the top. The other four fill place 0, so that it cannot leave, and
    // only seven of the eight find room.
    assert_no_place_for(f[6], &there);
}

// ---- Refusals.

/// Sound tables of c = 2 at rest, growing and shrinking. Key 1 stands in each, and slot 3 of bucket 0 is free.
fn in_each_phase(form: u64) -> [Story; 3] {
    let mut stories = [1, 1, 2].map(|k| Story::in_form(form, 2, k, MARKED_1, MARKED_2));
    stories.iter_mut().for_each(|story| story.insert_keys([1, 3, 5, 7, 9]));
    stories[1].whole(Event::Begin);
    stories[2].whole(Event::Shrink);
    assert_eq!([0, 1, 2].map(|phase| stories[phase].table[4]), [1, 258, 513]);
    stories.iter().for_each(Story::assert_sound);
    stories
}

/// Ways to make such a table unsound. Recovery mends the first two.
fn unsound_tables(sound: &Story) -> Vec<Story> {
    let key_word = sound.query(1).1[3];
    let with = |changes: &[(usize, u64)]| {
        let mut story = Story { table: sound.table.clone() };
        changes.iter().for_each(|&(index, word)| story.table[index] = word);
        story
    };
    let doubled_with = |record: [u64; 3]| {
        let mut story = with(&[]);
        put(&mut story, 0, 3, record);
        story
    };
    let mut unsound = vec![with(&[(5, 1), (6, key_word)]), doubled_with(record_of(1))];
    unsound.push(doubled_with([1, 0, 0]));
    unsound.extend([(5, 1), (5, 2), (5, 256), (5, u64::MAX)].map(|flag| with(&[flag])));
    // Key 2 is in a wrong place where key 1 stood.
    unsound.push(with(&[(key_word as usize, 2)]));
    for bucket in 0..7 {
        let token = 9 + 13 * bucket;
        unsound.extend([4, 8, 39, 40, 63].map(|bit| with(&[(token, sound.table[token] ^ 1 << bit)])));
    }
    unsound
}

#[test]
fn twelve_for_all_that_is_not_sound_before_7_and_13() {
    for form in BOTH_FORMS {
        for sound in in_each_phase(form) {
            let unsound = unsound_tables(&sound);
            for (number, source) in unsound.iter().enumerate() {
                assert_eq!(source.list(Event::Recover).0, if number < 2 { SUCCESS } else { 12 });
                assert_refused(source, 12);
            }
        }
        // At rest with k = 1 buckets 3 to 6 are not in use.
        for token in [1, 16] {
            let [mut source, ..] = in_each_phase(form);
            source.table[9 + 13 * 3] = token;
            assert_refused(&source, 12);
        }
    }
}

#[test]
fn seven_for_growing_and_shrinking_before_13() {
    for form in BOTH_FORMS {
        let [at_rest, growing, shrinking] = in_each_phase(form);
        converted(&at_rest);
        assert_refused(&growing, 7);
        assert_refused(&shrinking, 7);
        // Also where no level has an item.
        for (k, event) in [(1, Event::Begin), (2, Event::Shrink)] {
            let mut empty = Story::in_form(form, 2, k, 1, 1);
            empty.whole(event);
            assert_refused(&empty, 7);
            empty.whole(Event::End);
            converted(&empty);
        }
    }
}

#[test]
fn thirteen_for_another_length() {
    for form in BOTH_FORMS {
        let [source, ..] = in_each_phase(form);
        for words in (0..100).chain(101..210) {
            let mut second = vec![UNTOUCHED; words];
            assert_eq!(convert(&source.table, &mut second), (13, 0));
            assert_eq!(second, vec![UNTOUCHED; words]);
        }
        // A table that could be created, of another c, is of another length too.
        let mut second = Story::in_form(3 - form, 3, 1, 1, 1).table;
        let before = second.clone();
        assert_eq!(convert(&source.table, &mut second), (13, 0));
        assert_eq!(second, before);
    }
}

/// `refusals.rs` has all bad words; here they are met by tables that 12 or 7 would refuse.
#[test]
fn one_before_all_others() {
    for form in BOTH_FORMS {
        for sound in in_each_phase(form) {
            for mut source in unsound_tables(&sound).into_iter().chain([sound]) {
                for (index, bad) in [(0, 3), (1, 3), (2, 2), (3, 0), (4, 769)] {
                    let good = std::mem::replace(&mut source.table[index], bad);
                    assert_refused(&source, 1);
                    source.table[index] = good;
                }
                source.table.pop();
                assert_refused(&source, 1);
            }
        }
    }
}

// ---- Any table.

/// What the request says, told by the calls: create, then an insert for each item.
fn told_by_calls(source: &[u64]) -> ((u64, u64), Vec<u64>) {
    let mut second = fresh_other_form(source);
    let buckets = [0, 1].into_iter().flat_map(|level| by_hand::buckets_of(source, level));
    for (bucket, slot) in buckets.flat_map(|bucket| [0, 1, 2, 3].map(|slot| (bucket, slot))) {
        if !by_hand::is_taken(source, bucket, slot) {
            continue;
        }
        let key_word = 9 + 13 * bucket + 1 + 3 * slot;
        let [key, function, place] = [0, 1, 2].map(|offset| source[key_word + offset]);
        let event = insert_event(key, function, place);
        if second.list(event) == (6, vec![]) {
            return ((6, key), fresh_other_form(source).table);
        }
        second.whole(event);
    }
    ((0, 0), second.table)
}

/// A sound table at rest with any load. Some items were deleted again.
fn any_table_at_rest(form: u64, mut garbage: impl FnMut() -> u64) -> Story {
    let c = 1 + garbage() % 4;
    let k = 1 + garbage() % c;
    let mul1 = garbage() | 1;
    let mul2 = if garbage() % 4 == 0 { mul1 } else { garbage() | 1 };
    let mut story = Story::in_form(form, c, k, mul1, mul2);
    // There are 6 slots for each bucket of the top.
    let tries = garbage() % (12 << k);
    try_inserts(&mut story, tries, &mut garbage);
    if garbage() % 2 == 0 {
        delete_some(&mut story, &mut garbage);
    }
    story
}

#[test]
fn conversions_are_those_told_by_the_calls() {
    let mut garbage = garbage_words();
    let (mut refused, mut refused_back, mut returned) = ([0; 2], [0; 2], 0);
    for round in 0..4000 {
        let form = BOTH_FORMS[round % 2];
        let source = any_table_at_rest(form, &mut garbage);
        let (answer, second) = outcome(&source.table);
        assert_eq!((answer, second.table), told_by_calls(&source.table));
        if answer.0 != SUCCESS {
            refused[round % 2] += 1;
            continue;
        }
        let second = converted(&source);
        let (answer, back) = outcome(&second.table);
        assert_eq!((answer, back.table.clone()), told_by_calls(&second.table));
        if answer.0 == SUCCESS {
            assert_eq!(map_of(&back.table), map_of(&source.table));
            returned += 1;
        } else {
            refused_back[round % 2] += 1;
        }
    }
    // From form 1 and from form 2: refused on the way there, and on the way back.
    assert!(refused.into_iter().all(|count| count > 100), "{refused:?}");
    assert!(refused_back.into_iter().all(|count| count > 20), "{refused_back:?}");
    assert!(returned > 1000, "{returned}");
}

/// A table in any phase, half of them with one word changed.
fn any_table(round: usize, mut garbage: impl FnMut() -> u64) -> Story {
    let form = BOTH_FORMS[round % 2];
    let mut story = match round / 2 % 3 {
        0 => any_table_at_rest(form, &mut garbage),
        phase => crowded_table_in(form, BOTH_WAYS[phase - 1], 2, round % 5 == 0, &mut garbage),
    };
    if garbage() % 2 == 0 {
        let index = garbage() as usize % story.table.len();
        story.table[index] = [garbage(), garbage() % 16, 0][garbage() as usize % 3];
    }
    story
}

#[test]
fn refusals_on_any_table() {
    let mut garbage = garbage_words();
    let mut seen = [0; 14];
    for round in 0..6000 {
        let source = any_table(round, &mut garbage);
        let same_length = garbage() % 4 != 0;
        let words = source.table.len() + usize::from(!same_length);
        let mut second: Vec<u64> = (0..words).map(|_| garbage()).collect();
        let before = second.clone();
        // A sound table is one that recovery accepts and has nothing to do on.
        let expected = match source.list(Event::Recover) {
            (1, _) => (1, 0),
            recovery if recovery != (SUCCESS, vec![]) => (12, 0),
            _ if source.table[4] >= 256 => (7, 0),
            _ if !same_length => (13, 0),
            _ => told_by_calls(&source.table).0,
        };
        let answer = convert(&source.table, &mut second);
        assert_eq!(answer, expected);
        assert!([0, 6].contains(&answer.0) || second == before);
        seen[answer.0 as usize] += 1;
    }
    assert!([0, 1, 6, 7, 12, 13].iter().all(|&number| seen[number] > 50), "{seen:?}");
}

// ---- The program.

const BOTH_GOOD: &str = "answer=0,key=0,answer=0,key=0,";

#[test]
fn both_ways_are_told() {
    // The way of an empty table too.
    assert_eq!(CONVERT.after_header(""), BOTH_GOOD);
    assert_eq!(CONVERT.after_header(&(insert_lines(1, 10) + &insert_lines(2, 20))), BOTH_GOOD);
    // Script answers are not printed: a query, a refused event, and a growth and a shrink that end.
    let quiet = "op=query,key=1,op=delete,key=9,op=recover,op=begin,op=end,op=shrink,op=back,op=back,op=end,";
    assert_eq!(CONVERT.after_header(quiet), BOTH_GOOD);
}

#[test]
fn a_key_without_a_place_ends_the_way_there() {
    let keys: Vec<u64> = (1..=10).map(|n| key_that_narrows(1, n)).collect();
    let script = |count: usize| {
        let inserts: String = keys[..count].iter().map(|&key| insert_lines(key, 10)).collect();
        format!("cap=1,top=1,{CHOSEN_PLACES}{inserts}")
    };
    assert_eq!(CONVERT.commas(&script(8)), BOTH_GOOD);
    // The ninth key has u = 1 and l = 19: 2^32 + 19.
    assert_eq!(CONVERT.commas(&script(9)), "answer=6,key=4294967315,");
    assert_eq!(CONVERT.commas(&script(10)), "answer=6,key=4294967315,");
}

#[test]
fn a_key_without_a_place_on_the_way_back() {
    let inserts: String =
        keys_that_do_not_come_back().concat().into_iter().map(|key| insert_lines(key, 10)).collect();
    let script = format!("cap=2,top=2,{CHOSEN_PLACES}{inserts}");
    // The seventh key of those with l = 0: 2^32 + 24.
    assert_eq!(CONVERT.commas(&script), "answer=0,key=0,answer=6,key=4294967320,");
    // Without it there is a place for all.
    assert_eq!(CONVERT.commas(&(script + "op=delete,key=4294967320,")), BOTH_GOOD);
}

#[test]
fn the_table_is_not_recovered() {
    let full_bucket: String = [1, 3, 5, 7].map(|key| insert_lines(key, 10)).concat();
    for after in 0..=7 {
        let cut = format!("{full_bucket}op=cut,after={after},op=update,key=1,fn=30,at=40,");
        // From the fourth store to the sixth the flag is set: 12, though recovery mends it, and not 3.
        let told = if (4..7).contains(&after) { "answer=12,key=0," } else { BOTH_GOOD };
        assert_eq!(CONVERT.after_header(&cut), told, "{after}");
        assert_eq!(CONVERT.after_header(&format!("{cut}op=recover,")), BOTH_GOOD, "{after}");
    }
}

#[test]
fn growing_and_shrinking_tables_are_refused() {
    let script = insert_lines(1, 10) + "op=begin,";
    assert_eq!(CONVERT.after_header(&script), "answer=7,key=0,");
    assert_eq!(CONVERT.after_header(&format!("{script}op=back,")), "answer=7,key=0,");
    assert_eq!(CONVERT.after_header("op=begin,op=end,op=shrink,"), "answer=7,key=0,");
    assert_eq!(CONVERT.after_header("op=begin,op=end,op=shrink,op=end,"), BOTH_GOOD);
    // Key 1 stands twice after a cut step, in the top and in the interim level: 12 comes before 7.
    let doubled = format!("op=begin,op=end,{}op=shrink,op=cut,after=4,op=step,", insert_lines(1, 10));
    assert_eq!(CONVERT.after_header(&doubled), "answer=12,key=0,");
    assert_eq!(CONVERT.after_header(&format!("{doubled}op=recover,")), "answer=7,key=0,");
}

/// "only this program has that limit".
#[test]
fn cap_7_is_the_largest() {
    assert_eq!(LARGEST_CONVERT_CAPACITY, 7);
    assert_eq!(CONVERT.commas(&header_lines("7,7,1,1")), BOTH_GOOD);
    let eight = header_lines("8,8,1,1");
    assert_eq!(CONVERT.commas(&eight), "made=13,");
    assert_eq!(SCRIPT.commas(&eight), "made=0,events=0,");
    assert!(LEDGER.commas(&eight).starts_with("samples=0,"));
}

#[test]
fn a_refused_header_is_told_alone() {
    let largest_cap = format!("{},1,1,1", u64::MAX);
    for numbers in ["8,1,1,1", "9,1,1,1", "0,0,1,1", "2,0,1,1", "2,3,1,1", "2,1,2,1", "2,1,1,0", &largest_cap]
    {
        // No line behind it is read, good or bad.
        for tail in ["", "op=begin,", "sample=1,", "nonsense"] {
            assert_eq!(CONVERT.commas(&(header_lines(numbers) + tail)), "made=13,", "{numbers},{tail}");
        }
    }
    // All four lines are read before the header is judged.
    assert_eq!(CONVERT.commas("cap=8,top=01,mul1=1,mul2=1,"), "bad=2,");
    assert_eq!(CONVERT.commas("cap=8,top=1,mul1=2,"), "bad=4,");
    assert_eq!(CONVERT.commas("cap=8,top=1,mul1=2,mul2=1"), "bad=4,");
}

#[test]
fn bad_lines() {
    for (input, number) in bad_headers() {
        assert_eq!(CONVERT.run(&input), format!("bad={number}\n"), "{input:?}");
    }
    let samples = [("sample=1,", 5), ("op=begin,sample=1,", 6), ("op=query,sample=1,", 6)];
    let behind_a_cut = [("op=cut,sample=1,", 6), ("op=cut,after=1,sample=1,", 5)];
    for (bad, number) in BAD_BEHIND_HEADER.into_iter().chain(samples).chain(behind_a_cut) {
        assert_eq!(CONVERT.after_header(bad), format!("bad={number},"), "{bad:?}");
        // Also behind five good lines that leave a table which a conversion would refuse.
        let refused = insert_lines(1, 10) + "op=begin,";
        assert_eq!(CONVERT.after_header(&(refused + bad)), format!("bad={},", number + 5), "{bad:?}");
    }
    let longest_sample = format!("sample={},", u64::MAX);
    assert_eq!(CONVERT.after_header(&longest_sample), "bad=5,");
}

#[test]
fn nothing_is_read_behind_the_line_that_ends_it() {
    assert_eq!(CONVERT.read_before_unreadable(&header_lines("8,1,1,1")), (true, "made=13\n".into()));
    assert_eq!(CONVERT.read_before_unreadable(&format!("{HEADER}sample=1,")), (true, "bad=5\n".into()));
    // An input that fails is no end of it: nothing is told.
    assert_eq!(CONVERT.read_before_unreadable(HEADER), (false, String::new()));
    assert_eq!(CONVERT.read_before_unreadable(&format!("{HEADER}op=begin,")), (false, String::new()));
}

// ---- The program against the call.

/// One of the first `kinds` kinds of event, with its lines. From the sixteenth on they resize the table.
fn any_event(kinds: u64, keys: u64, mut garbage: impl FnMut() -> u64) -> (Event, String) {
    let (key, function, place) = ((garbage() % keys) << 31, garbage(), garbage());
    let item = format!("key={key},fn={function},at={place},");
    match garbage() % kinds {
        0..=11 => (insert_event(key, function, place), format!("op=insert,{item}")),
        12 => (update_event(key, function, place), format!("op=update,{item}")),
        13 => (Event::Delete { key }, format!("op=delete,key={key},")),
        14 => (Event::Recover, "op=recover,".into()),
        15 => (Event::Begin, "op=begin,".into()),
        16 => (Event::Shrink, "op=shrink,".into()),
        17 => (Event::Back, "op=back,".into()),
        18..=20 => (Event::End, "op=end,".into()),
        _ => (Event::Step, "op=step,".into()),
    }
}

/// Random events with cuts and forgotten recoveries: the script, and the table that it leaves.
fn any_script(mut garbage: impl FnMut() -> u64) -> (String, Story) {
    let cap = 1 + garbage() % 3;
    let top = 1 + garbage() % cap;
    let (mul1, mul2) = (garbage() | 1, garbage() | 1);
    let mut script = header_lines(&format!("{cap},{top},{mul1},{mul2}"));
    let mut story = Story::with(cap, top, mul1, mul2);
    let (kinds, one_cut_of) = ([15, 24][garbage() as usize % 2], 8 << (garbage() % 5));
    for _ in 0..garbage() % (40 << cap) {
        let (event, lines) = any_event(kinds, 12 << cap, &mut garbage);
        let mut after = usize::MAX;
        if garbage() % one_cut_of == 0 {
            after = garbage() as usize % 11;
            script += &format!("op=cut,after={after},");
        }
        script += &lines;
        if story.list(event).0 == SUCCESS {
            story.cut(event, after);
        }
    }
    (script, story)
}

/// What the program has to tell of a table: of the script's own one, in form 1, both ways.
fn told_of(table: &[u64]) -> String {
    let mut second = vec![UNTOUCHED; table.len()];
    let (number, key) = convert(table, &mut second);
    let told = format!("answer={number},key={key},");
    match (number, table[0]) {
        (SUCCESS, 1) => told + &told_of(&second),
        _ => told,
    }
}

#[test]
fn random_scripts_are_told_by_the_call() {
    let mut garbage = garbage_words();
    let mut seen = std::collections::BTreeMap::new();
    for _ in 0..2000 {
        let (script, story) = any_script(&mut garbage);
        let told = CONVERT.commas(&script);
        assert_eq!(told, told_of(&story.table), "{script}");
        let answers: String = told.split_inclusive(',').filter(|line| line.starts_with("answer=")).collect();
        *seen.entry(answers).or_insert(0) += 1;
    }
    for answers in ["answer=0,answer=0,", "answer=0,answer=6,", "answer=6,", "answer=7,", "answer=12,"] {
        assert!(seen.get(answers) > Some(&5), "{seen:?}");
    }
}
