//! Layout and hashes of a table by the documents, written here once more: what is checked with them does not ask the model.

pub const FORM: usize = 0;
pub const MULTIPLIERS: [usize; 2] = [2, 3];
pub const STATE: usize = 4;
pub const HEADER_WORDS: usize = 9;
pub const BUCKET_WORDS: usize = 13;
pub const SLOT_WORDS: usize = 3;
pub const SLOTS: usize = 4;
/// "state: k + 256·phase"; a table grows in phase 1 and shrinks in phase 2.
pub const PHASE_UNIT: u64 = 256;

/// The forms that a table may have.
pub const FORMS: [u64; 2] = [1, 2];
/// The form that has tags.
pub const TAGGED: u64 = 2;

/// The one that a table of this form is converted to.
pub fn other_form(form: u64) -> u64 {
    if form == TAGGED {
        1
    } else {
        TAGGED
    }
}

/// "the product K·Ai modulo 2^64, divided by 2^32, rounded down"
pub fn hash(form: u64, multiplier: u64, key: u64) -> u64 {
    product(form, multiplier, key) / (1 << 32)
}

/// "the hash 1 product modulo 2^64, divided by 2^24, modulo 256"; form 1 has no tags.
pub fn tag(form: u64, multiplier_1: u64, key: u64) -> u64 {
    match form {
        TAGGED => product(form, multiplier_1, key) / (1 << 24) % 256,
        _ => 0,
    }
}

/// "In form 2, before hashing, a key is combined by exclusive or with itself divided by 2^32."
fn product(form: u64, multiplier: u64, key: u64) -> u64 {
    let factor = if form == TAGGED { key ^ (key / (1 << 32)) } else { key };
    (u128::from(factor) * u128::from(multiplier) % (1 << 64)) as u64
}

/// "Bucket j starts at word 9 + 13j: one token word"
pub fn token_word(bucket: usize) -> usize {
    HEADER_WORDS + BUCKET_WORDS * bucket
}

/// "then four slots of three words"
pub fn key_word(bucket: usize, slot: usize) -> usize {
    token_word(bucket) + 1 + SLOT_WORDS * slot
}

/// The bucket of a word, and its place in it.
pub fn bucket_and_offset(word: usize) -> Option<(usize, usize)> {
    let behind_header = word.checked_sub(HEADER_WORDS)?;
    Some((behind_header / BUCKET_WORDS, behind_header % BUCKET_WORDS))
}

/// "Token bit s is 1 when slot s is taken."
pub fn is_taken(token: u64, slot: usize) -> bool {
    token >> slot & 1 == 1
}

/// "slot s at bits 8 + 8s to 15 + 8s"
pub fn tag_in(token: u64, slot: usize) -> u64 {
    token >> (8 + 8 * slot) & 255
}

/// The same token word without a slot, as calls of this form read it.
pub fn without_slot(form: u64, token: u64, slot: usize) -> u64 {
    match form {
        TAGGED => token & !(1 << slot) & !(255 << (8 + 8 * slot)),
        _ => (token % 16) & !(1 << slot),
    }
}

/// The numbers of buckets of the levels in use: "The top has 2^k buckets, the bottom half that; while growing, an interim level has a
/// quarter." In a shrink "the old top becomes the interim level", so that it has twice as many as the top.
pub fn levels_in_use(state: u64) -> Vec<usize> {
    let top = 1 << (state % PHASE_UNIT);
    match state / PHASE_UNIT {
        1 => vec![top, top / 2, top / 4],
        2 => vec![top, top / 2, 2 * top],
        _ => vec![top, top / 2],
    }
}

/// "A level of M buckets is always buckets M - 1 to 2M - 2."
pub fn is_in_level(bucket: usize, buckets: usize) -> bool {
    (buckets - 1..2 * buckets - 1).contains(&bucket)
}

/// The level in use, by its number of buckets, to which a bucket belongs.
pub fn level_of_bucket(table: &[u64], bucket: usize) -> Option<usize> {
    levels_in_use(table[STATE]).into_iter().find(|&buckets| is_in_level(bucket, buckets))
}

/// Whether a key may stand in a bucket of a level: "the first and second places are hash 1 modulo M and hash 2 modulo M".
pub fn is_place(table: &[u64], key: u64, bucket: usize, buckets: usize) -> bool {
    let place = |multiplier: usize| hash(table[FORM], table[multiplier], key) as usize % buckets;
    MULTIPLIERS.into_iter().any(|multiplier| buckets - 1 + place(multiplier) == bucket)
}

/// The tag of a key in a table.
pub fn tag_of(table: &[u64], key: u64) -> u64 {
    tag(table[FORM], table[MULTIPLIERS[0]], key)
}

/// How many buckets the words of a table have room for.
pub fn buckets_of(table: &[u64]) -> usize {
    (table.len() - HEADER_WORDS) / BUCKET_WORDS
}

/// The whole token word that a bucket should have, by its token bits and keys; 0 where its level is not in use.
pub fn meant_token(table: &[u64], bucket: usize) -> u64 {
    if level_of_bucket(table, bucket).is_none() {
        return 0;
    }
    let taken = (0..SLOTS).filter(|&slot| is_taken(table[token_word(bucket)], slot));
    taken.fold(0, |token, slot| {
        let key = table[key_word(bucket, slot)];
        token | 1 << slot | tag_of(table, key) << (8 + 8 * slot)
    })
}

/// Says which token word of a sound table is not what it should be.
pub fn check_tokens(table: &[u64]) -> Result<(), String> {
    let is_wrong = |bucket: &usize| table[token_word(*bucket)] != meant_token(table, *bucket);
    match (0..buckets_of(table)).find(is_wrong) {
        None => Ok(()),
        Some(bucket) => {
            let (token, meant) = (table[token_word(bucket)], meant_token(table, bucket));
            Err(format!("the token word of bucket {bucket} is {token}, and by its slots {meant}"))
        }
    }
}

#[cfg(test)]
mod tests {
    use super::*;
    use crate::history::{Setting, MARKED_1, MARKED_2};
    use crate::test_table::{change, table_after};
    use ragansils_model::Event;

    /// Two odd multipliers of other programs, with many bits.
    const BUSY: [u64; 2] = [11400714819323198485, 14029467366897019727];

    /// Computed by hand from the sentences of request g).
    #[test]
    fn keys_hash_by_their_form() {
        let far = 12968787970;
        assert_eq!((hash(1, MARKED_1, far) % 2, hash(2, MARKED_1, far) % 2), (1, 0));
        assert_eq!([1, 3, 200].map(|key| tag(2, MARKED_1, key << 24 | 7)), [1, 3, 200]);
        assert_eq!((tag(2, BUSY[0], 1), tag(2, BUSY[0], 2), tag(1, BUSY[0], 1)), (127, 254, 0));
    }

    fn inserts(keys: &[u64]) -> impl Iterator<Item = Event> + '_ {
        keys.iter().map(|&key| Event::Insert { key, function: 5, place: 5 })
    }

    #[test]
    fn a_full_bucket_has_four_tags() {
        let setting = Setting { form: 2, c: 2, k: 1, mul1: MARKED_1, mul2: MARKED_2 };
        let keys = [5 << 24 | 1, 7 << 24 | 3, 9 << 24 | 5, 11 << 24 | 7];
        let table = table_after(setting, inserts(&keys));
        assert_eq!((meant_token(&table, 2), table[35]), (47396095247, 47396095247));
        assert_eq!((0..SLOTS).map(|slot| tag_in(table[35], slot)).collect::<Vec<_>>(), [5, 7, 9, 11]);
        assert_eq!(without_slot(2, table[35], 1), 47396095247 - 2 - (7 << 16));
        assert_eq!(without_slot(1, 47396095247, 1), 13);
        assert!(is_place(&table, 1, 2, 2) && !is_place(&table, 2, 2, 2) && is_place(&table, 2, 1, 2));
    }

    #[test]
    fn a_wrong_token_word_of_a_sound_table_is_found() {
        for form in FORMS {
            let setting = Setting { form, c: 3, k: 2, mul1: BUSY[0], mul2: BUSY[1] };
            let mut table = table_after(setting, inserts(&[1, 2, 3, 4, 5, 6, 7, 8, 9]));
            for event in [Event::Begin, Event::Back, Event::Back] {
                change(&mut table, event);
                assert_eq!(check_tokens(&table), Ok(()));
            }
            for (bucket, bit) in
                (0..buckets_of(&table)).flat_map(|bucket| [4, 9, 40].map(|bit| (bucket, bit)))
            {
                let mut damaged = table.clone();
                damaged[token_word(bucket)] ^= 1 << bit;
                assert!(check_tokens(&damaged).is_err(), "bit {bit} of bucket {bucket}");
            }
        }
    }
}
