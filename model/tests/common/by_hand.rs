//! What the documents say of hashes, tags, token words and a query, worked out from the words of a table alone, for
//! both forms. A token word is taken apart into bytes: byte 0 has the token bits, and in form 2 byte 1 + s is the tag of
//! slot s, as its bits are 8 + 8s to 15 + 8s.

use std::ops::Range;

/// Multiplier 1 or 2, as `which` says, times what the form makes of the key, modulo 2^64.
fn product(table: &[u64], which: usize, key: u64) -> u128 {
    let factor = if table[0] == 2 { key ^ (key >> 32) } else { key };
    u128::from(factor) * u128::from(table[1 + which]) % (1 << 64)
}

pub fn hash(table: &[u64], which: usize, key: u64) -> usize {
    (product(table, which, key) / (1 << 32)) as usize
}

/// The tag of a key; 0 in form 1.
pub fn tag(table: &[u64], key: u64) -> u8 {
    match table[0] {
        2 => (product(table, 1, key) / (1 << 24) % 256) as u8,
        _ => 0,
    }
}

/// The bytes of a token word as far as calls read it.
fn token_bytes(table: &[u64], bucket: usize) -> [u8; 8] {
    let word = table[9 + 13 * bucket];
    let read = if table[0] == 2 { word } else { word % 16 };
    read.to_le_bytes()
}

pub fn is_taken(table: &[u64], bucket: usize, slot: usize) -> bool {
    token_bytes(table, bucket)[0] >> slot & 1 == 1
}

pub fn key_at(table: &[u64], bucket: usize, slot: usize) -> u64 {
    table[9 + 13 * bucket + 1 + 3 * slot]
}

/// What a call stores to hide a slot.
pub fn token_without(table: &[u64], bucket: usize, slot: usize) -> u64 {
    let mut bytes = token_bytes(table, bucket);
    bytes[0] &= !(1 << slot);
    bytes[1 + slot] = 0;
    u64::from_le_bytes(bytes)
}

/// What a call stores to show a key in a slot.
pub fn token_with(table: &[u64], bucket: usize, slot: usize, key: u64) -> u64 {
    let mut bytes = token_bytes(table, bucket);
    bytes[0] |= 1 << slot;
    bytes[1 + slot] = tag(table, key);
    u64::from_le_bytes(bytes)
}

/// What a sound table has for the taken slots and keys of a bucket in use.
pub fn meant_token(table: &[u64], bucket: usize) -> u64 {
    let mut bytes = [0; 8];
    for slot in (0..4).filter(|&slot| is_taken(table, bucket, slot)) {
        bytes[0] |= 1 << slot;
        bytes[1 + slot] = tag(table, key_at(table, bucket, slot));
    }
    u64::from_le_bytes(bytes)
}

/// All token words are those that soundness asks for.
pub fn all_tokens_are_meant(table: &[u64]) -> bool {
    let in_use: Vec<usize> = levels_in_use(table).flat_map(|level| buckets_of(table, level)).collect();
    let meant = |bucket| if in_use.contains(&bucket) { meant_token(table, bucket) } else { 0 };
    (0..(table.len() - 9) / 13).all(|bucket| table[9 + 13 * bucket] == meant(bucket))
}

/// The numbers of the levels in use: top, bottom and, while growing or shrinking, interim.
pub fn levels_in_use(table: &[u64]) -> Range<u64> {
    0..if table[4] < 256 { 2 } else { 3 }
}

/// "A level of M buckets is always buckets M − 1 to 2M − 2." The bottom has half the buckets of the top. The interim
/// level has a quarter of them while growing, and twice as many while shrinking.
pub fn buckets_of(table: &[u64], level: u64) -> Range<usize> {
    let top_size = 1 << (table[4] % 256);
    let size = match level {
        0 => top_size,
        1 => top_size / 2,
        _ if table[4] < 512 => top_size / 4,
        _ => top_size * 2,
    };
    size - 1..2 * size - 1
}

/// The level and bucket of each place of a key, in probe order.
pub fn places_in_probe_order(table: &[u64], key: u64) -> Vec<(u64, usize)> {
    let mut places = vec![];
    for level in levels_in_use(table) {
        let buckets = buckets_of(table, level);
        for which in [1, 2] {
            let place = (level, buckets.start + hash(table, which, key) % buckets.len());
            if !places.contains(&place) {
                places.push(place);
            }
        }
    }
    places
}

/// The number and the words of a query that reads every taken slot of the key's places.
pub fn query_reading_every_slot(table: &[u64], key: u64) -> (u64, [u64; 5]) {
    query_reading(table, key, |_bucket, _slot| true)
}

/// The number and the words of a query that reads only the taken slots whose tag fits.
pub fn query_by_tag(table: &[u64], key: u64) -> (u64, [u64; 5]) {
    let tag = tag(table, key);
    query_reading(table, key, |bucket, slot| token_bytes(table, bucket)[1 + slot] == tag)
}

fn query_reading(table: &[u64], key: u64, reads: impl Fn(usize, usize) -> bool) -> (u64, [u64; 5]) {
    let places = places_in_probe_order(table, key);
    for (number, &(level, bucket)) in places.iter().enumerate() {
        for slot in 0..4 {
            if is_taken(table, bucket, slot) && reads(bucket, slot) && key_at(table, bucket, slot) == key {
                let key_word = 9 + 13 * bucket + 1 + 3 * slot;
                let [function, place] = [table[key_word + 1], table[key_word + 2]];
                return (0, [function, place, number as u64 + 1, key_word as u64, level]);
            }
        }
    }
    (5, [0, 0, places.len() as u64, 0, 0])
}
