//! Rust's `HashMap`: with the hasher that it has by itself, and with one multiplication, as a level table hashes. The
//! calls are kept out of line: the others' stand behind a library's boundary.

use std::collections::hash_map::Entry;
use std::collections::hash_map::RandomState;
use std::collections::HashMap;
use std::hash::{BuildHasher, BuildHasherDefault, Hasher};

use ragansils_counts::Record;

use super::Peer;

/// A product's high bits stand in the low ones too, which choose the place.
#[derive(Default)]
pub struct Multiplying(u64);

impl Hasher for Multiplying {
    fn finish(&self) -> u64 {
        self.0
    }

    fn write(&mut self, _: &[u8]) {
        unreachable!("keys are words");
    }

    fn write_u64(&mut self, key: u64) {
        let product = key.wrapping_mul(0x9e37_79b9_7f4a_7c15);
        self.0 = product ^ (product >> 32);
    }
}

struct Standard<B> {
    name: &'static str,
    map: HashMap<u64, Record, B>,
}

impl<B: BuildHasher> Peer for Standard<B> {
    fn name(&self) -> &'static str {
        self.name
    }

    #[inline(never)]
    fn get(&self, key: u64) -> Option<Record> {
        self.map.get(&key).copied()
    }

    #[inline(never)]
    fn insert(&mut self, key: u64, record: Record) -> bool {
        match self.map.entry(key) {
            Entry::Occupied(_) => false,
            Entry::Vacant(place) => {
                place.insert(record);
                true
            }
        }
    }

    #[inline(never)]
    fn update(&mut self, key: u64, record: Record) -> bool {
        self.map.get_mut(&key).map(|old| *old = record).is_some()
    }

    #[inline(never)]
    fn remove(&mut self, key: u64) -> bool {
        self.map.remove(&key).is_some()
    }

    fn grow(&mut self) -> bool {
        // One item more than there is room for makes it double.
        self.map.reserve(self.map.capacity() - self.map.len() + 1);
        true
    }

    fn after_growth(&mut self) {
        self.map.shrink_to_fit();
    }
}

pub fn all(items: usize) -> Vec<Box<dyn Peer>> {
    let usual: HashMap<u64, Record, RandomState> = HashMap::with_capacity(items);
    let quick: HashMap<u64, Record, BuildHasherDefault<Multiplying>> =
        HashMap::with_capacity_and_hasher(items, Default::default());
    vec![
        Box::new(Standard { name: "HashMap", map: usual }),
        Box::new(Standard { name: "HashMap, quick hash", map: quick }),
    ]
}
