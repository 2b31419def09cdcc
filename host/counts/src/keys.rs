//! The keys of a run: those that come into the tables, in order, and those that never do.

use ragansils_compare::random::Random;

#[derive(Clone, Copy, PartialEq, Eq)]
pub enum Kind {
    /// Any 64-bit words.
    Random,
    /// What a collector has: code addresses times 256, each with the inlining depths from 0 on.
    Collector,
}

impl Kind {
    pub fn name(self) -> &'static str {
        match self {
            Kind::Random => "random keys",
            Kind::Collector => "collector's keys",
        }
    }
}

/// Where a program's code may begin, and how far apart two sampled addresses are at most.
const CODE_START: u64 = 0x5555_5540_0000;
const LONGEST_GAP: u64 = 16;
const MOST_DEPTHS: u64 = 4;

/// Distinct keys in random order.
pub struct Keys {
    pub kind: Kind,
    keys: Vec<u64>,
    absent_from: usize,
}

impl Keys {
    /// So many keys to be inserted, and so many that stay absent.
    pub fn new(random: &mut Random, kind: Kind, present: usize, absent: usize) -> Keys {
        let mut keys = match kind {
            Kind::Random => (0..present + absent).map(|_| random.word()).collect(),
            Kind::Collector => sampled_positions(random, present + absent),
        };
        shuffle(random, &mut keys);
        Keys { kind, keys, absent_from: present }
    }

    /// The keys that come in, in the order in which they do.
    pub fn present(&self) -> &[u64] {
        &self.keys[..self.absent_from]
    }

    /// A sequence of so many of the first `items` keys, drawn at random. It is long, so that no branch
    /// predictor learns it.
    pub fn draw_present(&self, random: &mut Random, items: usize, length: usize) -> Vec<u64> {
        draw(random, &self.keys[..items], length)
    }

    pub fn draw_absent(&self, random: &mut Random, length: usize) -> Vec<u64> {
        draw(random, &self.keys[self.absent_from..], length)
    }
}

/// So many code addresses, each once.
pub fn sampled_addresses(random: &mut Random, count: usize) -> Vec<u64> {
    let mut address = CODE_START;
    let mut addresses = Vec::with_capacity(count);
    while addresses.len() < count {
        address = next_address(random, address);
        addresses.push(address);
    }
    addresses
}

fn next_address(random: &mut Random, before: u64) -> u64 {
    before + 1 + random.below(LONGEST_GAP)
}

fn sampled_positions(random: &mut Random, count: usize) -> Vec<u64> {
    let mut address = CODE_START;
    let mut keys = Vec::with_capacity(count + MOST_DEPTHS as usize);
    while keys.len() < count {
        address = next_address(random, address);
        let depths = 1 + random.below(MOST_DEPTHS);
        keys.extend((0..depths).map(|depth| address * 256 + depth));
    }
    keys.truncate(count);
    keys
}

pub fn draw(random: &mut Random, keys: &[u64], length: usize) -> Vec<u64> {
    (0..length).map(|_| random.pick(keys)).collect()
}

pub fn shuffle(random: &mut Random, keys: &mut [u64]) {
    for end in (1..keys.len()).rev() {
        keys.swap(end, random.index(end + 1));
    }
}
