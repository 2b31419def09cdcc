//! How well each form spreads keys: the load at the first refusal 6, and how full the fullest buckets are before it.

use std::fmt::{self, Display};

use ragansils_compare::layout::FORMS;
use ragansils_compare::random::Random;
use ragansils_model::{Level, Table};
use ragansils_twin::Proved;

use crate::keys::shuffle;
use crate::level::{full_size, items_at, slots, LevelTable};
use crate::middle::Middle;

/// Where the keys come from.
#[derive(Clone, Copy, Debug, PartialEq, Eq)]
pub enum Source {
    /// Any 64-bit words.
    Random,
    /// What a collector has: code addresses so far apart, each with the inlining depths 0 to 7.
    Strided(u64),
}

pub const SOURCES: [Source; 4] =
    [Source::Random, Source::Strided(1), Source::Strided(4), Source::Strided(16)];

/// Where a program's code may begin.
const CODE_START: u64 = 0x5555_5540_0000;
const DEPTHS: u64 = 8;

/// At these loads the buckets of top and bottom are looked at: most are neither full nor empty. The bottom fills up last.
pub const LOAD_OF_TOP: f64 = 0.3;
pub const LOAD_OF_BOTTOM: f64 = 0.6;
/// The fullest tenth.
const SHARE: usize = 10;

impl Source {
    /// So many distinct keys in random order.
    fn keys(self, random: &mut Random, count: usize) -> Vec<u64> {
        let mut keys: Vec<u64> = match self {
            Source::Random => (0..count).map(|_| random.word()).collect(),
            Source::Strided(stride) => {
                let position = |index: u64| (CODE_START + index / DEPTHS * stride) * 256 + index % DEPTHS;
                (0..count as u64).map(position).collect()
            }
        };
        shuffle(random, &mut keys);
        keys
    }
}

impl Display for Source {
    fn fmt(&self, out: &mut fmt::Formatter) -> fmt::Result {
        match self {
            Source::Random => write!(out, "random keys"),
            Source::Strided(stride) => write!(out, "addresses {stride} apart, depths 0 to 7"),
        }
    }
}

/// What some tables of one form made of some keys.
pub struct Spread {
    pub form: u64,
    pub k: u64,
    pub source: Source,
    /// The load at the first refusal 6, of each table.
    pub first_refusal: Vec<f64>,
    /// The taken slots of a bucket in the fullest tenth of the top, and of the bottom, on average, in each table.
    pub top: Vec<f64>,
    pub bottom: Vec<f64>,
}

impl Spread {
    /// Both forms, with the same keys and multipliers.
    pub fn count(random: &mut Random, k: u64, source: Source, tables: usize) -> Result<Vec<Spread>, String> {
        let seeds: Vec<u64> = (0..tables).map(|_| random.word()).collect();
        let empty = |form| Spread { form, k, source, first_refusal: vec![], top: vec![], bottom: vec![] };
        let mut both = FORMS.map(empty);
        for spread in &mut both {
            for &seed in &seeds {
                spread.fill(&mut Random::new(seed))?;
            }
        }
        Ok(both.into())
    }

    fn fill(&mut self, random: &mut Random) -> Result<(), String> {
        let setting = full_size(random, self.form, self.k);
        let mut table = LevelTable::new(Proved::default(), setting);
        let keys = self.source.keys(random, slots(self.k) + 1);
        let [top_seen, bottom_seen] = [LOAD_OF_TOP, LOAD_OF_BOTTOM].map(|load| items_at(setting, load));
        for (items, &key) in keys.iter().enumerate() {
            let has_room = table.insert_new(key)?;
            let read = Table::read(&table.words).map_err(|refusal| format!("{refusal:?}"))?;
            // A table that is so crowded that it refuses before is looked at there.
            if items == top_seen || !has_room && items < top_seen {
                self.top.push(fullest_tenth(&read, read.top()));
            }
            if items == bottom_seen || !has_room && items < bottom_seen {
                self.bottom.push(fullest_tenth(&read, read.bottom()));
            }
            if !has_room {
                self.first_refusal.push(items as f64 / slots(self.k) as f64);
                return Ok(());
            }
        }
        Err(format!("a table of k = {} took more items than it has slots", self.k))
    }

    pub fn load(&self) -> f64 {
        Middle::of(self.first_refusal.iter().copied()).median
    }

    pub fn least_load(&self) -> f64 {
        self.first_refusal.iter().copied().fold(1.0, f64::min)
    }

    /// Of the top and of the bottom.
    pub fn fullest(&self) -> [f64; 2] {
        [&self.top, &self.bottom].map(|taken| Middle::of(taken.iter().copied()).median)
    }
}

/// The taken slots of a bucket in the fullest tenth of a level, on average. At least one bucket is looked at.
fn fullest_tenth(table: &Table, level: Level) -> f64 {
    let mut taken: Vec<u32> = level.buckets().map(|bucket| table.taken_count(bucket)).collect();
    taken.sort_unstable_by(|one, other| other.cmp(one));
    let fullest = &taken[..(taken.len() / SHARE).max(1)];
    f64::from(fullest.iter().sum::<u32>()) / fullest.len() as f64
}

#[cfg(test)]
mod tests {
    use super::*;
    use ragansils_compare::history::Setting;
    use std::collections::BTreeSet;

    #[test]
    fn collectors_keys_are_addresses_in_strides_with_eight_depths() {
        let keys: BTreeSet<u64> = Source::Strided(16).keys(&mut Random::new(1), 24).into_iter().collect();
        let expected =
            (0..3).flat_map(|address| (0..8).map(move |depth| (CODE_START + 16 * address) * 256 + depth));
        assert_eq!(keys, expected.collect());
    }

    #[test]
    fn both_forms_meet_the_same_keys() {
        let both = Spread::count(&mut Random::new(1), 6, Source::Random, 3).unwrap();
        assert_eq!([both[0].form, both[1].form], FORMS);
        for spread in &both {
            assert_eq!([spread.first_refusal.len(), spread.top.len(), spread.bottom.len()], [3; 3]);
            assert!(spread.load() > 0.7 && spread.least_load() <= spread.load());
            let [top, bottom] = spread.fullest();
            assert!((1.0..=4.0).contains(&top) && (0.0..=4.0).contains(&bottom));
        }
        assert_ne!(both[0].first_refusal, both[1].first_refusal);
    }

    #[test]
    fn the_fullest_tenth_is_that_of_its_level() {
        let setting = Setting { form: 1, c: 4, k: 4, mul1: 1 << 32 | 1, mul2: 1 << 32 | 1 };
        let mut table = LevelTable::new(Proved::default(), setting);
        // Both hashes are the key: four of bucket 0 of the top, a fifth goes to the bottom.
        table.fill(&[0, 16, 32, 48, 64, 1]).unwrap();
        let read = Table::read(&table.words).unwrap();
        assert_eq!(fullest_tenth(&read, read.top()), 4.0);
        assert_eq!(fullest_tenth(&read, read.bottom()), 1.0);
    }
}
