//! The tables that are asked, the keys that they are asked for, and both ways to ask: by one call for both tables, and by queries.

use ragansils::raw::{self, TablePart};
use ragansils::Lookup;
use ragansils_compare::random::Random;
use ragansils_counts::plan::HIGH_LOAD;
use ragansils_counts::{draw, full_size, items_at, Keys, Kind, LevelTable};
use ragansils_model::{Refusal, SUCCESS};
use ragansils_twin::Proved;

use super::Asked;

/// One key in so many is of the newer table, where keys of both are asked for.
const NEWER_ONE_IN: u64 = 10;

/// An older table and some newer ones, no two of which have a key in common.
pub struct Built {
    older: LevelTable<Proved>,
    newer: Vec<LevelTable<Proved>>,
    keys: Keys,
    /// Where the keys of the older table end, and of each newer one.
    ends: Vec<usize>,
}

impl Built {
    pub fn new(
        random: &mut Random,
        form: u64,
        c: u64,
        newer: Vec<u64>,
        absent: usize,
    ) -> Result<Built, String> {
        let settings: Vec<_> = [c].into_iter().chain(newer).map(|c| full_size(random, form, c)).collect();
        let mut ends = vec![];
        for &setting in &settings {
            ends.push(ends.last().unwrap_or(&0) + items_at(setting, HIGH_LOAD));
        }
        let keys = Keys::new(random, Kind::Random, *ends.last().unwrap_or(&0), absent);
        let mut tables = vec![];
        for (at, setting) in settings.into_iter().enumerate() {
            let mut table = LevelTable::new(Proved::default(), setting);
            table.fill(&keys.present()[start(&ends, at)..ends[at]])?;
            tables.push(table);
        }
        let older = tables.remove(0);
        Ok(Built { older, newer: tables, keys, ends })
    }

    pub fn tables(&self, newer: usize) -> Tables<'_> {
        Tables { newer: &self.newer[newer].words, older: &self.older.words }
    }

    pub fn draw(&self, random: &mut Random, newer: usize, asked: Asked, length: usize) -> Vec<u64> {
        let of_table = |at: usize| &self.keys.present()[start(&self.ends, at)..self.ends[at]];
        let (older, newer) = (of_table(0), of_table(1 + newer));
        match asked {
            Asked::Newer => draw(random, newer, length),
            Asked::Older => draw(random, older, length),
            Asked::Neither => self.keys.draw_absent(random, length),
            Asked::Both => {
                let any =
                    |_| if random.one_in(NEWER_ONE_IN) { random.pick(newer) } else { random.pick(older) };
                (0..length).map(any).collect()
            }
        }
    }
}

fn start(ends: &[usize], at: usize) -> usize {
    at.checked_sub(1).map_or(0, |before| ends[before])
}

/// What is asked.
#[derive(Clone, Copy)]
pub struct Tables<'a> {
    newer: &'a [u64],
    older: &'a [u64],
}

impl Tables<'_> {
    pub fn asked(self, keys: &[u64]) -> u64 {
        let Tables { newer, older } = self;
        let mut sum = 0;
        for &key in keys {
            let mut answer = [0; 2];
            // SAFETY: each table's pointer is valid for the length beside it, and the answer is a buffer of its own.
            let number = unsafe {
                raw::ragansils_asked(
                    newer.as_ptr(),
                    newer.len(),
                    older.as_ptr(),
                    older.len(),
                    key,
                    &mut answer,
                )
            };
            sum = with_answer(sum, number, answer[0], answer[1]);
        }
        sum
    }

    pub fn asked_by_queries(self, keys: &[u64]) -> u64 {
        let mut sum = 0;
        for &key in keys {
            let mut answer = [0; Lookup::WORDS];
            let (mut number, mut name, mut buckets) = (query(self.newer, key, &mut answer), 0, answer[2]);
            if number == Refusal::KeyAbsent.number() {
                (number, name) = (query(self.older, key, &mut answer), 1);
                buckets += answer[2];
            }
            sum = with_answer(sum, number, name, buckets);
        }
        sum
    }

    /// The record is read where it stands.
    pub fn parts(self, keys: &[u64]) -> u64 {
        let Tables { newer, older } = self;
        let mut sum = 0;
        for &key in keys {
            let mut part = TablePart { words: newer.as_ptr(), length: 0 };
            // SAFETY: each table's pointer is valid for the length beside it, and the part is a buffer of its own. Where it has three
            // words, these are words of one of the tables.
            sum = unsafe {
                raw::ragansils_part(newer.as_ptr(), newer.len(), older.as_ptr(), older.len(), key, &mut part);
                match part.length {
                    3 => with_record(sum, *part.words.add(1), *part.words.add(2)),
                    _ => sum,
                }
            };
        }
        sum
    }

    pub fn parts_by_queries(self, keys: &[u64]) -> u64 {
        let mut sum = 0;
        for &key in keys {
            let mut answer = [0; Lookup::WORDS];
            let mut number = query(self.newer, key, &mut answer);
            if number == Refusal::KeyAbsent.number() {
                number = query(self.older, key, &mut answer);
            }
            if number == SUCCESS {
                sum = with_record(sum, answer[0], answer[1]);
            }
        }
        sum
    }
}

#[inline(always)]
fn query(table: &[u64], key: u64, answer: &mut [u64; Lookup::WORDS]) -> u64 {
    // SAFETY: the table's pointer is valid for the length beside it, and the answer is a buffer of its own.
    unsafe { raw::ragansils_query(table.as_ptr(), table.len(), key, answer) }
}

fn with_answer(sum: u64, number: u64, name: u64, buckets: u64) -> u64 {
    sum.wrapping_add(number << 32 | name << 16 | buckets)
}

fn with_record(sum: u64, function: u64, place: u64) -> u64 {
    sum.wrapping_add(function ^ place)
}
