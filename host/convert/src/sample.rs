//! How much of a table stands in a file, by an even sample of its buckets.

use std::fs::File;
use std::io;
use std::ops::Range;
use std::os::unix::fs::FileExt;

use ragansils_model::{word, Slot, SLOTS_PER_BUCKET};

use crate::facts::Facts;

const BYTES_PER_WORD: usize = 8;

/// Where the form stands in the file.
const FORM: u64 = (BYTES_PER_WORD * word::FORM) as u64;

/// So many buckets are looked at: enough to be right by a few percent, and done within a millisecond.
const MOST: usize = 512;

pub struct Sample {
    /// Where the token words of the sampled buckets stand in the file, in bytes.
    tokens: Vec<u64>,
    /// The number of all buckets.
    buckets: usize,
}

impl Sample {
    pub fn of(facts: &Facts) -> Sample {
        let token = |bucket| (BYTES_PER_WORD * Slot { bucket, number: 0 }.token_word()) as u64;
        let tokens = evenly(&facts.buckets, MOST).into_iter().map(token).collect();
        Sample { tokens, buckets: facts.buckets.len() }
    }

    /// About how many percent of so many items stand in the file; nothing where none was seen.
    ///
    /// Creation zeroes all words before it writes the header, and only then the sample is looked at. Where the system has to make up what was
    /// not written yet, it does so in small pages, and to zero these takes several times as long.
    pub fn percent(&self, file: &File, items: u64) -> io::Result<Option<u64>> {
        if word_at(file, FORM)? == 0 {
            return Ok(None);
        }
        let mut taken = 0;
        for &at in &self.tokens {
            taken += taken_slots(word_at(file, at)?);
        }
        Ok(percent(taken, self.tokens.len(), self.buckets, items))
    }
}

/// Read by the system, and not through the mapping by which it is written.
fn word_at(file: &File, at: u64) -> io::Result<u64> {
    let mut bytes = [0; BYTES_PER_WORD];
    file.read_exact_at(&mut bytes, at)?;
    Ok(u64::from_ne_bytes(bytes))
}

/// In both forms the lowest four bits of a token word tell which slots are taken.
fn taken_slots(token: u64) -> u64 {
    let bits = (1 << SLOTS_PER_BUCKET) - 1;
    u64::from((token & bits).count_ones())
}

/// At most so many numbers of a range, evenly apart, the first among them.
fn evenly(range: &Range<usize>, most: usize) -> Vec<usize> {
    let count = range.len().min(most);
    (0..count).map(|number| range.start + number * range.len() / count).collect()
}

/// From the taken slots of some buckets to all of them. It is not more than 99, since whoever is done knows it otherwise.
fn percent(taken: u64, sampled: usize, buckets: usize, items: u64) -> Option<u64> {
    if taken == 0 {
        return None;
    }
    let expected = (sampled as u64 * items).max(1);
    Some((100 * taken * buckets as u64 / expected).min(99))
}

#[cfg(test)]
mod tests {
    use super::*;
    use std::fs;

    use ragansils::{bytes_of, Creation, OrdinaryMemory, Record, Table};

    #[test]
    fn a_sample_is_even_and_whole_where_there_are_few() {
        assert_eq!(evenly(&(3..8), 10), [3, 4, 5, 6, 7]);
        assert_eq!(evenly(&(0..10), 5), [0, 2, 4, 6, 8]);
        assert_eq!(evenly(&(1..11), 4), [1, 3, 6, 8]);
        assert_eq!(evenly(&(5..6), 1), [5]);
        assert_eq!(evenly(&(5..5), 9), []);
        let large = evenly(&((1 << 19) - 1..(1 << 21) - 1), MOST);
        assert_eq!((large.len(), large[0], large[MOST - 1]), (MOST, (1 << 19) - 1, (1 << 21) - 1 - 3072));
    }

    #[test]
    fn a_part_of_the_items_is_told_in_percent() {
        assert_eq!(percent(0, 512, 3 << 19, 4_000_000), None);
        // Of 12 buckets, 3 were looked at.
        assert_eq!(percent(1, 3, 12, 40), Some(10));
        assert_eq!(percent(5, 3, 12, 40), Some(50));
        assert_eq!(percent(9, 3, 12, 40), Some(90));
        // By chance more than there are.
        assert_eq!(percent(12, 3, 12, 40), Some(99));
        assert_eq!(percent(1, 3, 12, 0), Some(99));
        // The largest table, full.
        assert_eq!(percent(4 * 512, 512, 3 << 19, 3 << 21), Some(99));
        assert_eq!(percent(512, 512, 3 << 19, 3 << 21), Some(25));
        assert_eq!(percent(1, 512, 3 << 19, 3 << 21), Some(0));
    }

    #[test]
    fn token_words_are_read_in_either_form() {
        assert_eq!([0, 5, 15, 16, 0xa7_ca00_840d].map(taken_slots), [0, 2, 4, 0, 3]);
    }

    /// While a file is filled, the percentage rises with it.
    #[test]
    fn a_file_is_looked_at_while_it_is_filled() {
        const KEYS: u64 = 8000;
        let creation = Creation::new(11, 11);
        let words = vec![0; creation.words().unwrap()];
        let mut table = Table::create(words, &creation, OrdinaryMemory).unwrap();
        let mut contents = vec![bytes_of(table.words())];
        for key in 0..KEYS {
            table.insert((0x5555_0000_1000 + 1024 * key).into(), Record::default()).unwrap();
            if (key + 1) % (KEYS / 4) == 0 {
                contents.push(bytes_of(table.words()));
            }
        }
        let sample = Sample::of(&Facts::of(table.words()).unwrap());
        let path = std::env::temp_dir().join(format!("ragansils-sample-{}", std::process::id()));
        let look = |content| {
            fs::write(&path, content).unwrap();
            sample.percent(&File::open(&path).unwrap(), KEYS).unwrap()
        };
        let told: Vec<Option<u64>> = contents.into_iter().map(look).collect();
        // Words that were not created yet: behind the first nothing is read, or it would be missed.
        fs::write(&path, [0; BYTES_PER_WORD]).unwrap();
        assert_eq!(sample.percent(&File::open(&path).unwrap(), KEYS).unwrap(), None);
        fs::write(&path, [1; BYTES_PER_WORD]).unwrap();
        assert!(sample.percent(&File::open(&path).unwrap(), KEYS).is_err());
        fs::remove_file(&path).unwrap();
        let near = |told: Option<u64>, percent: u64| told.map_or(false, |told| told.abs_diff(percent) <= 5);
        assert_eq!(told[0], None);
        assert!((1..5).all(|part| near(told[part], 25 * part as u64)), "{told:?}");
    }
}
