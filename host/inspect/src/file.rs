//! The words of a file, as they stand at one moment.

use std::fs::File;
use std::io::{self, Read};
use std::path::Path;

use ragansils::{length_of_plain_file, words_of};
use ragansils_model::table_words;

pub const BYTES_PER_WORD: u64 = 8;

/// How often a file that changes while it is read is read again.
const TRIES: usize = 5;

pub struct Content {
    /// The file's length in bytes.
    pub length: u64,
    /// Its whole words, in the machine's byte order; no more than the largest table has.
    pub words: Vec<u64>,
    /// Whether it never stood still while it was read.
    pub changing: bool,
}

/// Reads a file until it is the same twice, so that a collector at work is not taken for damage.
pub fn read(path: &Path) -> io::Result<Content> {
    read_still(|| read_once(path))
}

fn read_still(mut read_once: impl FnMut() -> io::Result<Content>) -> io::Result<Content> {
    let mut content = read_once()?;
    for _ in 0..TRIES {
        let again = read_once()?;
        if again.words == content.words && again.length == content.length {
            return Ok(again);
        }
        content = again;
    }
    Ok(Content { changing: true, ..content })
}

fn read_once(path: &Path) -> io::Result<Content> {
    let file = File::open(path)?;
    let length = length_of_plain_file(&file)?;
    let largest = table_lengths().map(|(_, bytes)| bytes).max().unwrap_or(0);
    let mut bytes = vec![];
    file.take(largest).read_to_end(&mut bytes)?;
    Ok(Content { length, words: words_of(&bytes), changing: false })
}

/// Every capacity exponent with the bytes of its table.
pub fn table_lengths() -> impl Iterator<Item = (u64, u64)> {
    (1..).map_while(|capacity| table_words(capacity).map(|words| (capacity, BYTES_PER_WORD * words as u64)))
}

#[cfg(test)]
mod tests {
    use super::*;

    /// What is read of a file whose only word is another one in the first so many readings.
    fn read_with_changes(changes: u64) -> Content {
        let mut readings = 0;
        let content = read_still(|| {
            readings += 1;
            Ok(Content { length: BYTES_PER_WORD, words: vec![readings.min(changes)], changing: false })
        });
        content.unwrap()
    }

    #[test]
    fn a_file_is_read_until_it_stands_still() {
        let still = read_with_changes(3);
        assert_eq!((still.words, still.changing), (vec![3], false));
        assert!(read_with_changes(u64::MAX).changing);
    }
}
