//! A table's words as a file has them: in the byte order of the machine.

use std::fs::File;
use std::io;
use std::mem::size_of;

/// The length of a file in bytes; an error where it is no plain file, such as a folder.
pub fn length_of_plain_file(file: &File) -> io::Result<u64> {
    let metadata = file.metadata()?;
    match metadata.is_file() {
        true => Ok(metadata.len()),
        false => Err(io::Error::new(io::ErrorKind::InvalidInput, "not a plain file")),
    }
}

/// The whole words of some bytes; what is left over at the end is left out.
pub fn words_of(bytes: &[u8]) -> Vec<u64> {
    let word = |bytes: &[u8]| bytes.try_into().map_or(0, u64::from_ne_bytes);
    bytes.chunks_exact(size_of::<u64>()).map(word).collect()
}

/// The bytes of some words.
///
/// ```
/// use ragansils::{bytes_of, words_of};
///
/// assert_eq!(bytes_of(&[1, 2]).len(), 16);
/// assert_eq!(words_of(&bytes_of(&[1, 2])), [1, 2]);
/// ```
pub fn bytes_of(words: &[u64]) -> Vec<u8> {
    words.iter().flat_map(|word| word.to_ne_bytes()).collect()
}
