//! A table's words in a file that is only read.

use std::fs::File;
use std::path::Path;

use super::mapping::{Access, Mapping};
use super::FileError;

/// The words of a table in a file that is only read, mapped: to ask it under a newer table ([`Overlay`](crate::Overlay)), to convert it
/// ([`MappedFile::convert`](crate::MappedFile::convert)), or to look at it by [`calls`](crate::calls).
///
/// The file is opened and mapped for reading alone, so that one whose permissions allow nothing else will do. It is locked (`flock`) while it
/// is open, so that no [`MappedFile`](crate::MappedFile) has it; others may read it too.
///
/// ```
/// use ragansils::{calls, Creation, FileError, MappedFile, ReadOnlyFile};
///
/// # let folder = std::env::temp_dir().join(format!("ragansils-read-{}", std::process::id()));
/// # std::fs::create_dir_all(&folder)?;
/// # let path = folder.join("positions.table");
/// # drop(MappedFile::create(&path, &Creation::new(8, 1))?);
/// let file = ReadOnlyFile::open(&path)?;
/// assert_eq!(calls::query(file.as_ref(), 1.into())?.record(), None);
/// assert!(matches!(MappedFile::open(&path), Err(FileError::InUse)));
/// # std::fs::remove_dir_all(&folder)?;
/// # Ok::<(), Box<dyn std::error::Error>>(())
/// ```
#[derive(Debug)]
pub struct ReadOnlyFile(Mapping);

impl ReadOnlyFile {
    /// Opens a file whose length is a table's. What its words hold is not looked at.
    pub fn open(path: impl AsRef<Path>) -> Result<ReadOnlyFile, FileError> {
        Mapping::of(File::open(path)?, Access::Read).map(ReadOnlyFile)
    }

    /// The open file, to ask the system about it.
    pub fn file(&self) -> &File {
        self.0.file()
    }
}

impl AsRef<[u64]> for ReadOnlyFile {
    fn as_ref(&self) -> &[u64] {
        self.0.words()
    }
}
