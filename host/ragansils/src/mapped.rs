//! The words of a table in a file, mapped into memory.

mod error;
mod mapping;
mod new_file;
mod read_only;

use std::fs::{File, OpenOptions};
use std::io;
use std::path::Path;

use crate::{calls, Creation, Refusal};
use mapping::{Access, Mapping};

pub use error::FileError;
pub use new_file::NewFile;
pub use read_only::ReadOnlyFile;

/// The words of a table in a file, mapped and shared: a store is in the file at once for every other process, and stays where this
/// process ends. When the machine loses power, what reached the disk is another matter; [`sync`](MappedFile::sync) waits for it.
///
/// Words are in the byte order of the machine. The file is locked (`flock`) while it is open, so that no second `MappedFile` has it.
/// A program that passes the lock over can still change the file or make it shorter under this one; the calls bear any words, but to
/// read behind the end of a file that became shorter ends the process.
#[derive(Debug)]
pub struct MappedFile(Mapping);

impl MappedFile {
    /// Makes a file with an empty table, and opens it. A file that is there already is not touched.
    ///
    /// A cut in creation is not covered by recovery. So the table is made under another name, as [`NewFile`] tells: a cut leaves no file of
    /// its own name, or a whole one.
    pub fn create(path: impl AsRef<Path>, creation: &Creation) -> Result<MappedFile, FileError> {
        let words = creation.words().ok_or(FileError::Refused(Refusal::BadCreation))?;
        let mut new = NewFile::make(path, words)?;
        calls::create(new.as_mut(), creation).map_err(FileError::Refused)?;
        new.link()
    }

    /// Makes a file with the other form of a table, and opens it: with the same capacity exponent, top, multipliers and items
    /// ([`Table::convert`](crate::Table::convert)). A file that is there already is not touched, and the table is only read.
    ///
    /// The file is made as by [`create`](MappedFile::create). So a cut leaves no file of its name, or a whole one, and a refusal leaves none:
    /// [`FileError::Unconverted`] says which.
    ///
    /// ```
    /// use ragansils::{Creation, Form, MappedFile, OrdinaryMemory, ReadOnlyFile, Record, Table};
    ///
    /// # let folder = std::env::temp_dir().join(format!("ragansils-convert-{}", std::process::id()));
    /// # std::fs::create_dir_all(&folder)?;
    /// # let (path, new_path) = (folder.join("positions.table"), folder.join("positions-2.table"));
    /// # let creation = Creation { form: Form::One, ..Creation::new(8, 1) };
    /// # let mut table = Table::open(MappedFile::create(&path, &creation)?, OrdinaryMemory)?;
    /// # table.insert(1.into(), Record { function: 7, place: 120 })?;
    /// # drop(table);
    /// // A file of form 1; no collector has it open.
    /// let old = ReadOnlyFile::open(&path)?;
    /// let new = MappedFile::convert(&new_path, old.as_ref())?;
    /// let table = Table::open(new, OrdinaryMemory)?;
    /// assert_eq!(table.form()?, Form::Two);
    /// assert_eq!(table.query(1.into())?.record(), Some(Record { function: 7, place: 120 }));
    /// # drop(table);
    /// # std::fs::remove_dir_all(&folder)?;
    /// # Ok::<(), Box<dyn std::error::Error>>(())
    /// ```
    ///
    /// A collector that has the table open hands over its words, `table.words()`, and so needs no second opening.
    pub fn convert(path: impl AsRef<Path>, source: &[u64]) -> Result<MappedFile, FileError> {
        let mut new = NewFile::make(path, source.len())?;
        calls::convert(source, new.as_mut())?;
        new.link()
    }

    /// Opens a file whose length is a table's. What its words hold is looked at by [`Table::open`](crate::Table::open).
    pub fn open(path: impl AsRef<Path>) -> Result<MappedFile, FileError> {
        let file = OpenOptions::new().read(true).write(true).open(path)?;
        MappedFile::map(file)
    }

    /// Writes all words to the disk and waits for it.
    pub fn sync(&self) -> io::Result<()> {
        self.0.sync()
    }

    fn map(file: File) -> Result<MappedFile, FileError> {
        Mapping::of(file, Access::Write).map(MappedFile)
    }

    fn file(&self) -> &File {
        self.0.file()
    }
}

impl AsRef<[u64]> for MappedFile {
    fn as_ref(&self) -> &[u64] {
        self.0.words()
    }
}

impl AsMut<[u64]> for MappedFile {
    fn as_mut(&mut self) -> &mut [u64] {
        // SAFETY: every MappedFile is mapped for writing.
        unsafe { self.0.words_mut() }
    }
}
