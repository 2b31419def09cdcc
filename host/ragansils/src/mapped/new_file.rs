//! A file that gets its name when it is whole.

use std::ffi::OsString;
use std::fs::{self, File, OpenOptions};
use std::io;
use std::mem::size_of;
use std::path::{Path, PathBuf};

use super::mapping::{exists_error, take_room};
use super::{FileError, MappedFile};
use crate::creation::is_table_length;

/// A file for a table that is being made, with another name than the one that it will have.
///
/// A cut in creation or conversion is not covered by recovery. So the words are written under another name in the same folder (the file's,
/// with the process id and `.new` behind it), and [`link`](NewFile::link) gives them their own name when they are on the disk. A cut leaves
/// no file of that name, or a whole one, and at worst the file with the other name, which may be removed. Where this value is dropped
/// instead, no file is left.
///
/// [`MappedFile::create`] and [`MappedFile::convert`] do all of it. By hand, for whoever wants to look on or to add something:
///
/// ```
/// use ragansils::{Creation, MappedFile, NewFile, OrdinaryMemory, Record, Table};
///
/// # let folder = std::env::temp_dir().join(format!("ragansils-new-{}", std::process::id()));
/// # std::fs::create_dir_all(&folder)?;
/// # let path = folder.join("positions.table");
/// let creation = Creation::new(8, 1);
/// let new = NewFile::make(&path, creation.words().ok_or("no such capacity")?)?;
/// let mut table = Table::create(new, &creation, OrdinaryMemory)?;
/// table.insert(1.into(), Record { function: 7, place: 120 })?;
/// assert!(!path.exists());
///
/// let (new, _) = table.into_parts();
/// let file: MappedFile = new.link()?;
/// assert!(path.exists());
/// # drop(file);
/// # std::fs::remove_dir_all(&folder)?;
/// # Ok::<(), Box<dyn std::error::Error>>(())
/// ```
#[derive(Debug)]
pub struct NewFile {
    mapped: MappedFile,
    unfinished: UnfinishedName,
    path: PathBuf,
    /// It is opened first, so that nothing but the disk can fail behind the link.
    folder: File,
}

impl NewFile {
    /// Makes a file of so many words, all 0, which is to have this name: a table's number of words, and a name that nothing has yet.
    pub fn make(path: impl AsRef<Path>, words: usize) -> Result<NewFile, FileError> {
        let path = path.as_ref().to_path_buf();
        let bytes = words.saturating_mul(size_of::<u64>()) as u64;
        if !is_table_length(words) {
            return Err(FileError::Length(bytes));
        }
        // So early only to spare the work: the link sees to it that nothing is replaced.
        if path.symlink_metadata().is_ok() {
            return Err(exists_error().into());
        }
        let folder = File::open(folder_of(&path))?;
        let (file, unfinished) = unfinished_file(&path)?;
        take_room(&file, bytes)?;
        let mapped = MappedFile::map(file)?;
        Ok(NewFile { mapped, unfinished, path, folder })
    }

    /// Opens the file once more, for reading only, so that a thread can look at it while its words are written. To read what was not written
    /// yet makes the writing slower.
    pub fn reader(&self) -> io::Result<File> {
        File::open(&self.unfinished.0)
    }

    /// Writes the words to the disk, waits for it, and gives the file its name. A file that has the name by now is not replaced. With an
    /// error no file is left.
    pub fn link(self) -> Result<MappedFile, FileError> {
        let NewFile { mapped, unfinished, path, folder } = self;
        mapped.sync()?;
        mapped.file().sync_all()?;
        // Unlike a renaming, a link does not replace a file.
        fs::hard_link(&unfinished.0, &path)?;
        drop(unfinished);
        folder.sync_all().map_err(|error| {
            let _ = fs::remove_file(&path);
            error
        })?;
        Ok(mapped)
    }
}

impl AsRef<[u64]> for NewFile {
    fn as_ref(&self) -> &[u64] {
        self.mapped.as_ref()
    }
}

impl AsMut<[u64]> for NewFile {
    fn as_mut(&mut self) -> &mut [u64] {
        self.mapped.as_mut()
    }
}

/// The other name of a file, which goes with this value: the file has its own name by then, or is not wanted.
#[derive(Debug)]
struct UnfinishedName(PathBuf);

impl Drop for UnfinishedName {
    fn drop(&mut self) {
        // Where that fails, a name is left that nobody goes by.
        let _ = fs::remove_file(&self.0);
    }
}

/// An empty file with a name of its own. A name that is there may be another thread's, or left from a process that had the same id: neither
/// is touched.
fn unfinished_file(path: &Path) -> io::Result<(File, UnfinishedName)> {
    let mut attempts = 0;
    loop {
        let name = unfinished_name(path, attempts);
        match OpenOptions::new().read(true).write(true).create_new(true).open(&name) {
            Ok(file) => return Ok((file, UnfinishedName(name))),
            Err(error) if error.kind() == io::ErrorKind::AlreadyExists => attempts += 1,
            Err(error) => return Err(error),
        }
    }
}

fn unfinished_name(path: &Path, attempts: u64) -> PathBuf {
    let process = std::process::id();
    let mut name = OsString::from(path);
    name.push(match attempts {
        0 => format!(".{process}.new"),
        _ => format!(".{process}.{attempts}.new"),
    });
    PathBuf::from(name)
}

fn folder_of(path: &Path) -> &Path {
    let folder = path.parent().filter(|folder| !folder.as_os_str().is_empty());
    folder.unwrap_or(Path::new("."))
}
