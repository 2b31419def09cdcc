//! A file's words in memory, and what is asked of the system for them.

use std::fs::File;
use std::io;
use std::mem::size_of;
use std::os::raw::{c_int, c_void};
use std::os::unix::io::AsRawFd;
use std::ptr::{self, NonNull};

use super::FileError;
use crate::bytes::length_of_plain_file;
use crate::creation::is_table_length;

/// What is used of the C library, which the standard library links on Linux; the constants are those of Linux.
mod c {
    use super::{c_int, c_void};

    pub const PROT_READ: c_int = 1;
    pub const PROT_WRITE: c_int = 2;
    pub const MAP_SHARED: c_int = 1;
    pub const MS_SYNC: c_int = 4;
    pub const LOCK_SH: c_int = 1;
    pub const LOCK_EX: c_int = 2;
    pub const LOCK_NB: c_int = 4;
    pub const EEXIST: c_int = 17;

    extern "C" {
        pub fn mmap(
            at: *mut c_void,
            length: usize,
            protection: c_int,
            flags: c_int,
            file: c_int,
            offset: i64,
        ) -> *mut c_void;
        pub fn munmap(at: *mut c_void, length: usize) -> c_int;
        pub fn msync(at: *mut c_void, length: usize, flags: c_int) -> c_int;
        pub fn flock(file: c_int, operation: c_int) -> c_int;
        pub fn posix_fallocate(file: c_int, offset: i64, length: i64) -> c_int;
    }
}

/// What the words are for. Several may read a file at a time; whoever writes has it alone.
#[derive(Clone, Copy, Debug, PartialEq, Eq)]
pub enum Access {
    Read,
    Write,
}

/// The words of a file that has a table's length, mapped, shared and locked.
#[derive(Debug)]
pub struct Mapping {
    words: NonNull<u64>,
    count: usize,
    /// Holds the lock.
    file: File,
}

// SAFETY: the mapping belongs to this value alone, and a shared reference only reads it.
unsafe impl Send for Mapping {}
unsafe impl Sync for Mapping {}

impl Mapping {
    /// The file is open for this access.
    pub fn of(file: File, access: Access) -> Result<Mapping, FileError> {
        lock(&file, access)?;
        let bytes = length_of_plain_file(&file)?;
        let count = count_of_words(bytes).ok_or(FileError::Length(bytes))?;
        let protection = match access {
            Access::Read => c::PROT_READ,
            Access::Write => c::PROT_READ | c::PROT_WRITE,
        };
        // SAFETY: a new mapping, at no address of our choice, takes nothing from anyone.
        let at = unsafe {
            c::mmap(ptr::null_mut(), bytes as usize, protection, c::MAP_SHARED, file.as_raw_fd(), 0)
        };
        // mmap answers -1 where it fails, and never page 0.
        match NonNull::new(at.cast::<u64>()) {
            Some(words) if at as isize != -1 => Ok(Mapping { words, count, file }),
            _ => Err(io::Error::last_os_error().into()),
        }
    }

    pub fn words(&self) -> &[u64] {
        // SAFETY: the mapping has so many words, aligned to a page, and lives as long as this value.
        unsafe { std::slice::from_raw_parts(self.words.as_ptr(), self.count) }
    }

    /// # Safety
    /// The words are mapped with `Access::Write`.
    pub unsafe fn words_mut(&mut self) -> &mut [u64] {
        // SAFETY: as above, and no one else refers to them while this value is borrowed for writing.
        std::slice::from_raw_parts_mut(self.words.as_ptr(), self.count)
    }

    /// Writes all words to the disk and waits for it.
    pub fn sync(&self) -> io::Result<()> {
        // SAFETY: these are the pages that were mapped.
        answered(unsafe { c::msync(self.words.as_ptr().cast(), self.bytes(), c::MS_SYNC) })
    }

    pub fn file(&self) -> &File {
        &self.file
    }

    fn bytes(&self) -> usize {
        self.count * size_of::<u64>()
    }
}

impl Drop for Mapping {
    fn drop(&mut self) {
        // SAFETY: the mapping is given back once, by its one owner. It cannot fail on what mmap gave.
        unsafe { c::munmap(self.words.as_ptr().cast(), self.bytes()) };
    }
}

/// The words of a file of so many bytes, if a table can have them.
fn count_of_words(bytes: u64) -> Option<usize> {
    let words = usize::try_from(bytes).ok()? / size_of::<u64>();
    let whole = words * size_of::<u64>() == bytes as usize;
    (whole && is_table_length(words)).then_some(words)
}

fn lock(file: &File, access: Access) -> Result<(), FileError> {
    let kind = match access {
        Access::Read => c::LOCK_SH,
        Access::Write => c::LOCK_EX,
    };
    // SAFETY: the file is open.
    let locked = answered(unsafe { c::flock(file.as_raw_fd(), kind | c::LOCK_NB) });
    locked.map_err(|error| match error.kind() {
        io::ErrorKind::WouldBlock => FileError::InUse,
        _ => FileError::System(error),
    })
}

/// Makes an empty file so long, and takes that room on the disk: where a disk is full, to write to a mapped word that has no room yet
/// ends the process.
pub fn take_room(file: &File, bytes: u64) -> io::Result<()> {
    loop {
        // SAFETY: the file is open.
        match unsafe { c::posix_fallocate(file.as_raw_fd(), 0, bytes as i64) } {
            0 => return Ok(()),
            // Unlike its neighbours this function answers the error itself.
            number => match io::Error::from_raw_os_error(number) {
                error if error.kind() == io::ErrorKind::Interrupted => continue,
                error => return Err(error),
            },
        }
    }
}

/// What the system says of a new name that is there already.
pub fn exists_error() -> io::Error {
    io::Error::from_raw_os_error(c::EEXIST)
}

/// What a function of the C library answered: 0, or else see errno.
fn answered(answer: c_int) -> io::Result<()> {
    match answer {
        0 => Ok(()),
        _ => Err(io::Error::last_os_error()),
    }
}
