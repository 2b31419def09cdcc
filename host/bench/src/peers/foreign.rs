//! Tables in C and C++, through the functions of `c/peers.h`.

use std::ffi::{c_void, CString};
use std::os::raw::c_char;
use std::path::Path;

use ragansils_counts::Record;

use super::{Peer, CUCKOO};

/// A table's functions. Every pointer to a record is to two words.
struct Calls {
    name: &'static str,
    open: unsafe extern "C" fn(usize, *const c_char) -> *mut c_void,
    close: unsafe extern "C" fn(*mut c_void),
    get: unsafe extern "C" fn(*mut c_void, u64, *mut u64) -> bool,
    insert: unsafe extern "C" fn(*mut c_void, u64, *const u64) -> bool,
    update: unsafe extern "C" fn(*mut c_void, u64, *const u64) -> bool,
    remove: unsafe extern "C" fn(*mut c_void, u64) -> bool,
    /// Doubles the room, and halves it.
    resize: Option<[unsafe extern "C" fn(*mut c_void); 2]>,
}

macro_rules! foreign_calls {
    ($open:ident $close:ident $get:ident $insert:ident $update:ident $remove:ident, $name:expr, $resize:expr) => {{
        extern "C" {
            fn $open(items: usize, folder: *const c_char) -> *mut c_void;
            fn $close(table: *mut c_void);
            fn $get(table: *mut c_void, key: u64, record: *mut u64) -> bool;
            fn $insert(table: *mut c_void, key: u64, record: *const u64) -> bool;
            fn $update(table: *mut c_void, key: u64, record: *const u64) -> bool;
            fn $remove(table: *mut c_void, key: u64) -> bool;
        }
        Calls {
            name: $name,
            open: $open,
            close: $close,
            get: $get,
            insert: $insert,
            update: $update,
            remove: $remove,
            resize: $resize,
        }
    }};
}

extern "C" {
    fn cuckoo_grow(table: *mut c_void);
    fn cuckoo_shrink(table: *mut c_void);
}

struct Foreign {
    calls: Calls,
    table: *mut c_void,
}

impl Foreign {
    fn open(calls: Calls, items: usize, folder: &Path) -> Foreign {
        let folder = CString::new(folder.to_string_lossy().as_bytes()).expect("a folder's name has no zero");
        // SAFETY: the name is a C string that outlives the call.
        let table = unsafe { (calls.open)(items, folder.as_ptr()) };
        Foreign { calls, table }
    }
}

// SAFETY of all calls below: the table comes from `open` and is closed once, at the end; a record has two words.

impl Drop for Foreign {
    fn drop(&mut self) {
        unsafe { (self.calls.close)(self.table) }
    }
}

impl Peer for Foreign {
    fn name(&self) -> &'static str {
        self.calls.name
    }

    #[inline(always)]
    fn get(&self, key: u64) -> Option<Record> {
        let mut record = [0; 2];
        unsafe { (self.calls.get)(self.table, key, record.as_mut_ptr()) }.then_some(record)
    }

    #[inline(always)]
    fn insert(&mut self, key: u64, record: Record) -> bool {
        unsafe { (self.calls.insert)(self.table, key, record.as_ptr()) }
    }

    #[inline(always)]
    fn update(&mut self, key: u64, record: Record) -> bool {
        unsafe { (self.calls.update)(self.table, key, record.as_ptr()) }
    }

    #[inline(always)]
    fn remove(&mut self, key: u64) -> bool {
        unsafe { (self.calls.remove)(self.table, key) }
    }

    fn grow(&mut self) -> bool {
        if let Some([double, _]) = self.calls.resize {
            unsafe { double(self.table) }
        }
        self.calls.resize.is_some()
    }

    fn after_growth(&mut self) {
        if let Some([_, halve]) = self.calls.resize {
            unsafe { halve(self.table) }
        }
    }
}

/// It keeps no file.
pub fn cuckoo(items: usize) -> Box<dyn Peer> {
    let resize: Option<[unsafe extern "C" fn(*mut c_void); 2]> = Some([cuckoo_grow, cuckoo_shrink]);
    let calls = foreign_calls!(cuckoo_open cuckoo_close cuckoo_get cuckoo_insert cuckoo_update cuckoo_remove, CUCKOO, resize);
    Box::new(Foreign::open(calls, items, Path::new("")))
}

pub fn all(items: usize, folder: &Path) -> Vec<Box<dyn Peer>> {
    let tables = [
        foreign_calls!(lmdb_open lmdb_close lmdb_get lmdb_insert lmdb_update lmdb_remove, "LMDB", None),
        foreign_calls!(uthash_open uthash_close uthash_get uthash_insert uthash_update uthash_remove, "uthash", None),
    ];
    let mut peers: Vec<Box<dyn Peer>> = vec![cuckoo(items)];
    for calls in tables {
        peers.push(Box::new(Foreign::open(calls, items, folder)));
    }
    peers
}
