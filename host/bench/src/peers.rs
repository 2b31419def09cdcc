//! What is measured: tables from a key to a record of two words, behind one trait.
//!
//! - `level`: the proved library and its twin, each over words of its own;
//! - `foreign`: tables in C and C++ from Debian's packages;
//! - `standard`: Rust's `HashMap`.

mod foreign;
mod level;
mod standard;

use std::path::Path;

pub use level::swap_words;

use ragansils_compare::history::Setting;
use ragansils_counts::{record_of, Record, NEW_FORM, OLD_FORM};
use ragansils_twin::{ListingTwin, Proved, Twin};

use level::LevelPeer;

/// Names of the two sides, which are always the first two peers.
pub const LIBRARY: &str = "library";
pub const TWIN: &str = "twin";
/// The library's tables of each form, where both are measured.
pub const FORM_1: &str = "form 1";
pub const FORM_2: &str = "form 2";
/// The limits of a growth.
pub const CUCKOO: &str = "libcuckoo";
/// The twin whose inserts are listed, and made as the library's are.
pub const LISTING_TWIN: &str = "twin with a list";

pub trait Peer {
    fn name(&self) -> &'static str;
    fn get(&self, key: u64) -> Option<Record>;
    /// Whether the key came in.
    fn insert(&mut self, key: u64, record: Record) -> bool;
    /// Whether the key was there.
    fn update(&mut self, key: u64, record: Record) -> bool;
    fn remove(&mut self, key: u64) -> bool;

    /// Doubles the table's room at once, with all its items in it; whether that was done. A level table grows in steps instead.
    fn grow(&mut self) -> bool {
        false
    }

    /// Takes `grow` back, so that it can be done again.
    fn after_growth(&mut self) {}

    /// A level table's recovery; whether it was accepted.
    fn recover(&mut self) -> bool {
        false
    }

    /// The words of a level table.
    fn words(&mut self) -> Option<&mut Vec<u64>> {
        None
    }

    // Runs of calls: one call through the trait object, the calls within it direct. Each answers a sum of all answers,
    // so that no call can be left out, and so that peers which should do the same can be seen to.

    fn get_all(&self, keys: &[u64]) -> u64 {
        sum(keys.iter().map(|&key| self.get(key).map_or(1, |[function, place]| function ^ place)))
    }

    fn insert_all(&mut self, keys: &[u64]) -> u64 {
        sum(keys.iter().map(|&key| self.insert(key, record_of(key)).into()))
    }

    /// Says where not all of some new keys came in.
    fn check_accepted(&self, accepted: u64, keys: &[u64]) -> Result<(), String> {
        match accepted == keys.len() as u64 {
            true => Ok(()),
            false => Err(format!("{} took {accepted} of {} keys", self.name(), keys.len())),
        }
    }

    fn update_all(&mut self, keys: &[u64]) -> u64 {
        sum(keys.iter().enumerate().map(|(at, &key)| self.update(key, [at as u64, key]).into()))
    }

    fn remove_all(&mut self, keys: &[u64]) -> u64 {
        sum(keys.iter().map(|&key| self.remove(key).into()))
    }
}

fn sum(answers: impl Iterator<Item = u64>) -> u64 {
    answers.fold(0, u64::wrapping_add)
}

/// The library and the twin alone, empty.
pub fn two_sides(setting: Setting) -> Vec<Box<dyn Peer>> {
    vec![
        Box::new(LevelPeer::new(LIBRARY, Proved::default(), setting)),
        Box::new(LevelPeer::new(TWIN, Twin, setting)),
    ]
}

/// One of the two, by its name.
pub fn one_side(setting: Setting, name: &str) -> Result<Box<dyn Peer>, String> {
    let found = two_sides(setting).into_iter().find(|peer| peer.name() == name);
    found.ok_or_else(|| format!("no side {name}"))
}

/// The library's table in both forms, and libcuckoo's, empty, with room for so many items. Of the library's either may be the first to get
/// its memory.
pub fn both_forms(setting: Setting, items: usize, second_first: bool) -> Vec<Box<dyn Peer>> {
    let of_form = |(name, form)| -> Box<dyn Peer> {
        Box::new(LevelPeer::new(name, Proved::default(), Setting { form, ..setting }))
    };
    let mut forms = [(FORM_1, OLD_FORM), (FORM_2, NEW_FORM)];
    if second_first {
        forms.reverse();
    }
    let mut peers: Vec<Box<dyn Peer>> = forms.map(of_form).into();
    if second_first {
        peers.reverse();
    }
    peers.push(foreign::cuckoo(items));
    peers
}

/// The two sides, and between them a twin with a list.
pub fn two_sides_and_a_list(setting: Setting) -> Vec<Box<dyn Peer>> {
    let mut peers = two_sides(setting);
    peers.push(Box::new(LevelPeer::new(LISTING_TWIN, ListingTwin::default(), setting)));
    peers
}

/// Those whose room can be doubled at once, empty, with room for so many items.
pub fn growing(items: usize) -> Vec<Box<dyn Peer>> {
    let mut peers = vec![foreign::cuckoo(items)];
    peers.extend(standard::all(items));
    peers
}

/// All peers, empty, with room for so many items.
pub fn all(setting: Setting, items: usize, folder: &Path) -> Vec<Box<dyn Peer>> {
    let mut peers = two_sides(setting);
    peers.extend(foreign::all(items, folder));
    peers.extend(standard::all(items));
    peers
}
