//! Stores: listed by a call, then made one after the other.

use std::sync::atomic::{compiler_fence, Ordering};

/// The words of a list: room for the ten stores of the longest change.
pub(crate) const LIST_WORDS: usize = 20;

/// One store: a word's index in the table and its new value.
#[derive(Clone, Copy, Debug, PartialEq, Eq)]
pub struct Store {
    /// The word's index.
    pub index: usize,
    /// What the word is to hold.
    pub value: u64,
}

/// The stores of one change, in the order in which they must be made.
#[derive(Clone, Debug)]
pub struct StoreList {
    pub(crate) words: [u64; LIST_WORDS],
    pub(crate) count: u64,
}

impl StoreList {
    #[inline]
    pub(crate) fn empty() -> StoreList {
        StoreList { words: [0; LIST_WORDS], count: 0 }
    }

    /// The number of stores.
    #[inline]
    pub fn count(&self) -> u64 {
        self.count
    }

    /// The stores as a call lists them: index and value of each, in turn.
    #[inline]
    pub fn words(&self) -> &[u64] {
        &self.words[..2 * self.count as usize]
    }

    /// The stores in order.
    #[inline]
    pub fn stores(&self) -> impl Iterator<Item = Store> + '_ {
        self.words().chunks_exact(2).map(|pair| Store { index: pair[0] as usize, value: pair[1] })
    }
}

/// What a platform does after each store, so that stores reach its memory in order.
///
/// The crate stores each word whole and keeps the compiler from changing their order. What a memory needs beyond that, as a cache
/// flush instruction and a fence after each store, is not part of it: this is the place for that. A closure will do.
///
/// ```
/// use ragansils::{Creation, Key, Record, Table};
///
/// let mut flushed = vec![];
/// let creation = Creation { multipliers: [4294967297, 12884901889], ..Creation::new(2, 1) };
/// let mut words = vec![0; creation.words().unwrap()];
/// let flush = |word: &u64| flushed.push((word as *const u64, *word));
/// let mut table = Table::create(words.as_mut_slice(), &creation, flush)?;
/// table.insert(Key::from(1), Record { function: 10, place: 20 })?;
/// // Key, function and place, and the token that shows them last.
/// let values: Vec<u64> = flushed.iter().map(|&(_, value)| value).collect();
/// assert_eq!(values, [1, 10, 20, 1]);
/// assert_eq!(flushed[3].0, &words[35] as *const u64);
/// # Ok::<(), ragansils::Refusal>(())
/// ```
///
/// Where the hook panics, the change is left as a cut leaves it, and [`Table::recover`](crate::Table::recover) mends the table.
pub trait Platform {
    /// Called after each store, before the next, with the word that was stored.
    fn stored(&mut self, word: &u64);
}

/// A memory that needs nothing after a store: its stores are not kept over a power cut, or reach the memory in order by themselves.
#[derive(Clone, Copy, Debug, Default)]
pub struct OrdinaryMemory;

impl Platform for OrdinaryMemory {
    #[inline]
    fn stored(&mut self, _: &u64) {}
}

impl<F: FnMut(&u64)> Platform for F {
    #[inline]
    fn stored(&mut self, word: &u64) {
        self(word)
    }
}

/// Makes the stores one by one, each word whole.
pub(crate) fn make_in_order(words: &mut [u64], list: &StoreList, platform: &mut impl Platform) {
    for Store { index, value } in list.stores() {
        let word = &mut words[index];
        // SAFETY: the reference is valid and aligned. Volatile, so that the store is one whole word and none is left out.
        unsafe { std::ptr::write_volatile(word, value) };
        compiler_fence(Ordering::SeqCst);
        platform.stored(word);
    }
}
