//! The seventeen functions over slices: each is one call of the library and nothing else.
//!
//! [`Table`](crate::Table) is the way to use them in a collector. Here a changing call is in two parts, as the library has it: the call
//! only reads the table and lists its stores, and something else makes them.
//!
//! ```
//! use ragansils::{calls, Creation, Key, Record, Refusal};
//!
//! let creation = Creation { multipliers: [4294967297, 12884901889], ..Creation::new(2, 1) };
//! let mut words = vec![0; creation.words().unwrap()];
//! calls::create(&mut words, &creation)?;
//!
//! let list = calls::insert(&words, Key::from(1), Record { function: 10, place: 20 })?;
//! assert_eq!(list.words(), [36, 1, 37, 10, 38, 20, 35, 1]);
//!
//! // Power fails before the token is stored: the key is not there.
//! calls::make(&mut words, list.words(), 3)?;
//! assert_eq!(calls::query(&words, Key::from(1))?.record(), None);
//! calls::make(&mut words, list.words(), list.count())?;
//! assert_eq!(calls::query(&words, Key::from(1))?.record(), Some(Record { function: 10, place: 20 }));
//! # Ok::<(), Refusal>(())
//! ```

use crate::raw::{self, TablePart};
use crate::stores::LIST_WORDS;
use crate::{ahead, Asked, Chain, Creation, Key, Lookup, Record, Refusal, Source, StoreList, Unconverted};

/// Zeroes all words and writes the header of an empty table. Refusal: `BadCreation`.
pub fn create(words: &mut [u64], creation: &Creation) -> Result<(), Refusal> {
    let Creation { form, capacity, first_top, multipliers: [mul1, mul2] } = *creation;
    let (table, length) = (words.as_mut_ptr(), words.len());
    // SAFETY: the pointer is valid for the slice's length.
    Refusal::check(unsafe {
        raw::ragansils_create(table, length, form.number(), capacity, first_top, mul1, mul2)
    })
}

/// Looks a key up: its record, and where that stands. An absent key is an answer; refusals: `BadHeader`, `FlagSet`.
#[inline]
pub fn query(words: &[u64], key: Key) -> Result<Lookup, Refusal> {
    let mut answer = [0; Lookup::WORDS];
    // SAFETY: the pointer is valid for the slice's length, and the answer is a buffer of its own.
    let number = unsafe { raw::ragansils_query(words.as_ptr(), words.len(), key.word(), &mut answer) };
    Lookup::of_words(number, answer)
}

/// Looks up the frames at an address, the innermost first: the record of this depth, then of each smaller one down to 0. They go to the
/// first of the lent records, and the rest stays. A refusal leaves all of them as they were: `BadHeader`, `FlagSet`, `BadPosition` for an
/// address of 2^56 or more or a depth above 255, `ShortRecords`, and `KeyAbsent` at the first depth that has no record. The number of
/// buckets looked at is told with a refusal too.
///
/// ```
/// use ragansils::{calls, Creation, Key, Record, Refusal};
///
/// let creation = Creation { multipliers: [4294967297, 12884901889], ..Creation::new(2, 1) };
/// let mut words = vec![0; creation.words().unwrap()];
/// calls::create(&mut words, &creation)?;
/// for (depth, function) in [(0, 7), (1, 8)] {
///     let list = calls::insert(&words, Key::new(16, depth).unwrap(), Record { function, place: 20 })?;
///     calls::make(&mut words, list.words(), list.count())?;
/// }
///
/// let mut lent = [Record::default(); 3];
/// let chain = calls::chain(&words, 16, 1, &mut lent);
/// assert_eq!(chain.records?, [Record { function: 8, place: 20 }, Record { function: 7, place: 20 }]);
/// let chain = calls::chain(&words, 16, 2, &mut lent);
/// assert_eq!((chain.records, chain.buckets), (Err(Refusal::KeyAbsent), 2));
/// # Ok::<(), Refusal>(())
/// ```
#[inline]
pub fn chain<'r>(words: &[u64], address: u64, depth: u64, records: &'r mut [Record]) -> Chain<'r> {
    let mut buckets = 0;
    let (table, length) = (words.as_ptr(), words.len());
    let (lent, lent_words) = (records.as_mut_ptr().cast::<u64>(), 2 * records.len());
    // SAFETY: the table's pointer is valid for the slice's length, and the records' for two words each; the three buffers lie apart.
    let number =
        unsafe { raw::ragansils_chain(table, length, address, depth, lent, lent_words, &mut buckets) };
    let records = Refusal::check(number).map(|()| &records[..=depth as usize]);
    Chain { records, buckets }
}

/// Asks two tables as one, of which the newer hides the keys of the older: which of them has a key, and how many buckets were looked at.
/// Refusals: `BadHeader` and `FlagSet`, tested on both tables before any lookup, both of the newer first; and `KeyAbsent` where neither has
/// the key. [`Overlay`](crate::Overlay) tells the record too.
///
/// ```
/// use ragansils::{calls, Asked, Creation, Key, Record, Refusal, Source};
///
/// let creation = Creation { multipliers: [4294967297, 12884901889], ..Creation::new(2, 1) };
/// let mut older = vec![0; creation.words().unwrap()];
/// calls::create(&mut older, &creation)?;
/// let newer = older.clone();
/// let list = calls::insert(&older, Key::from(1), Record { function: 10, place: 20 })?;
/// calls::make(&mut older, list.words(), list.count())?;
///
/// // Two buckets of the newer, which has not the key, and one of the older.
/// let asked = calls::asked(&newer, &older, Key::from(1));
/// assert_eq!(asked, Asked { answer: Ok(()), source: Source::Older, buckets: 3 });
/// assert_eq!(calls::part(&newer, &older, Key::from(1)), &older[36..39]);
/// # Ok::<(), Refusal>(())
/// ```
#[inline]
pub fn asked(newer: &[u64], older: &[u64], key: Key) -> Asked {
    let mut told = [0; 2];
    let (first, first_words) = (newer.as_ptr(), newer.len());
    let (second, second_words) = (older.as_ptr(), older.len());
    // SAFETY: each table's pointer is valid for its slice's length, and the answer is a buffer of its own.
    let number =
        unsafe { raw::ragansils_asked(first, first_words, second, second_words, key.word(), &mut told) };
    let [name, buckets] = told;
    Asked { answer: Refusal::check(number), source: Source::of_number(name), buckets }
}

/// The words key, function and place of the table that [`asked`] tells to have the key, as they stand there, and no copy. With a refusal the
/// part is empty, at the start of the table that `asked` names.
#[inline]
pub fn part<'t>(newer: &'t [u64], older: &'t [u64], key: Key) -> &'t [u64] {
    let mut part = TablePart { words: newer.as_ptr(), length: 0 };
    let (first, first_words) = (newer.as_ptr(), newer.len());
    let (second, second_words) = (older.as_ptr(), older.len());
    // SAFETY: each table's pointer is valid for its slice's length, and the part is an empty one of a table, in a buffer of its own.
    unsafe { raw::ragansils_part(first, first_words, second, second_words, key.word(), &mut part) };
    // SAFETY: the library answers words of one of the two tables, which are lent for so long.
    unsafe { std::slice::from_raw_parts(part.words, part.length) }
}

/// Lists the stores that bring a key in. Refusals: `BadHeader`, `FlagSet`, `KeyPresent`, `NoPlace`.
pub fn insert(words: &[u64], key: Key, record: Record) -> Result<StoreList, Refusal> {
    let Record { function, place } = record;
    listed(words, |table, length, list, list_words, stores| unsafe {
        raw::ragansils_insert(table, length, key.word(), function, place, list, list_words, stores)
    })
}

/// Lists the stores that give a key another record. Refusals: `BadHeader`, `FlagSet`, `KeyAbsent`.
pub fn update(words: &[u64], key: Key, record: Record) -> Result<StoreList, Refusal> {
    let Record { function, place } = record;
    listed(words, |table, length, list, list_words, stores| unsafe {
        raw::ragansils_update(table, length, key.word(), function, place, list, list_words, stores)
    })
}

/// Lists the store that takes a key out. Refusals: `BadHeader`, `FlagSet`, `KeyAbsent`.
pub fn delete(words: &[u64], key: Key) -> Result<StoreList, Refusal> {
    listed(words, |table, length, list, list_words, stores| unsafe {
        raw::ragansils_delete(table, length, key.word(), list, list_words, stores)
    })
}

/// Lists the store that begins a growth. Refusals: `BadHeader`, `FlagSet`, `AlreadyResizing`, `AtCapacity`.
pub fn begin(words: &[u64]) -> Result<StoreList, Refusal> {
    whole_table(words, raw::ragansils_begin)
}

/// Lists the store that begins a shrink. Refusals: `BadHeader`, `FlagSet`, `AlreadyResizing`, `TooSmall`.
pub fn shrink(words: &[u64]) -> Result<StoreList, Refusal> {
    whole_table(words, raw::ragansils_shrink)
}

/// Lists the store that turns a growth into a shrink, or a shrink into a growth. Refusals: `BadHeader`, `FlagSet`, `NotResizing`.
pub fn back(words: &[u64]) -> Result<StoreList, Refusal> {
    whole_table(words, raw::ragansils_back)
}

/// Lists the stores that move the first interim item that has a place. Refusals: `BadHeader`, `FlagSet`, `NotResizing`, `InterimEmpty`,
/// and `NoPlace`, where no interim item has one.
pub fn step(words: &[u64]) -> Result<StoreList, Refusal> {
    whole_table(words, raw::ragansils_step)
}

/// [`step`] over the interim buckets from one of them on, counted from 0 in the level; with 0 it is `step` itself. Any word may be handed
/// in. Beside the stores it tells the bucket in which the item stood, counted the same, to go on from. Refusals: those of `step`; but
/// `InterimEmpty` and `NoPlace` speak of the items from there on only.
pub fn step_from(words: &[u64], from: u64) -> Result<(StoreList, u64), Refusal> {
    let mut list = StoreList::empty();
    let bucket = list_step_from(words, from, &mut list)?;
    Ok((list, bucket))
}

/// The same into a list that the caller has; answers the bucket told. A whole growth or shrink makes this call for each of its items, and a
/// list that is handed back by value is copied on its way.
#[inline]
pub(crate) fn list_step_from(words: &[u64], from: u64, list: &mut StoreList) -> Result<u64, Refusal> {
    let mut answer = [0; 2];
    let (table, length, lent) = (words.as_ptr(), words.len(), list.words.as_mut_ptr());
    // SAFETY: both pointers are valid for the lengths beside them, and table, list and answer lie apart.
    let number = unsafe { raw::ragansils_step_from(table, length, from, lent, LIST_WORDS, &mut answer) };
    let [count, bucket] = answer;
    list.count = count;
    Refusal::check(number).map(|()| bucket)
}

/// Asks the processor for the words that the steps will look at that come after one in this bucket; `last` is the bucket of the step before
/// it. A mere hint, for whoever drives a growth or a shrink by hand: nothing that is answered or stored depends on it.
#[inline]
pub fn read_ahead(words: &[u64], last: u64, bucket: u64) {
    ahead::read_ahead(words, last, bucket)
}

/// Lists the store that ends a growth or a shrink. Refusals: `BadHeader`, `FlagSet`, `NotResizing`, `InterimTaken`.
pub fn end(words: &[u64]) -> Result<StoreList, Refusal> {
    whole_table(words, raw::ragansils_end)
}

/// Lists the stores that mend what a cut left: none on a sound table, else one or three. Refusals: `BadHeader`, `NoKind`.
pub fn recover(words: &[u64]) -> Result<StoreList, Refusal> {
    whole_table(words, raw::ragansils_recover)
}

/// Makes the first `n` stores of a list, or none of them. Refusal: `BadMaking`.
///
/// In which order they leave the processor's cache is not said; [`Table`](crate::Table) makes them one by one.
pub fn make(words: &mut [u64], list: &[u64], n: u64) -> Result<(), Refusal> {
    let (table, length) = (words.as_mut_ptr(), words.len());
    // SAFETY: both pointers are valid for their slices' lengths, and the slices do not overlap.
    Refusal::check(unsafe { raw::ragansils_make(table, length, list.as_ptr(), list.len(), n) })
}

/// Makes the other form of a table in the words of a second one, whatever they held: with the same capacity exponent, top, multipliers and
/// items. The first table must be sound and at rest, and is only read.
///
/// A refusal changes nothing, with one exception: where an item has no place in the other form, the second table is left empty, as
/// [`create`] makes it. A cut is not covered, as in creation.
///
/// ```
/// use ragansils::{calls, Creation, Form, Key, Record, Unconverted};
///
/// let creation = Creation { form: Form::One, ..Creation::new(2, 1) };
/// let mut words = vec![0; creation.words().unwrap()];
/// calls::create(&mut words, &creation)?;
/// let list = calls::insert(&words, Key::from(1), Record { function: 10, place: 20 })?;
/// calls::make(&mut words, list.words(), list.count())?;
///
/// let mut second = vec![0; words.len()];
/// calls::convert(&words, &mut second)?;
/// assert_eq!((words[0], second[0]), (1, 2));
/// assert_eq!(calls::query(&second, Key::from(1))?.record(), Some(Record { function: 10, place: 20 }));
///
/// assert_eq!(calls::convert(&words, &mut second[1..]), Err(Unconverted::OtherLength));
/// # Ok::<(), Box<dyn std::error::Error>>(())
/// ```
pub fn convert(words: &[u64], second: &mut [u64]) -> Result<(), Unconverted> {
    let mut key = 0;
    let (table, length) = (words.as_ptr(), words.len());
    let (other, other_length) = (second.as_mut_ptr(), second.len());
    // SAFETY: both pointers are valid for their slices' lengths, and the two tables and the key lie apart.
    let number = unsafe { raw::ragansils_convert(table, length, other, other_length, &mut key) };
    Unconverted::check(number, key)
}

/// A call that is lent a table and a list and told nothing more.
type WholeTableCall = unsafe extern "C" fn(*const u64, usize, *mut u64, usize, *mut u64) -> u64;

fn whole_table(words: &[u64], call: WholeTableCall) -> Result<StoreList, Refusal> {
    listed(words, |table, length, list, list_words, stores| unsafe {
        call(table, length, list, list_words, stores)
    })
}

/// Lends a table and a fresh list to a call of the library: table and its words, list and its words, number of stores.
///
/// The callers' blocks are safe by this: each pointer is valid for the length beside it, and table, list and number lie apart.
fn listed(
    words: &[u64],
    call: impl FnOnce(*const u64, usize, *mut u64, usize, *mut u64) -> u64,
) -> Result<StoreList, Refusal> {
    let mut list = StoreList { words: [0; LIST_WORDS], count: 0 };
    let number = call(words.as_ptr(), words.len(), list.words.as_mut_ptr(), LIST_WORDS, &mut list.count);
    Refusal::check(number).map(|()| list)
}
