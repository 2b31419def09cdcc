//! What is looked up, and what is found.

use std::fmt;

use crate::Refusal;

/// A key: a code address and an inlining depth, as address · 256 + depth. The table takes any 64-bit key.
///
/// ```
/// use ragansils::Key;
///
/// let key = Key::new(0x5555_0000_1040, 2).unwrap();
/// assert_eq!((key.address(), key.depth()), (0x5555_0000_1040, 2));
/// assert_eq!(Key::from(key.word()), key);
/// assert_eq!(Key::new(1 << 56, 0), None);
/// ```
#[derive(Clone, Copy, Debug, PartialEq, Eq, PartialOrd, Ord, Hash)]
pub struct Key(u64);

const DEPTH_BITS: u32 = u8::BITS;

impl Key {
    /// The key of an address and a depth; none for an address of 2^56 or more, which would lose its highest bits.
    pub fn new(address: u64, depth: u8) -> Option<Key> {
        let fits = address.leading_zeros() >= DEPTH_BITS;
        fits.then(|| Key(address << DEPTH_BITS | u64::from(depth)))
    }

    /// The word that the table holds.
    pub fn word(self) -> u64 {
        self.0
    }

    /// The code address.
    pub fn address(self) -> u64 {
        self.0 >> DEPTH_BITS
    }

    /// The inlining depth.
    pub fn depth(self) -> u8 {
        self.0 as u8
    }
}

/// The word, and what a collector makes it of.
///
/// ```
/// use ragansils::Key;
///
/// assert_eq!(Key::new(0x1040, 2).unwrap().to_string(), "key 1064962 (address 0x1040, depth 2)");
/// ```
impl fmt::Display for Key {
    fn fmt(&self, f: &mut fmt::Formatter) -> fmt::Result {
        write!(f, "key {} (address {:#x}, depth {})", self.word(), self.address(), self.depth())
    }
}

impl From<u64> for Key {
    fn from(word: u64) -> Key {
        Key(word)
    }
}

/// What a key leads to: any two words, for instance the number of a function and a source line.
// Two words in this order, as the library writes them: records are lent to it.
#[repr(C)]
#[derive(Clone, Copy, Debug, Default, PartialEq, Eq, Hash)]
pub struct Record {
    /// The function.
    pub function: u64,
    /// The place in it.
    pub place: u64,
}

/// A level of a table, by the number of the C interface; in the order in which a query looks at them.
#[derive(Clone, Copy, Debug, PartialEq, Eq, PartialOrd, Ord, Hash)]
pub enum Level {
    /// The level where a new item is placed first.
    Top = 0,
    /// Half as large.
    Bottom = 1,
    /// There only while the table grows or shrinks: a quarter as large as the top while it grows, and twice as large while it shrinks.
    Interim = 2,
}

impl Level {
    /// Every level, by its number.
    pub const ALL: [Level; 3] = [Level::Top, Level::Bottom, Level::Interim];

    /// The number of the C interface.
    pub fn number(self) -> u64 {
        self as u64
    }

    #[inline]
    fn of_number(number: u64) -> Level {
        match number {
            0 => Level::Top,
            1 => Level::Bottom,
            2 => Level::Interim,
            _ => panic!("the library answers the number of a level"),
        }
    }
}

impl fmt::Display for Level {
    fn fmt(&self, f: &mut fmt::Formatter) -> fmt::Result {
        f.pad(match self {
            Level::Top => "top",
            Level::Bottom => "bottom",
            Level::Interim => "interim",
        })
    }
}

/// Where a key stands. The next change may move it.
#[derive(Clone, Copy, Debug, PartialEq, Eq, Hash)]
pub struct Slot {
    /// The index of the table's word that holds the key; the two words after it hold function and place.
    pub word: usize,
    /// The level that it stands in.
    pub level: Level,
}

/// A key's record, and where it stands.
#[derive(Clone, Copy, Debug, PartialEq, Eq, Hash)]
pub struct Found {
    /// What the key leads to.
    pub record: Record,
    /// Where this record stands. Where the key stands twice, as a cut may leave it, this is the slot that is looked at first.
    pub slot: Slot,
}

/// A query's answer.
///
/// ```
/// use ragansils::{Creation, Found, Level, OrdinaryMemory, Record, Refusal, Slot, Table};
///
/// let creation = Creation { multipliers: [4294967297, 12884901889], ..Creation::new(2, 1) };
/// let mut table = Table::create(vec![0; creation.words().unwrap()], &creation, OrdinaryMemory)?;
/// let record = Record { function: 10, place: 20 };
/// table.insert(1.into(), record)?;
///
/// let lookup = table.query(1.into())?;
/// assert_eq!(lookup.found, Some(Found { record, slot: Slot { word: 36, level: Level::Top } }));
/// assert_eq!((lookup.record(), lookup.buckets), (Some(record), 1));
/// // That is where the table's words have it.
/// assert_eq!(table.words()[36..39], [1, 10, 20]);
///
/// // A growth makes the top the bottom, and the key stays where it is.
/// table.begin()?;
/// let slot = table.query(1.into())?.found.map(|found| found.slot);
/// assert_eq!(slot, Some(Slot { word: 36, level: Level::Bottom }));
///
/// // An absent key stands nowhere.
/// assert_eq!(table.query(2.into())?.found, None);
/// # Ok::<(), Refusal>(())
/// ```
#[derive(Clone, Copy, Debug, PartialEq, Eq)]
pub struct Lookup {
    /// The key's record, and where it stands; none where the key is absent.
    pub found: Option<Found>,
    /// The number of buckets looked at: at most four, or six while the table grows or shrinks.
    pub buckets: u64,
}

impl Lookup {
    /// The words of the answer that the library writes.
    pub const WORDS: usize = 5;

    /// What an answer of the library means, [`raw::ragansils_query`](crate::raw::ragansils_query): its number, and the words that it wrote.
    /// An absent key is no refusal here. Panics at a level that is none, which the library does not answer.
    #[inline]
    pub fn of_words(number: u64, words: [u64; Lookup::WORDS]) -> Result<Lookup, Refusal> {
        let [function, place, buckets, word, level] = words;
        if number == Refusal::KeyAbsent.number() {
            return Ok(Lookup { found: None, buckets });
        }
        Refusal::check(number)?;
        let slot = Slot { word: word as usize, level: Level::of_number(level) };
        Ok(Lookup { found: Some(Found { record: Record { function, place }, slot }), buckets })
    }

    /// The key's record; none where the key is absent.
    #[inline]
    pub fn record(&self) -> Option<Record> {
        self.found.map(|found| found.record)
    }
}

/// A chain's answer.
#[derive(Clone, Copy, Debug, PartialEq, Eq)]
pub struct Chain<'r> {
    /// The records of all frames, the innermost first, or why there are none.
    pub records: Result<&'r [Record], Refusal>,
    /// The number of buckets looked at: at most four for each depth, or six while the table grows or shrinks. With `KeyAbsent` the depth that
    /// has no record is the last that was looked for. With any other refusal the number is 0.
    pub buckets: u64,
}
