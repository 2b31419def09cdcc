//! Two tables asked as one: code that was reloaded over a shipped build.

use std::error::Error;
use std::fmt;
use std::mem::size_of;

use crate::{calls, Key, Record, Refusal};

/// One of two tables that are asked as one, by the number of the C interface; in the order in which they are looked up.
#[derive(Clone, Copy, Debug, PartialEq, Eq, PartialOrd, Ord, Hash)]
pub enum Source {
    /// The table for what was loaded since. Its keys hide those of the other.
    Newer = 0,
    /// The table that was there first, such as a build's.
    Older = 1,
}

impl Source {
    /// Both tables, by their numbers.
    pub const ALL: [Source; 2] = [Source::Newer, Source::Older];

    /// The number of the C interface.
    pub fn number(self) -> u64 {
        self as u64
    }

    #[inline]
    pub(crate) fn of_number(number: u64) -> Source {
        match number {
            0 => Source::Newer,
            1 => Source::Older,
            _ => panic!("the library answers the name of one of the two tables"),
        }
    }
}

impl fmt::Display for Source {
    fn fmt(&self, f: &mut fmt::Formatter) -> fmt::Result {
        f.pad(match self {
            Source::Newer => "newer",
            Source::Older => "older",
        })
    }
}

/// What [`calls::asked`] answers.
#[derive(Clone, Copy, Debug, PartialEq, Eq)]
pub struct Asked {
    /// That a table has the key, or why none is told.
    pub answer: Result<(), Refusal>,
    /// The table that has the key; with `BadHeader` and `FlagSet` the one that is refused; with `KeyAbsent` the older.
    pub source: Source,
    /// The number of buckets looked at: those of the newer table, and where that has not the key those of the older too. At most four in each,
    /// or six in one that grows or shrinks. With `BadHeader` and `FlagSet` it is 0.
    pub buckets: u64,
}

/// The answer of [`Overlay::query`].
#[derive(Clone, Copy, Debug, PartialEq, Eq)]
pub struct OverlayLookup {
    /// The key's record, and where it stands; none where neither table has the key.
    pub found: Option<OverlayFound>,
    /// The number of buckets that one lookup looks at: those of the newer table, and where that has not the key those of the older too. At
    /// most four in each, or six in one that grows or shrinks.
    pub buckets: u64,
}

impl OverlayLookup {
    /// The key's record; none where neither table has the key.
    #[inline]
    pub fn record(&self) -> Option<Record> {
        self.found.map(|found| found.record)
    }
}

/// A key's record in one of two tables, and where it stands there.
#[derive(Clone, Copy, Debug, PartialEq, Eq, Hash)]
pub struct OverlayFound {
    /// What the key leads to.
    pub record: Record,
    /// The table that the record stands in.
    pub source: Source,
    /// The index of that table's word that holds the key; the two words after it hold function and place. The next change of that table may
    /// move it.
    pub word: usize,
}

/// A table that refuses to be looked up: `BadHeader` where its words are no table, `FlagSet` where an update was cut and recovery comes first.
///
/// ```
/// use ragansils::{OverlayRefusal, Refusal, Source};
///
/// let refused = OverlayRefusal { source: Source::Older, refusal: Refusal::FlagSet };
/// assert_eq!(refused.to_string(), "the older table: the update flag is not 0, so recovery comes first (refusal 3)");
/// ```
#[derive(Clone, Copy, Debug, PartialEq, Eq, Hash)]
pub struct OverlayRefusal {
    /// The table.
    pub source: Source,
    /// Why.
    pub refusal: Refusal,
}

impl fmt::Display for OverlayRefusal {
    fn fmt(&self, f: &mut fmt::Formatter) -> fmt::Result {
        write!(f, "the {} table: {}", self.source, self.refusal)
    }
}

impl Error for OverlayRefusal {
    fn source(&self) -> Option<&(dyn Error + 'static)> {
        Some(&self.refusal)
    }
}

/// Two tables asked as one: a key in the newer table hides the same key in the older. Such are the table that is shipped with a build, and
/// a second one for code that was reloaded since.
///
/// Both are only read here, and may differ in everything: size, form, multipliers, and whether they grow or shrink. The collector writes to
/// the newer one between queries, so an overlay is made for a query or a few, which costs nothing: it is two references.
///
/// ```
/// use ragansils::{calls, Creation, Key, MappedFile, OrdinaryMemory, Overlay, ReadOnlyFile, Record, Source, Table};
///
/// # let folder = std::env::temp_dir().join(format!("ragansils-overlay-{}", std::process::id()));
/// # std::fs::create_dir_all(&folder)?;
/// # let (build_path, path) = (folder.join("build.table"), folder.join("reloaded.table"));
/// # let mut table = Table::open(MappedFile::create(&build_path, &Creation::new(8, 4))?, OrdinaryMemory)?;
/// # for line in 0..3 {
/// #     table.insert(Key::new(0x1040 + 4 * line, 0).unwrap(), Record { function: 7, place: 120 + line })?;
/// # }
/// # drop(table);
/// // The build's table is only read. Nobody can mend it here, so it must be sound: recovery would have nothing to do.
/// let build = ReadOnlyFile::open(&build_path)?;
/// assert_eq!(calls::recover(build.as_ref())?.count(), 0);
/// // The table for reloaded code; the first start makes it.
/// let mut reloaded = Table::open(MappedFile::create(&path, &Creation::new(4, 1))?, OrdinaryMemory)?;
///
/// // Line 121 of function 7 is line 130 now.
/// let [same, moved] = [0x1040, 0x1044].map(|address| Key::new(address, 0).unwrap());
/// reloaded.insert(moved, Record { function: 7, place: 130 })?;
///
/// let overlay = Overlay::new(&reloaded, &build);
/// assert_eq!(overlay.query(same)?.record(), Some(Record { function: 7, place: 120 }));
/// let found = overlay.query(moved)?.found.ok_or("no record")?;
/// assert_eq!((found.record.place, found.source), (130, Source::Newer));
/// // The three words as they stand in that table.
/// assert_eq!(overlay.part(moved), &reloaded.words()[found.word..found.word + 3]);
///
/// // What the newer has no more is the build's again.
/// reloaded.delete(moved)?;
/// assert_eq!(Overlay::new(&reloaded, &build).query(moved)?.record(), Some(Record { function: 7, place: 121 }));
/// # drop((reloaded, build));
/// # std::fs::remove_dir_all(&folder)?;
/// # Ok::<(), Box<dyn std::error::Error>>(())
/// ```
///
/// There is no chain over both tables, and so no `frames` here. It would put depths of the older table beside depths of the newer, callers that
/// belong to different code: the very miscredit that this library is there to prevent. Take all frames of an address from one table, the one in
/// which its depth 0 stands: a [`query`](Overlay::query) of that key tells which, and [`calls::chain`] takes its [`words`](Overlay::words).
#[derive(Clone, Copy, Debug)]
pub struct Overlay<'a> {
    newer: &'a [u64],
    older: &'a [u64],
}

impl<'a> Overlay<'a> {
    /// Lays a newer table over an older one. Each is anything that has a table's words: a [`Table`](crate::Table), a
    /// [`ReadOnlyFile`](crate::ReadOnlyFile), a [`MappedFile`](crate::MappedFile), a slice. They may be the same table. What the words hold is
    /// looked at by each query.
    #[inline]
    pub fn new<N, O>(newer: &'a N, older: &'a O) -> Overlay<'a>
    where
        N: AsRef<[u64]> + ?Sized,
        O: AsRef<[u64]> + ?Sized,
    {
        Overlay { newer: newer.as_ref(), older: older.as_ref() }
    }

    /// Looks a key up in the newer table, and where that has it not, in the older: its record, and where that stands. Both tables are tested
    /// before either is looked up, the newer first. So a bad older table refuses a key too that the newer has.
    ///
    /// It asks the library twice where the key is found, by [`calls::asked`] and [`calls::part`], and so costs twice what
    /// [`part`](Overlay::part) does.
    #[inline]
    pub fn query(&self, key: Key) -> Result<OverlayLookup, OverlayRefusal> {
        let Asked { answer, source, buckets } = calls::asked(self.newer, self.older, key);
        let found = match answer {
            Ok(()) => Some(self.found(source, key)),
            Err(Refusal::KeyAbsent) => None,
            Err(refusal) => return Err(OverlayRefusal { source, refusal }),
        };
        Ok(OverlayLookup { found, buckets })
    }

    /// The words key, function and place of whichever table holds the key, as they stand there, and no copy; none where
    /// [`query`](Overlay::query) finds no record, or is refused. It asks the library once.
    #[inline]
    pub fn part(&self, key: Key) -> &'a [u64] {
        calls::part(self.newer, self.older, key)
    }

    /// The words of one of the two tables.
    #[inline]
    pub fn words(&self, source: Source) -> &'a [u64] {
        match source {
            Source::Newer => self.newer,
            Source::Older => self.older,
        }
    }

    /// The record of a key that this table holds.
    #[inline]
    fn found(&self, source: Source, key: Key) -> OverlayFound {
        let part = self.part(key);
        let word = (part.as_ptr() as usize - self.words(source).as_ptr() as usize) / size_of::<u64>();
        match *part {
            [_, function, place] => OverlayFound { record: Record { function, place }, source, word },
            _ => panic!("the library answers three words of a key that a table holds"),
        }
    }
}
