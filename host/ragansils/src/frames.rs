//! The inlined frames at an address.

use std::fmt;

use crate::{calls, Record, Refusal};

/// The most frames that an address has: those of the depths 0 to 255.
const MOST_FRAMES: usize = 1 << u8::BITS;

/// The frames at an address, the innermost first: an inlined function, the one that it was inlined into, and so on, to the function of
/// depth 0, which the address lies in.
///
/// ```
/// use ragansils::{Creation, Key, OrdinaryMemory, Record, Refusal, Table};
///
/// let creation = Creation::new(4, 1);
/// let mut table = Table::create(vec![0; creation.words().unwrap()], &creation, OrdinaryMemory)?;
///
/// // Here function 9 was inlined into 8, and 8 into 7.
/// let address = 0x5555_0000_1040;
/// for (depth, function, place) in [(0, 7, 120), (1, 8, 31), (2, 9, 4)] {
///     table.insert(Key::new(address, depth).unwrap(), Record { function, place })?;
/// }
///
/// let mut told = vec![];
/// for Record { function, place } in table.frames(address, 2)? {
///     told.push(format!("function {function}, line {place}"));
/// }
/// assert_eq!(told, ["function 9, line 4", "function 8, line 31", "function 7, line 120"]);
///
/// // Depth 3 has no record: there are no frames from there.
/// assert_eq!(table.frames(address, 3), Err(Refusal::KeyAbsent));
/// # Ok::<(), Refusal>(())
/// ```
///
/// It has room for 256 records, which is 4 KiB, and allocates nothing. [`calls::chain`](crate::calls::chain) takes records that it is
/// lent, as many as are needed, and tells the number of buckets with a refusal too.
#[derive(Clone, PartialEq, Eq)]
pub struct Frames {
    /// Zero behind the count.
    records: [Record; MOST_FRAMES],
    count: usize,
    buckets: u64,
}

impl Frames {
    pub(crate) fn look_up(words: &[u64], address: u64, depth: u8) -> Result<Frames, Refusal> {
        let mut frames = Frames { records: [Record::default(); MOST_FRAMES], count: 0, buckets: 0 };
        let chain = calls::chain(words, address, depth.into(), &mut frames.records);
        (frames.count, frames.buckets) = (chain.records?.len(), chain.buckets);
        Ok(frames)
    }

    /// The frames' records, the innermost first; the last is that of depth 0.
    pub fn records(&self) -> &[Record] {
        &self.records[..self.count]
    }

    /// The number of buckets looked at: at most four for each depth, or six while the table grows or shrinks.
    pub fn buckets(&self) -> u64 {
        self.buckets
    }
}

impl fmt::Debug for Frames {
    fn fmt(&self, f: &mut fmt::Formatter) -> fmt::Result {
        f.debug_struct("Frames").field("records", &self.records()).field("buckets", &self.buckets).finish()
    }
}

impl<'f> IntoIterator for &'f Frames {
    type Item = &'f Record;
    type IntoIter = std::slice::Iter<'f, Record>;

    fn into_iter(self) -> Self::IntoIter {
        self.records().iter()
    }
}

impl IntoIterator for Frames {
    type Item = Record;
    type IntoIter = std::iter::Take<std::array::IntoIter<Record, MOST_FRAMES>>;

    fn into_iter(self) -> Self::IntoIter {
        self.records.into_iter().take(self.count)
    }
}
