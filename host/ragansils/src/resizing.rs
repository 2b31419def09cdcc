//! Growing and shrinking in small parts.

use crate::phase::State;
use crate::{calls, Phase, Platform, Refusal, Table};

/// What one part of a growth or of a shrink did.
#[derive(Clone, Copy, Debug, PartialEq, Eq)]
pub enum Part {
    /// The table was at rest, and is resizing now: its top is twice as large, or half as large.
    Begun,
    /// The table was resizing the other way, and is turned back.
    Turned,
    /// An item of the interim level moved out of it.
    Moved,
    /// The interim level was empty, and the table is at rest again.
    Ended,
}

/// What a step from a bucket on did ([`Table::step_from`]).
#[derive(Clone, Copy, Debug, PartialEq, Eq)]
pub struct Step {
    /// The number of its stores, 5 or 10.
    pub stores: u64,
    /// The interim bucket in which the item stood, counted from 0 in the level. The next step may go on from there.
    pub bucket: u64,
}

impl<W: AsRef<[u64]> + AsMut<[u64]>, P: Platform> Table<W, P> {
    /// Does one part of a growth, at most ten stores: begins it, moves one item, or ends it, whichever is next. A shrink that is under way is
    /// turned back, which is a part too.
    ///
    /// How far a growth or a shrink is stands in the table, so that one that a cut or an end of the process broke off goes on. On a table at
    /// rest this begins a growth, also where one has just ended. Every other call may come between two parts; but inserts fill the new top,
    /// so a collector does a part or more of a growth with each insert.
    ///
    /// A part that moves an item looks for one from the bucket on where the last part found one. The words do not hold that bucket, and
    /// each opening begins at the first. So the time of a whole growth from N top buckets rises with N: on an AMD EPYC, begun at load 0.8, it
    /// took 0.027 ms for N = 1,024, 0.53 ms for 16,384, 5.9 ms for 131,072 and 26 ms for 524,288. Where nothing from there on can move, the
    /// part looks once more from the first bucket on: a delete may have made room for an item that was passed.
    ///
    /// Refusals: `AtCapacity` where the table cannot grow any more; `NoPlace` where items are left in the interim level and none of them
    /// has a place now. Then queries, updates, deletes and inserts still work, and the growth goes on once a delete has made room for
    /// one of them.
    ///
    /// A part that answers `NoPlace` has tried every interim item, so it is costly: with top and bottom full it took about 0.05 ms for 450
    /// interim items and 1 ms for 6,500, on an AMD EPYC. Inserts make no room for them: try again after a delete, not after every insert.
    pub fn grow_on(&mut self) -> Result<Part, Refusal> {
        self.resize_on(Phase::Shrinking, Table::begin)
    }

    /// Does one part of a shrink, as [`grow_on`](Table::grow_on) does one of a growth: begins it, moves one item, or ends it, and a growth
    /// that is under way is turned back. All stores of a shrink from N top buckets are at most 40N + 2, where nothing is turned back.
    ///
    /// The table has half as many slots afterwards. With more items than that a shrink is stuck for certain, and with nearly as many it may
    /// be. Refusals: `NoPlace` where it is stuck; `TooSmall` where the top has two buckets, so that the table cannot shrink any more.
    ///
    /// A shrink that is stuck has lost nothing: queries, updates and deletes work as ever, and inserts where there is a place. There are three
    /// ways on:
    /// - turn back, by [`back`](Table::back) or by a part of a growth, which turns back by itself: the old top has its room again;
    /// - delete ([`delete`](Table::delete)), and go on with the shrink;
    /// - go on with other work, and try again after later deletes. Until then three levels are in use, and a query looks at six buckets at most
    ///   in place of four.
    ///
    /// ```
    /// use ragansils::{Creation, Key, OrdinaryMemory, Part, Phase, Record, Refusal, Table};
    ///
    /// let creation = Creation::new(4, 4);
    /// let mut table = Table::create(vec![0; creation.words().unwrap()], &creation, OrdinaryMemory)?;
    /// let keys: Vec<Key> = (0..60).map(|line| Key::new(0x5555_0000_1000 + 4 * line, 0).unwrap()).collect();
    /// for &key in &keys {
    ///     table.insert(key, Record { function: 7, place: 120 })?;
    /// }
    /// // 60 items are more than the 48 slots of the smaller table.
    /// assert_eq!(table.shrink(u64::MAX), Err(Refusal::NoPlace));
    /// assert_eq!(table.phase(), Ok(Phase::Shrinking));
    ///
    /// // A level is unloaded: its keys go, and the shrink goes on.
    /// for &key in &keys[..40] {
    ///     table.delete(key)?;
    /// }
    /// assert_eq!(table.shrink(u64::MAX), Ok(true));
    /// assert_eq!(table.phase(), Ok(Phase::AtRest));
    /// assert!(keys[40..].iter().all(|&key| table.query(key).unwrap().found.is_some()));
    /// # Ok::<(), Refusal>(())
    /// ```
    pub fn shrink_on(&mut self) -> Result<Part, Refusal> {
        self.resize_on(Phase::Growing, Table::begin_shrink)
    }

    /// One part, where `against` is the other way to resize; `begin` is what a table at rest begins with.
    fn resize_on(
        &mut self,
        against: Phase,
        begin: fn(&mut Self) -> Result<u64, Refusal>,
    ) -> Result<Part, Refusal> {
        if State::of(self.words()).map(|state| state.phase) == Some(against) {
            return self.back().map(|_| Part::Turned);
        }
        match self.step_on() {
            Ok(_) => Ok(Part::Moved),
            Err(Refusal::NotResizing) => begin(self).map(|_| Part::Begun),
            Err(Refusal::InterimEmpty) => self.end().map(|_| Part::Ended),
            Err(refusal) => Err(refusal),
        }
    }

    /// A step from the hint on; where nothing there can move, from the first bucket on, so that the answer is that of a whole level.
    ///
    /// A delete may have made room for an item before the hint. It does not set the hint back: a growth with deletes between its parts
    /// would go through its emptied buckets again after each of them. The item waits for the second try.
    fn step_on(&mut self) -> Result<Step, Refusal> {
        let mut stepped = self.step_from(self.interim_hint);
        if self.interim_hint > 0 && matches!(stepped, Err(Refusal::InterimEmpty | Refusal::NoPlace)) {
            self.interim_hint = 0;
            stepped = self.step_from(0);
        }
        if let Ok(Step { bucket, .. }) = stepped {
            calls::read_ahead(self.words(), self.interim_hint, bucket);
            self.interim_hint = bucket;
        }
        stepped
    }

    /// Does at most so many parts of one growth ([`grow_on`](Table::grow_on)), and answers whether it has ended.
    ///
    /// ```
    /// use ragansils::{Creation, Key, OrdinaryMemory, Phase, Record, Refusal, Table};
    ///
    /// let creation = Creation::new(5, 1);
    /// let mut table = Table::create(vec![0; creation.words().unwrap()], &creation, OrdinaryMemory)?;
    /// for line in 0..100 {
    ///     let key = Key::new(0x5555_0000_1000 + 4 * line, 0).unwrap();
    ///     let record = Record { function: 7, place: line };
    ///     while table.insert(key, record) == Err(Refusal::NoPlace) {
    ///         table.grow_on()?;
    ///     }
    ///     // The caller sets the pace: two parts with each insert, until the growth has ended.
    ///     if table.phase()? == Phase::Growing {
    ///         table.grow(2)?;
    ///     }
    /// }
    /// # Ok::<(), Refusal>(())
    /// ```
    pub fn grow(&mut self, most: u64) -> Result<bool, Refusal> {
        self.resize(most, Table::grow_on)
    }

    /// Does at most so many parts of one shrink ([`shrink_on`](Table::shrink_on)), and answers whether it has ended.
    pub fn shrink(&mut self, most: u64) -> Result<bool, Refusal> {
        self.resize(most, Table::shrink_on)
    }

    fn resize(&mut self, most: u64, part: fn(&mut Self) -> Result<Part, Refusal>) -> Result<bool, Refusal> {
        for _ in 0..most {
            if part(self)? == Part::Ended {
                return Ok(true);
            }
        }
        Ok(false)
    }

    /// Whether the table is at rest, grows or shrinks. Refusals: `BadHeader`, `FlagSet`.
    pub fn phase(&self) -> Result<Phase, Refusal> {
        // Of all calls back tells it soonest: end would first look for an item in the whole interim level.
        match calls::back(self.words()) {
            Ok(_) | Err(Refusal::NotResizing) => {
                let state = State::of(self.words());
                Ok(state.expect("a table with a good header has a phase").phase)
            }
            Err(refusal) => Err(refusal),
        }
    }
}

#[cfg(test)]
mod tests;
