//! A table that makes its own stores.

use crate::stores::make_in_order;
use crate::{
    calls, Creation, Form, Frames, Key, Lookup, Platform, Record, Refusal, Step, StoreList, Unconverted,
};

/// A position table over words that it is lent: a `&mut [u64]`, a `Vec<u64>`, or a [`MappedFile`](crate::MappedFile).
///
/// A change asks the library for its stores and makes them one by one, in order, each followed by the [`Platform`]'s own act. The
/// process may end, or power go, after any of them: the next [`open`](Table::open) brings back the map before the change or the map
/// after it. A change that is refused leaves everything as it was.
///
/// ```
/// use ragansils::{Creation, Key, OrdinaryMemory, Record, Refusal, Table};
///
/// let creation = Creation::new(4, 1);
/// let mut words = vec![0; creation.words().unwrap()];
/// let mut table = Table::create(words.as_mut_slice(), &creation, OrdinaryMemory)?;
///
/// let key = Key::new(0x5555_0000_1040, 0).unwrap();
/// table.insert(key, Record { function: 7, place: 120 })?;
/// assert_eq!(table.insert(key, Record { function: 8, place: 0 }), Err(Refusal::KeyPresent));
/// table.update(key, Record { function: 7, place: 123 })?;
/// assert_eq!(table.query(key)?.record(), Some(Record { function: 7, place: 123 }));
/// table.delete(key)?;
/// assert_eq!(table.query(key)?.record(), None);
/// # Ok::<(), Refusal>(())
/// ```
#[derive(Debug)]
pub struct Table<W, P> {
    words: W,
    platform: P,
    /// The interim bucket from which growing and shrinking go on. It is a mere hint: with any word here a part answers as with any other, though
    /// it may move another item, and a wrong one costs time. So it is not kept in the table, and each opened or created one begins at 0.
    pub(crate) interim_hint: u64,
}

impl<W: AsRef<[u64]> + AsMut<[u64]>, P: Platform> Table<W, P> {
    /// Makes an empty table in words of exactly the right number ([`Creation::words`]), whatever they held.
    ///
    /// A cut in creation is not covered, and the platform is not told of its stores: make the words lasting before anything relies on
    /// them. Refusal: `BadCreation`.
    pub fn create(mut words: W, creation: &Creation, platform: P) -> Result<Table<W, P>, Refusal> {
        calls::create(words.as_mut(), creation)?;
        Ok(Table { words, platform, interim_hint: 0 })
    }

    /// Takes up a table where an earlier process left it, in the form in which it was created: looks at the whole table, and mends what a
    /// cut left, by at most three stores. Where that is cut too, the next open does it again.
    ///
    /// Refusals: `BadHeader` where the words are no table, `NoKind` where they are damaged otherwise than by a cut. Either leaves the
    /// words as they are; the program `ragansils-inspect` says what is wrong.
    pub fn open(words: W, platform: P) -> Result<Table<W, P>, Refusal> {
        let mut table = Table { words, platform, interim_hint: 0 };
        table.recover()?;
        Ok(table)
    }

    /// The form in which the table was created. Refusal: `BadHeader`, which does not come on a table that was opened or created.
    pub fn form(&self) -> Result<Form, Refusal> {
        // That the header is good is the library's to say; any of its calls would do. A cut update does not change the form.
        match calls::back(self.words()) {
            Err(Refusal::BadHeader) => Err(Refusal::BadHeader),
            _ => Ok(Form::of(self.words()).expect("a table with a good header has a form")),
        }
    }

    /// Makes the other form of this table in as many words, whatever they held: with the same capacity exponent, top, multipliers and
    /// items. This table stays as it is. [`MappedFile::convert`](crate::MappedFile::convert) makes it in a new file.
    ///
    /// ```
    /// use ragansils::{Creation, Form, Key, OrdinaryMemory, Record, Table};
    ///
    /// let creation = Creation { form: Form::One, ..Creation::new(4, 1) };
    /// let mut table = Table::create(vec![0; creation.words().unwrap()], &creation, OrdinaryMemory)?;
    /// let key = Key::new(0x5555_0000_1040, 0).unwrap();
    /// table.insert(key, Record { function: 7, place: 120 })?;
    ///
    /// let second = table.convert(vec![0; table.words().len()], OrdinaryMemory)?;
    /// assert_eq!(second.form(), Ok(Form::Two));
    /// assert_eq!(second.query(key)?.record(), Some(Record { function: 7, place: 120 }));
    /// # Ok::<(), Box<dyn std::error::Error>>(())
    /// ```
    ///
    /// Refusals: `Resizing` while the table grows or shrinks; `OtherLength`; and `NoPlace` with the key of an item that has no place in the
    /// other form. Then a [`grow`](Table::grow) of this table makes room, or a delete. The words are left as they were, or with `NoPlace`
    /// as an empty table. `BadHeader` and `NotSound` do not come on a table that was opened or created.
    ///
    /// A cut is not covered, and the platform is not told of the stores, as in creation: make the words lasting before anything relies on
    /// them.
    pub fn convert<V, Q>(&self, mut second: V, platform: Q) -> Result<Table<V, Q>, Unconverted>
    where
        V: AsRef<[u64]> + AsMut<[u64]>,
        Q: Platform,
    {
        calls::convert(self.words(), second.as_mut())?;
        Ok(Table { words: second, platform, interim_hint: 0 })
    }

    /// Looks a key up: its record, and where that stands. Refusals: `BadHeader`, `FlagSet`; neither comes on a table that was opened or
    /// created.
    #[inline]
    pub fn query(&self, key: Key) -> Result<Lookup, Refusal> {
        calls::query(self.words(), key)
    }

    /// Looks up the frames at an address, the innermost first, from this inlining depth down to depth 0. Refusals: `KeyAbsent` where one
    /// of these depths has no record, `BadPosition` for an address of 2^56 or more; `BadHeader` and `FlagSet` as for a query.
    #[inline]
    pub fn frames(&self, address: u64, depth: u8) -> Result<Frames, Refusal> {
        Frames::look_up(self.words(), address, depth)
    }

    /// Brings a key in that is absent, by 4 stores or 9, and answers their number. Refusals: `KeyPresent`, and `NoPlace`, where
    /// [`grow`](Table::grow) makes room.
    pub fn insert(&mut self, key: Key, record: Record) -> Result<u64, Refusal> {
        self.change(|words| calls::insert(words, key, record))
    }

    /// Gives a key another record, by 4 stores or 7, and answers their number. No cut leaves the old function beside the new place.
    /// Refusal: `KeyAbsent`.
    pub fn update(&mut self, key: Key, record: Record) -> Result<u64, Refusal> {
        self.change(|words| calls::update(words, key, record))
    }

    /// Takes a key out, by 1 store. Refusal: `KeyAbsent`.
    pub fn delete(&mut self, key: Key) -> Result<u64, Refusal> {
        self.change(|words| calls::delete(words, key))
    }

    /// Begins a growth, by 1 store: the top becomes twice as large. Refusals: `AlreadyResizing`, `AtCapacity`.
    pub fn begin(&mut self) -> Result<u64, Refusal> {
        self.change_and_forget_hint(calls::begin)
    }

    /// Begins a shrink, by 1 store: the top becomes half as large. [`shrink`](Table::shrink) does so by itself, and says when a table can
    /// shrink. Refusals: `AlreadyResizing`, `TooSmall`.
    pub fn begin_shrink(&mut self) -> Result<u64, Refusal> {
        self.change_and_forget_hint(calls::shrink)
    }

    /// Turns back, by 1 store: a table that shrinks grows, and one that grows shrinks, over the same three levels. Turning back twice gives
    /// the state before. Refusal: `NotResizing`.
    ///
    /// So a shrink that is stuck is left: the level that it was emptying is the top again, with the slots that were freed there.
    ///
    /// ```
    /// use ragansils::{Creation, Key, OrdinaryMemory, Phase, Record, Refusal, Table};
    ///
    /// let creation = Creation::new(4, 4);
    /// let mut table = Table::create(vec![0; creation.words().unwrap()], &creation, OrdinaryMemory)?;
    /// for line in 0..60 {
    ///     table.insert(Key::new(0x5555_0000_1000 + 4 * line, 0).unwrap(), Record { function: 7, place: line })?;
    /// }
    /// // 60 items are more than the 48 slots of the smaller table.
    /// assert_eq!(table.shrink(u64::MAX), Err(Refusal::NoPlace));
    ///
    /// table.back()?;
    /// assert_eq!(table.phase(), Ok(Phase::Growing));
    /// assert_eq!(table.grow(u64::MAX), Ok(true));
    /// assert_eq!(table.phase(), Ok(Phase::AtRest));
    /// # Ok::<(), Refusal>(())
    /// ```
    pub fn back(&mut self) -> Result<u64, Refusal> {
        self.change_and_forget_hint(calls::back)
    }

    /// Moves the first item of the interim level that has a place, by 5 stores or 10, and answers their number. Refusals: `NotResizing`,
    /// `InterimEmpty`, and `NoPlace`, where items are left and none of them has a place.
    ///
    /// It looks for that item from the first interim bucket on, so the time of a whole growth or shrink by such steps alone rises with the
    /// square of its size; [`grow_on`](Table::grow_on) and [`shrink_on`](Table::shrink_on) go on where they were.
    pub fn step(&mut self) -> Result<u64, Refusal> {
        self.change(calls::step)
    }

    /// The same over the interim buckets from one of them on, counted from 0 in the level: with 0 it is [`step`](Table::step). Any word may
    /// be handed in; past the level there are no items. Refusals: those of `step`; but `InterimEmpty` and `NoPlace` speak of the items from
    /// there on only.
    ///
    /// On a sound table no step gives a place to an item that had none. So where no other call comes between, one pass, from 0 and on from each bucket told,
    /// moves all items that have a place:
    ///
    /// ```
    /// use ragansils::{Creation, Key, OrdinaryMemory, Record, Refusal, Table};
    ///
    /// let creation = Creation::new(5, 4);
    /// let mut table = Table::create(vec![0; creation.words().unwrap()], &creation, OrdinaryMemory)?;
    /// for line in 0..80 {
    ///     table.insert(Key::new(0x5555_0000_1000 + 4 * line, 0).unwrap(), Record { function: 7, place: line })?;
    /// }
    /// table.begin()?;
    /// let mut from = 0;
    /// while let Ok(step) = table.step_from(from) {
    ///     from = step.bucket;
    /// }
    /// table.end()?;
    /// # Ok::<(), Refusal>(())
    /// ```
    ///
    /// A wrong start costs time or leaves items for later, and never makes a wrong table. [`grow_on`](Table::grow_on) and
    /// [`shrink_on`](Table::shrink_on) do all this by themselves.
    pub fn step_from(&mut self, from: u64) -> Result<Step, Refusal> {
        let mut list = StoreList::empty();
        let bucket = calls::list_step_from(self.words(), from, &mut list)?;
        make_in_order(self.words.as_mut(), &list, &mut self.platform);
        Ok(Step { stores: list.count(), bucket })
    }

    /// Ends a growth or a shrink, by 1 store. Refusals: `NotResizing`, `InterimTaken`.
    pub fn end(&mut self) -> Result<u64, Refusal> {
        self.change_and_forget_hint(calls::end)
    }

    /// Mends what a cut left, by no store, 1 or 3, and answers their number. [`open`](Table::open) has done so; it is needed again
    /// only where a platform's act panicked in the middle of a change. Refusals: `BadHeader`, `NoKind`.
    pub fn recover(&mut self) -> Result<u64, Refusal> {
        self.change_and_forget_hint(calls::recover)
    }

    /// The table's words.
    pub fn words(&self) -> &[u64] {
        self.words.as_ref()
    }

    /// Gives back what was lent.
    pub fn into_parts(self) -> (W, P) {
        (self.words, self.platform)
    }

    /// A change after which growing and shrinking begin at the first bucket again: of another interim level, or because a step that was cut
    /// may have left room for an item that was passed.
    fn change_and_forget_hint(
        &mut self,
        list: fn(&[u64]) -> Result<StoreList, Refusal>,
    ) -> Result<u64, Refusal> {
        let stores = self.change(list)?;
        self.interim_hint = 0;
        Ok(stores)
    }

    fn change(&mut self, list: impl FnOnce(&[u64]) -> Result<StoreList, Refusal>) -> Result<u64, Refusal> {
        let list = list(self.words())?;
        make_in_order(self.words.as_mut(), &list, &mut self.platform);
        Ok(list.count())
    }
}

/// The table's words, so that an [`Overlay`](crate::Overlay) can be made of it.
impl<W: AsRef<[u64]>, P> AsRef<[u64]> for Table<W, P> {
    fn as_ref(&self) -> &[u64] {
        self.words.as_ref()
    }
}
