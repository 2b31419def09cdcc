//! The ways through a whole growth or a whole shrink of a level table, from its beginning to its end, and the tables that go them.

use ragansils::{calls, OrdinaryMemory, Refusal, Table};
use ragansils_compare::history::Setting;
use ragansils_compare::random::Random;
use ragansils_counts::{items_at, Keys, Kind, LevelTable};
use ragansils_model::{Event, SUCCESS};
use ragansils_twin::{Proved, Side, Twin};

use crate::clock::timed;
use crate::instructions::counted_calls;
use crate::peers::{LIBRARY, TWIN};

/// A round goes through so many interim buckets at least, by several growths or shrinks of a small table.
const BUCKETS_IN_A_ROUND: u64 = 1 << 11;

/// The library by the crate too, but that each step starts at the first interim bucket.
pub const FROM_FIRST: &str = "library, from bucket 0";

/// A level table at rest, lent to a driver.
pub type Lent = Table<Vec<u64>, OrdinaryMemory>;
pub type Driver = fn(Lent) -> Driven;

pub struct Driven {
    pub nanoseconds: f64,
    /// Whether the growth or the shrink came to its end.
    pub has_ended: bool,
    pub words: Vec<u64>,
}

/// A growth of the library by the crate's own driver, and of the twin in the same way.
pub const GOING_ON: [(&str, Driver); 2] = [(LIBRARY, grown_by_the_crate), (TWIN, grown_by_the_twin)];
/// A shrink in the same two ways.
pub const SHRINKING: [(&str, Driver); 2] = [(LIBRARY, shrunk_by_the_crate), (TWIN, shrunk_by_the_twin)];
/// The only way that there was before a step could be told where to start.
pub const OLD_WAY: (&str, Driver) = (FROM_FIRST, from_the_first_bucket);

fn grown_by_the_crate(table: Lent) -> Driven {
    by_the_crate(table, Table::grow)
}

fn shrunk_by_the_crate(table: Lent) -> Driven {
    by_the_crate(table, Table::shrink)
}

#[inline(always)]
fn by_the_crate(mut table: Lent, way: impl Fn(&mut Lent, u64) -> Result<bool, Refusal>) -> Driven {
    let (nanoseconds, ended) = timed(|| way(&mut table, u64::MAX));
    Driven { nanoseconds, has_ended: ended == Ok(true), words: table.into_parts().0 }
}

fn from_the_first_bucket(mut table: Lent) -> Driven {
    let (nanoseconds, has_ended) = timed(|| {
        let begun = table.begin();
        while table.step().is_ok() {}
        begun.is_ok() && table.end().is_ok()
    });
    Driven { nanoseconds, has_ended, words: table.into_parts().0 }
}

fn grown_by_the_twin(table: Lent) -> Driven {
    by_the_twin(table, Event::Begin)
}

fn shrunk_by_the_twin(table: Lent) -> Driven {
    by_the_twin(table, Event::Shrink)
}

fn by_the_twin(table: Lent, begin: Event) -> Driven {
    let (mut words, _) = table.into_parts();
    let (nanoseconds, has_ended) = timed(|| go_on(&mut Twin, &mut words, begin));
    Driven { nanoseconds, has_ended, words }
}

/// As the crate's driver does it: each step goes on from the bucket told, and reads ahead; where none is taken there, once more from the first.
fn go_on(side: &mut impl Side, words: &mut [u64], begin: Event) -> bool {
    let begun = side.change(words, begin);
    let mut from = 0;
    loop {
        match side.step_from(words, from) {
            (SUCCESS, bucket) => {
                calls::read_ahead(words, from, bucket);
                from = bucket;
            }
            _ if from > 0 => from = 0,
            _ => break,
        }
    }
    begun == SUCCESS && side.change(words, Event::End) == SUCCESS
}

/// A level table that is about to grow or to shrink.
pub struct Level {
    pub keys: Keys,
    pub before: Vec<u64>,
    /// The words in which it does: the same for every driver, so that none has the better piece of memory.
    pub words: Vec<u64>,
    pub items_in_bottom: usize,
}

impl Level {
    pub fn new(random: &mut Random, setting: Setting, load: f64) -> Result<Level, String> {
        let keys = Keys::new(random, Kind::Random, items_at(setting, load), 0);
        let mut table = LevelTable::new(Proved::default(), setting);
        table.fill(keys.present())?;
        let items_in_bottom = table.items_in_bottom();
        Ok(Level { keys, words: table.words.clone(), before: table.words, items_in_bottom })
    }

    pub fn items_in_top(&self) -> usize {
        self.keys.present().len() - self.items_in_bottom
    }

    /// The table before. Opening it looks at all of it, so that every driver finds the caches alike.
    pub fn lend(&mut self) -> Result<Lent, String> {
        let mut words = std::mem::take(&mut self.words);
        words.clone_from(&self.before);
        Table::open(words, OrdinaryMemory).map_err(|refusal| format!("the table is refused: {refusal:?}"))
    }

    /// Nanoseconds of one way through, and whether it came to its end.
    pub fn drive(&mut self, driver: Driver) -> Result<(f64, bool), String> {
        let driven = driver(self.lend()?);
        self.words = driven.words;
        Ok((driven.nanoseconds, driven.has_ended))
    }

    /// All these drivers come to the end, and leave the same words.
    pub fn check_words(&mut self, drivers: &[(&'static str, Driver)]) -> Result<(), String> {
        let mut first_words = vec![];
        for &(name, driver) in drivers {
            let (_, has_ended) = self.drive(driver)?;
            if first_words.is_empty() {
                first_words.clone_from(&self.words);
            }
            if !has_ended || first_words != self.words {
                return Err(format!("what is driven by {name} does not end as by the first driver"));
            }
        }
        Ok(())
    }

    /// Goes one way through by a side's driver, under valgrind.
    pub fn run_counted(&mut self, drivers: &[(&'static str, Driver)], side: &str) -> Result<(), String> {
        let known = drivers.iter().find(|(name, _)| *name == side);
        let &(_, driver) = known.ok_or_else(|| format!("no side {side}"))?;
        let mut table = Some(self.lend()?);
        // The clock's first look measures what it costs by itself.
        timed(|| ());
        let mut has_ended = 0;
        let mut drive = || table.take().map_or(0, |table| driver(table).has_ended.into());
        counted_calls(&mut drive, &mut has_ended);
        match has_ended {
            1 => Ok(()),
            _ => Err(format!("what is driven by the {side} did not end")),
        }
    }
}

/// How often a small table is driven in a round, so that it goes through as many interim buckets as a large one.
pub fn repeats(interim_buckets: u64) -> u64 {
    (BUCKETS_IN_A_ROUND / interim_buckets).max(1)
}
