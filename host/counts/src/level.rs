//! A level table in words of its own, by the proved library or by its twin, and what comes into it.

use ragansils_compare::history::Setting;
use ragansils_compare::random::Random;
use ragansils_model::{create, table_words, Event, Refusal, Table, SUCCESS};
use ragansils_twin::Side;

pub type Record = [u64; 2];

/// The record that a key has before any update. Inserts that are measured ask for it, in another crate.
#[inline]
pub fn record_of(key: u64) -> Record {
    [key.wrapping_mul(3), key ^ (key >> 7)]
}

/// The form of a new table, and the one that every table had before there were two: counts that are compared with earlier ones, and
/// libraries of earlier commits, have tables of that.
pub const NEW_FORM: u64 = 2;
pub const OLD_FORM: u64 = 1;

/// The settings of a table that is created as large as it can be.
pub fn full_size(random: &mut Random, form: u64, c: u64) -> Setting {
    let (mul1, mul2) = (random.word() | 1, random.word() | 1);
    Setting { form, c, k: c, mul1, mul2 }
}

/// The slots of a top with 2^k buckets and of the bottom under it.
pub fn slots(k: u64) -> usize {
    6 << k
}

/// The slots of top and bottom before any growth, of which a load is a share.
pub fn slots_of(setting: Setting) -> usize {
    slots(setting.k)
}

pub fn items_at(setting: Setting, load: f64) -> usize {
    (slots_of(setting) as f64 * load) as usize
}

pub struct LevelTable<S> {
    pub side: S,
    pub words: Vec<u64>,
}

impl<S: Side> LevelTable<S> {
    /// Created by the model: the library of an earlier commit may be linked, whose setting asks for other arguments.
    pub fn new(side: S, setting: Setting) -> LevelTable<S> {
        let Setting { form, c, k, mul1, mul2 } = setting;
        // Not zeros, which would be no memory yet.
        let mut words = vec![1; table_words(c).expect("a capacity from 1 to 20")];
        let number = create(&mut words, form, c, k, mul1, mul2);
        assert_eq!(number, SUCCESS, "a table is created");
        LevelTable { side, words }
    }

    #[inline(always)]
    pub fn change(&mut self, event: Event) -> bool {
        self.side.change(&mut self.words, event) == SUCCESS
    }

    /// Whether a new key came in; refusal 6 is what keeps it out.
    pub fn insert_new(&mut self, key: u64) -> Result<bool, String> {
        let [function, place] = record_of(key);
        let number = self.side.change(&mut self.words, Event::Insert { key, function, place });
        match number {
            SUCCESS => Ok(true),
            _ if number == Refusal::NoPlace.number() => Ok(false),
            _ => Err(format!("the insert of a new key was refused with {number}")),
        }
    }

    /// Brings new keys in that all have room.
    pub fn fill(&mut self, keys: &[u64]) -> Result<(), String> {
        for (taken, &key) in keys.iter().enumerate() {
            if !self.insert_new(key)? {
                return Err(format!("the table took {taken} of {} keys", keys.len()));
            }
        }
        Ok(())
    }

    pub fn items_in_bottom(&self) -> usize {
        let table = Table::read(&self.words).expect("the library leaves a good header");
        table.taken_slots(&[table.bottom()]).len()
    }
}

#[cfg(test)]
mod tests {
    use super::*;
    use ragansils_twin::{Proved, Side, Twin};

    #[test]
    fn a_table_is_created_as_both_sides_do() {
        for form in [OLD_FORM, NEW_FORM] {
            let setting = full_size(&mut Random::new(1), form, 3);
            let table = LevelTable::new(Proved::default(), setting);
            let (mut by_library, mut by_twin) = (vec![7; table.words.len()], vec![7; table.words.len()]);
            assert_eq!(Proved::default().create(&mut by_library, setting), SUCCESS);
            assert_eq!(Twin.create(&mut by_twin, setting), SUCCESS);
            assert_eq!((&by_library, &by_twin), (&table.words, &table.words));
        }
    }

    #[test]
    fn no_key_comes_in_twice() {
        let setting = full_size(&mut Random::new(1), OLD_FORM, 3);
        let mut table = LevelTable::new(Proved::default(), setting);
        assert_eq!(table.insert_new(5), Ok(true));
        assert_eq!(table.insert_new(5), Err("the insert of a new key was refused with 4".to_string()));
        assert_eq!(table.fill(&[6, 7, 5]), Err("the insert of a new key was refused with 4".to_string()));
    }

    #[test]
    fn a_full_table_keeps_keys_out() {
        let setting = full_size(&mut Random::new(1), OLD_FORM, 2);
        let mut table = LevelTable::new(Proved::default(), setting);
        let more_than_slots: Vec<u64> = (1..=slots_of(setting) as u64 + 1).collect();
        let taken = more_than_slots.iter().take_while(|&&key| table.insert_new(key) == Ok(true)).count();
        assert!(taken <= slots_of(setting));
        let others = &more_than_slots[taken..];
        assert_eq!(table.fill(others), Err(format!("the table took 0 of {} keys", others.len())));
    }
}
