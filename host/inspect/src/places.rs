//! Where a key may stand, in the order in which a query looks there.

use ragansils::{Key, Level};
use ragansils_model::Table;

#[derive(Clone, Copy)]
pub struct Place {
    pub level: Level,
    pub bucket: usize,
}

/// "top, bottom, interim; in each, first place, then second if different"
pub fn places(table: &Table, key: Key) -> Vec<Place> {
    let levels = Level::ALL.into_iter().zip(table.levels_in_use());
    let in_level = |(level, buckets)| {
        table.places(key.word(), buckets).into_iter().map(move |bucket| Place { level, bucket })
    };
    levels.flat_map(in_level).collect()
}

#[cfg(test)]
mod tests {
    use super::*;
    use ragansils::{Creation, Form, Lookup, OrdinaryMemory, Record, MULTIPLIER_1, MULTIPLIER_2};
    use ragansils_model::Slot;

    const EQUAL: u64 = 4294967297;
    const KEYS: u64 = 300;

    fn key(number: u64) -> Key {
        Key::new(0x5555_0000_1000 + 4 * number, 0).unwrap()
    }

    /// What the library answers fits the places: the slot is in the last one that was looked at, and an absent key was looked for in all.
    fn check(table: &Table, key: Key, lookup: Lookup) -> Option<Level> {
        let places = places(table, key);
        let found = match lookup.found {
            Some(found) => found,
            None => {
                assert_eq!(lookup.buckets as usize, places.len());
                return None;
            }
        };
        let Place { level, bucket } = places[lookup.buckets as usize - 1];
        assert_eq!(found.slot.level, level);
        assert!(Slot::all_of(bucket).any(|slot| slot.key_word() == found.slot.word));
        Some(level)
    }

    type OwnTable = ragansils::Table<Vec<u64>, OrdinaryMemory>;

    /// After some parts of a growth or a shrink; the same levels are met in both forms.
    fn check_table(multipliers: [u64; 2], resize: impl Fn(&mut OwnTable)) -> Vec<Option<Level>> {
        let [of_form_1, of_form_2] = Form::ALL.map(|form| check_form(form, multipliers, &resize));
        assert_eq!(of_form_1, of_form_2);
        of_form_2
    }

    fn check_form(form: Form, multipliers: [u64; 2], resize: impl Fn(&mut OwnTable)) -> Vec<Option<Level>> {
        let creation = Creation { form, multipliers, ..Creation::new(7, 6) };
        let words = vec![0; creation.words().unwrap()];
        let mut table = ragansils::Table::create(words, &creation, OrdinaryMemory).unwrap();
        let record = Record { function: 1, place: 2 };
        let taken = (0..KEYS).take_while(|&number| table.insert(key(number), record).is_ok()).count() as u64;
        resize(&mut table);
        let of_words = Table::read(table.words()).unwrap();
        let told = |number| check(&of_words, key(number), table.query(key(number)).unwrap());
        let mut levels: Vec<Option<Level>> = (0..2 * taken).map(told).collect();
        levels.sort_unstable();
        levels.dedup();
        levels
    }

    #[test]
    fn the_slot_that_is_told_lies_in_the_last_place_looked_at() {
        let multipliers = [MULTIPLIER_1, MULTIPLIER_2];
        let at_rest = [None, Some(Level::Top), Some(Level::Bottom)];
        assert_eq!(check_table(multipliers, |_| ()), at_rest);
        let resizing = [&at_rest[..], &[Some(Level::Interim)]].concat();
        assert_eq!(check_table(multipliers, |table| assert_eq!(table.grow(10), Ok(false))), resizing);
        assert_eq!(check_table(multipliers, |table| assert_eq!(table.shrink(100), Ok(false))), resizing);
    }

    /// With equal multipliers both places are one.
    #[test]
    fn places_that_coincide_are_one() {
        for resize in [OwnTable::grow, OwnTable::shrink] {
            let levels = check_table([MULTIPLIER_1; 2], |table| assert_eq!(resize(table, 10), Ok(false)));
            assert!(levels.contains(&Some(Level::Interim)));
        }
        let creation = Creation { multipliers: [EQUAL; 2], ..Creation::new(2, 1) };
        let words = vec![0; creation.words().unwrap()];
        let table = ragansils::Table::create(words, &creation, OrdinaryMemory).unwrap();
        let places = places(&Table::read(table.words()).unwrap(), 3.into());
        let told: Vec<(Level, usize)> = places.into_iter().map(|place| (place.level, place.bucket)).collect();
        assert_eq!(told, [(Level::Top, 2), (Level::Bottom, 0)]);
    }
}
