//! Tables before their last growth, and in the middle of a growth or a shrink.

use ragansils_compare::history::Setting;
use ragansils_model::{Event, Table, SUCCESS};
use ragansils_twin::{Proved, Side};

/// The creation from which a table of capacity `c` grows for the last time.
pub fn last_growth(setting: Setting) -> Setting {
    Setting { k: setting.c - 1, ..setting }
}

/// Brings a level table into the middle of a growth or a shrink: begun by its event, and half of the interim items moved. A step is
/// the same as a delete of its item and an insert of it, which needs no search through the interim level.
pub fn half_way(words: &mut [u64], begin: Event) -> Result<(), String> {
    let mut library = Proved::default();
    let mut change = |words: &mut [u64], event| match library.change(words, event) {
        SUCCESS => Ok(()),
        number => Err(format!("{event:?} was refused with {number}")),
    };
    change(words, begin)?;
    let table = Table::read(words).map_err(|refusal| format!("{refusal:?}"))?;
    let interim = table.interim().ok_or("begun, but no interim level")?;
    let items = table.taken_slots(&[interim]);
    let records: Vec<[u64; 3]> = items.iter().take(items.len() / 2).map(|&slot| table.record(slot)).collect();
    for [key, function, place] in records {
        change(words, Event::Delete { key })?;
        change(words, Event::Insert { key, function, place })?;
    }
    Ok(())
}

#[cfg(test)]
mod tests {
    use super::*;
    use crate::{full_size, LevelTable, OLD_FORM};
    use ragansils_compare::random::Random;

    #[test]
    fn half_of_the_bottom_is_left_in_the_interim() {
        let setting = last_growth(full_size(&mut Random::new(1), OLD_FORM, 6));
        let mut table = LevelTable::new(Proved::default(), setting);
        table.fill(&(1..=150).collect::<Vec<u64>>()).unwrap();
        let in_bottom = table.items_in_bottom();
        assert!(in_bottom > 1);
        half_way(&mut table.words, Event::Begin).unwrap();
        assert_eq!(interim_and_all(&table.words), (in_bottom - in_bottom / 2, 150));
    }

    #[test]
    fn half_of_the_top_is_left_in_the_interim() {
        let mut table = LevelTable::new(Proved::default(), full_size(&mut Random::new(1), OLD_FORM, 6));
        table.fill(&(1..=150).collect::<Vec<u64>>()).unwrap();
        let in_top = 150 - table.items_in_bottom();
        half_way(&mut table.words, Event::Shrink).unwrap();
        assert_eq!(interim_and_all(&table.words), (in_top - in_top / 2, 150));
    }

    /// The items of the interim level, and all items.
    fn interim_and_all(words: &[u64]) -> (usize, usize) {
        let table = Table::read(words).unwrap();
        let interim = table.taken_slots(&[table.interim().unwrap()]).len();
        (interim, table.taken_slots(&table.levels_in_use()).len())
    }
}
