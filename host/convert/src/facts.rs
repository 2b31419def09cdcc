//! What is told of a table.

use std::ops::Range;

use ragansils::Form;
use ragansils_model::Table;

#[derive(Clone, Debug, PartialEq, Eq)]
pub struct Facts {
    pub form: Form,
    pub capacity: u64,
    /// The top has 2^k buckets.
    pub k: u64,
    /// The buckets of bottom and top, which lie behind each other.
    pub buckets: Range<usize>,
}

impl Facts {
    /// Of words with a good header; whether the table is sound or at rest is not looked at.
    pub fn of(words: &[u64]) -> Option<Facts> {
        let table = Table::read(words).ok()?;
        let buckets = table.bottom().buckets().start..table.top().buckets().end;
        let form = Form::of_number(table.form())?;
        Some(Facts { form, capacity: table.capacity(), k: table.state.k, buckets })
    }
}

/// The items in top and bottom of words with a good header. This reads the whole table.
pub fn count_items(words: &[u64]) -> u64 {
    let count = |table: Table| {
        let buckets = [table.top(), table.bottom()].into_iter().flat_map(|level| level.buckets());
        buckets.map(|bucket| u64::from(table.taken_count(bucket))).sum()
    };
    Table::read(words).map_or(0, count)
}

#[cfg(test)]
mod tests {
    use super::*;
    use ragansils::{calls, Creation, OrdinaryMemory, Record};

    #[test]
    fn a_table_is_told_in_either_form() {
        for form in Form::ALL {
            let creation = Creation { form, ..Creation::new(5, 3) };
            let words = vec![0; creation.words().unwrap()];
            let mut table = ragansils::Table::create(words, &creation, OrdinaryMemory).unwrap();
            for key in 0..30 {
                table.insert((key << 30).into(), Record::default()).unwrap();
            }
            let found = (0..30).map(|key| calls::query(table.words(), (key << 30).into()).unwrap().found);
            assert_eq!(found.flatten().count(), 30);
            // A bottom of four buckets and a top of eight.
            let facts = Facts { form, capacity: 5, k: 3, buckets: 3..15 };
            assert_eq!((Facts::of(table.words()), count_items(table.words())), (Some(facts), 30));
        }
    }

    #[test]
    fn of_words_that_are_no_table_there_are_none() {
        assert_eq!((Facts::of(&[]), count_items(&[])), (None, 0));
        assert_eq!((Facts::of(&[0; 48]), count_items(&[0; 48])), (None, 0));
    }
}
