//! A newer table and an older one lent together, and what is told of a key in them: by the library, and by the model.

use ragansils::raw::{self, TablePart};
use ragansils_model as model;
use ragansils_model::Asked;

use crate::layout::SLOT_WORDS;
use crate::library::{Guarded, UNWRITTEN};

/// The names of the two tables, as an answer tells them.
pub const NEWER: u64 = 0;
pub const OLDER: u64 = 1;
/// Where a part stands that is in neither of them.
const NOWHERE: u64 = 2;

/// The address of a part that is empty and of no table: not null, and aligned.
const NO_PART: [u64; 2] = [8, 0];

/// What both calls tell of a key.
#[derive(Clone, Copy, Debug, PartialEq, Eq)]
pub struct Told {
    pub number: u64,
    pub name: u64,
    pub buckets: u64,
    pub part: ToldPart,
}

/// A part by its pointer and its length.
#[derive(Clone, Copy, Debug, PartialEq, Eq)]
pub struct ToldPart {
    /// In which table it stands. Of a table that is lent twice it is always the newer.
    pub table: u64,
    /// The index of its first word there.
    pub word: u64,
    pub length: u64,
    /// Zeros, where the part is not three words of a table.
    pub words: [u64; SLOT_WORDS],
}

impl Told {
    /// The number is not among them.
    pub const WORDS: usize = 8;

    pub fn words(&self) -> [u64; Told::WORDS] {
        let ToldPart { table, word, length, words: [key, function, place] } = self.part;
        [self.name, self.buckets, table, word, length, key, function, place]
    }

    /// None where there are more or fewer words.
    pub fn of_words(number: u64, words: &[u64]) -> Option<Told> {
        match *words {
            [name, buckets, table, word, length, key, function, place] => {
                let part = ToldPart { table, word, length, words: [key, function, place] };
                Some(Told { number, name, buckets, part })
            }
            _ => None,
        }
    }

    pub fn by_model(newer: &[u64], older: &[u64], key: u64) -> Told {
        let Asked { number, name, buckets } = model::asked(newer, older, key);
        let part = model::part(newer, older, key);
        let part = ToldPart::of(part.as_ptr() as usize, part.len() as u64, [newer, older]);
        Told { number, name, buckets, part }
    }
}

impl ToldPart {
    /// The words are read in the table, and not by the pointer, which may lead anywhere.
    fn of(address: usize, length: u64, tables: [&[u64]; 2]) -> ToldPart {
        let (table, word) = stands_at(address, tables).unwrap_or((NOWHERE, 0));
        let words =
            tables.get(table as usize).and_then(|words| words.get(word as usize..)?.get(..SLOT_WORDS));
        let is_three = length == SLOT_WORDS as u64;
        let words =
            words.filter(|_| is_three).map_or([0; SLOT_WORDS], |words| [words[0], words[1], words[2]]);
        ToldPart { table, word, length, words }
    }
}

/// A table that is lent twice stands at one address, which is called the newer's. Where a table begins comes first: an empty part may
/// begin where another table ends.
fn stands_at(address: usize, [newer, older]: [&[u64]; 2]) -> Option<(u64, u64)> {
    let tables = [(NEWER, newer), (OLDER, older)];
    let start = |words: &[u64]| words.as_ptr() as usize;
    let has = |words: &[u64]| (start(words)..start(words) + 8 * words.len()).contains(&address);
    let begins = tables.into_iter().find(|(_, words)| start(words) == address);
    let (name, words) = begins.or_else(|| tables.into_iter().find(|(_, words)| has(words)))?;
    let bytes = address - start(words);
    (bytes % 8 == 0).then_some((name, bytes as u64 / 8))
}

/// The buffers that are lent to the library, each between guard words of its own.
pub struct TwoTables {
    newer: Guarded,
    /// None where the newer is lent twice.
    older: Option<Guarded>,
    answer: Guarded,
    part: Guarded,
}

impl TwoTables {
    pub fn apart(newer: &[u64], older: &[u64]) -> TwoTables {
        TwoTables::lent(newer, Some(Guarded::new(older)))
    }

    /// The same words as the newer and as the older.
    pub fn twice(table: &[u64]) -> TwoTables {
        TwoTables::lent(table, None)
    }

    fn lent(newer: &[u64], older: Option<Guarded>) -> TwoTables {
        let (answer, part) = (Guarded::new(&[UNWRITTEN; 2]), Guarded::new(&NO_PART));
        TwoTables { newer: Guarded::new(newer), older, answer, part }
    }

    pub fn newer(&self) -> &[u64] {
        self.newer.content()
    }

    pub fn older(&self) -> &[u64] {
        self.older.as_ref().unwrap_or(&self.newer).content()
    }

    /// What the library tells of a key.
    pub fn ask(&mut self, key: u64) -> Told {
        let (newer, newer_words) = (self.newer.pointer(), self.newer.length());
        let (older, older_words) = match &mut self.older {
            Some(older) => (older.pointer(), older.length()),
            None => (newer, newer_words),
        };
        self.answer.fill(&[UNWRITTEN; 2]);
        self.part.fill(&NO_PART);
        let (answer, part) = (self.answer.pointer().cast(), self.part.pointer().cast::<TablePart>());
        // SAFETY: each table's pointer is valid for the length beside it, answer and part are buffers of two words of their own, and a
        // part's pointer and length are such words.
        let number = unsafe {
            raw::ragansils_part(newer, newer_words, older, older_words, key, part);
            raw::ragansils_asked(newer, newer_words, older, older_words, key, answer)
        };
        let (answer, part) = (self.answer.content(), self.part.content());
        let part = ToldPart::of(part[0] as usize, part[1], [self.newer(), self.older()]);
        Told { number, name: answer[0], buckets: answer[1], part }
    }

    /// Says which guard words were touched.
    pub fn check_guards(&self) -> Result<(), String> {
        let newer = [("newer table", &self.newer), ("answer", &self.answer), ("part", &self.part)];
        let older = self.older.iter().map(|older| ("older table", older));
        match newer.into_iter().chain(older).find(|(_, buffer)| !buffer.intact()) {
            Some((name, _)) => Err(format!("the library wrote outside the {name}")),
            None => Ok(()),
        }
    }
}

#[cfg(test)]
mod tests {
    use super::*;
    use crate::test_table::table_of;

    #[test]
    fn a_part_is_told_by_its_pointer() {
        let (newer, older) = ([1, 2, 3, 4, 5], [6, 7, 8]);
        let at = |words: &[u64], index: usize| words.as_ptr() as usize + 8 * index;
        let told = |address, length| {
            let ToldPart { table, word, words, .. } = ToldPart::of(address, length, [&newer, &older]);
            (table, word, words)
        };
        assert_eq!(told(at(&newer, 1), 3), (NEWER, 1, [2, 3, 4]));
        assert_eq!(told(at(&older, 0), 3), (OLDER, 0, [6, 7, 8]));
        assert_eq!(told(at(&older, 0), 0), (OLDER, 0, [0; 3]));
        // Another length, past the end, between two words, and elsewhere.
        assert_eq!(told(at(&newer, 1), 2), (NEWER, 1, [0; 3]));
        assert_eq!(told(at(&newer, 3), 3), (NEWER, 3, [0; 3]));
        for address in [at(&newer, 1) + 4, 8, 0] {
            assert_eq!(told(address, 3), (NOWHERE, 0, [0; 3]));
        }
    }

    #[test]
    fn library_and_model_tell_the_same() {
        let newer = table_of(&[[1, 10, 20], [3, 30, 40]]);
        let older = table_of(&[[3, 31, 41], [5, 50, 60]]);
        for (key, number, name, words) in [
            (1, 0, NEWER, [1, 10, 20]),
            (3, 0, NEWER, [3, 30, 40]),
            (5, 0, OLDER, [5, 50, 60]),
            (7, 5, OLDER, [0; 3]),
        ] {
            let mut lent = TwoTables::apart(&newer, &older);
            let told = lent.ask(key);
            assert_eq!(told, Told::by_model(&newer, &older, key));
            assert_eq!((told.number, told.name, told.part.words), (number, name, words));
            assert_eq!((lent.check_guards(), lent.newer(), lent.older()), (Ok(()), &newer[..], &older[..]));
        }
        let told = TwoTables::twice(&newer).ask(3);
        assert_eq!((told.name, told.part.table, told.part.words), (NEWER, NEWER, [3, 30, 40]));
        assert_eq!(told, Told::by_model(&newer, &newer, 3));
    }

    #[test]
    fn what_is_told_is_read_back() {
        let part = ToldPart { table: 1, word: 2, length: 3, words: [4, 5, 6] };
        let told = Told { number: 7, name: 8, buckets: 9, part };
        assert_eq!(Told::of_words(7, &told.words()), Some(told));
        assert_eq!(Told::of_words(7, &told.words()[1..]), None);
    }
}
