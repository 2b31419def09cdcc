//! What a conversion shows.

use std::fmt::{self, Display};

use ragansils::Phase;
use ragansils_model::{
    keys_in_several_slots, misplaced_items, table_words, untidy_buckets, word, Slot, Table, SUCCESS,
};

use crate::case::{is_resizing, phase_of, Case};
use crate::converted::{items, NO_PLACE};
use crate::layout::{FORM, TAGGED};

/// From which form to which, by the source's word 0.
#[derive(Clone, Copy, Debug, PartialEq, Eq, PartialOrd, Ord)]
pub enum Way {
    ToForm2,
    ToForm1,
    /// The source has no form.
    Nowhere,
}

pub const WAYS: [Way; 3] = [Way::ToForm2, Way::ToForm1, Way::Nowhere];

impl Way {
    pub fn of_source(source: &[u64]) -> Way {
        match source.get(FORM) {
            Some(1) => Way::ToForm2,
            Some(&TAGGED) => Way::ToForm1,
            _ => Way::Nowhere,
        }
    }
}

impl Display for Way {
    fn fmt(&self, out: &mut fmt::Formatter) -> fmt::Result {
        out.write_str(match self {
            Way::ToForm2 => "form 1 to 2",
            Way::ToForm1 => "form 2 to 1",
            Way::Nowhere => "no form",
        })
    }
}

/// What a conversion shows. One conversion may show several.
#[derive(Clone, Copy, Debug, PartialEq, Eq, PartialOrd, Ord)]
pub enum Kind {
    /// The numbers of answers.
    Converted,
    BadHeader,
    NoPlace,
    Resizing,
    NotSound,
    OtherLength,
    /// A table without items.
    EmptyConverted,
    Growing,
    Shrinking,
    /// Nothing else is wrong with the source than that its flag is 1, or another word than 0 and 1.
    FlagOne,
    OtherFlag,
    /// Nothing else than token words, or items that are in no place of their keys.
    TokenWords,
    OutOfPlace,
    /// Nothing else than that one key stands twice, with equal records or with others, or that there are more copies.
    EqualCopies,
    UnequalCopies,
    MoreCopies,
    NoWords,
    OneWordLess,
    OneWordMore,
    WordsOfOtherCapacity,
    SomeOtherLength,
    /// What comes later in the order of refusals would refuse it too.
    BadHeaderAndOtherLength,
    NotSoundAndResizing,
    NotSoundAndOtherLength,
    ResizingAndOtherLength,
    /// Of two conversions one after the other, by the first of them.
    ThereAndBack,
    NoPlaceBack,
    /// Other calls were made on what an accepted conversion left.
    Used,
}

pub const KINDS: [Kind; 28] = [
    Kind::Converted,
    Kind::BadHeader,
    Kind::NoPlace,
    Kind::Resizing,
    Kind::NotSound,
    Kind::OtherLength,
    Kind::EmptyConverted,
    Kind::Growing,
    Kind::Shrinking,
    Kind::FlagOne,
    Kind::OtherFlag,
    Kind::TokenWords,
    Kind::OutOfPlace,
    Kind::EqualCopies,
    Kind::UnequalCopies,
    Kind::MoreCopies,
    Kind::NoWords,
    Kind::OneWordLess,
    Kind::OneWordMore,
    Kind::WordsOfOtherCapacity,
    Kind::SomeOtherLength,
    Kind::BadHeaderAndOtherLength,
    Kind::NotSoundAndResizing,
    Kind::NotSoundAndOtherLength,
    Kind::ResizingAndOtherLength,
    Kind::ThereAndBack,
    Kind::NoPlaceBack,
    Kind::Used,
];

impl Display for Kind {
    fn fmt(&self, out: &mut fmt::Formatter) -> fmt::Result {
        out.write_str(match self {
            Kind::Converted => "0",
            Kind::BadHeader => "1",
            Kind::NoPlace => "6",
            Kind::Resizing => "7",
            Kind::NotSound => "12",
            Kind::OtherLength => "13",
            Kind::EmptyConverted => "0 of an empty table",
            Kind::Growing => "7 of a growing table",
            Kind::Shrinking => "7 of a shrinking table",
            Kind::FlagOne => "12 by flag 1 alone",
            Kind::OtherFlag => "12 by another flag alone",
            Kind::TokenWords => "12 by token words alone",
            Kind::OutOfPlace => "12 by items out of place alone",
            Kind::EqualCopies => "12 by two equal copies of a key alone",
            Kind::UnequalCopies => "12 by two unequal copies alone",
            Kind::MoreCopies => "12 by more copies alone",
            Kind::NoWords => "13 with no words",
            Kind::OneWordLess => "13 with one word less",
            Kind::OneWordMore => "13 with one word more",
            Kind::WordsOfOtherCapacity => "13 with the words of another capacity",
            Kind::SomeOtherLength => "13 with some other length",
            Kind::BadHeaderAndOtherLength => "1 with another length",
            Kind::NotSoundAndResizing => "12 of a growing or shrinking table",
            Kind::NotSoundAndOtherLength => "12 with another length",
            Kind::ResizingAndOtherLength => "7 with another length",
            Kind::ThereAndBack => "there and back",
            Kind::NoPlaceBack => "6 on the way back",
            Kind::Used => "went on to be used",
        })
    }
}

/// What can be met, each way.
pub fn possible() -> impl Iterator<Item = (Way, Kind)> {
    let both_ways = [Way::ToForm2, Way::ToForm1].into_iter().flat_map(|way| KINDS.map(|kind| (way, kind)));
    both_ways.chain([(Way::Nowhere, Kind::BadHeader)])
}

/// The way and the kinds of a conversion, by its answer's number.
pub fn ways_and_kinds(case: &Case, number: u64) -> impl Iterator<Item = (Way, Kind)> {
    let way = Way::of_source(&case.table);
    kinds(case, number).into_iter().map(move |kind| (way, kind))
}

fn kinds(case: &Case, number: u64) -> Vec<Kind> {
    let (source, has_other_length) = (&case.table, case.table.len() != case.list.len());
    let seen = match number {
        SUCCESS => vec![(Kind::Converted, true), (Kind::EmptyConverted, items(source).is_empty())],
        NO_PLACE => vec![(Kind::NoPlace, true)],
        1 => vec![(Kind::BadHeader, true), (Kind::BadHeaderAndOtherLength, has_other_length)],
        7 => vec![
            (Kind::Resizing, true),
            (Kind::Growing, phase_of(source) == Some(Phase::Growing)),
            (Kind::Shrinking, phase_of(source) == Some(Phase::Shrinking)),
            (Kind::ResizingAndOtherLength, has_other_length),
        ],
        12 => {
            let mut seen = vec![
                (Kind::NotSound, true),
                (Kind::NotSoundAndResizing, is_resizing(source)),
                (Kind::NotSoundAndOtherLength, has_other_length),
            ];
            seen.extend(only_fault(source).map(|fault| (fault, true)));
            seen
        }
        13 => vec![(Kind::OtherLength, true), (length_kind(source.len(), case.list.len()), true)],
        _ => vec![],
    };
    seen.into_iter().filter(|seen| seen.1).map(|seen| seen.0).collect()
}

/// What is wrong with words that are no sound table; none where it is more than one thing.
fn only_fault(words: &[u64]) -> Option<Kind> {
    let table = Table::read(words).ok()?;
    let copies = keys_in_several_slots(&table);
    let flag = if table.word(word::FLAG) == 1 { Kind::FlagOne } else { Kind::OtherFlag };
    let faults = [
        (flag, table.word(word::FLAG) != 0),
        (Kind::TokenWords, !untidy_buckets(&table).is_empty()),
        (Kind::OutOfPlace, !misplaced_items(&table).is_empty()),
        (copies_kind(&table, &copies), !copies.is_empty()),
    ];
    let mut found = faults.into_iter().filter(|fault| fault.1);
    match (found.next(), found.next()) {
        (Some((only, _)), None) => Some(only),
        _ => None,
    }
}

fn copies_kind(table: &Table, copies: &[Vec<Slot>]) -> Kind {
    match copies.first().map(Vec::as_slice) {
        Some(&[one, other]) if copies.len() == 1 => match table.record(one) == table.record(other) {
            true => Kind::EqualCopies,
            false => Kind::UnequalCopies,
        },
        _ => Kind::MoreCopies,
    }
}

fn length_kind(words: usize, second_words: usize) -> Kind {
    match second_words {
        0 => Kind::NoWords,
        _ if second_words + 1 == words => Kind::OneWordLess,
        _ if second_words == words + 1 => Kind::OneWordMore,
        _ if (1..=20).any(|c| table_words(c) == Some(second_words)) => Kind::WordsOfOtherCapacity,
        _ => Kind::SomeOtherLength,
    }
}

#[cfg(test)]
mod tests {
    use super::*;
    use crate::case::Call;
    use crate::history::{Setting, MARKED_1, MARKED_2};
    use crate::layout::{key_word, token_word};
    use crate::test_table::{change, table_after, table_of};
    use ragansils_model::{convert, Event};

    /// Keys 1, 3, 5 and 7 in bucket 2, which is of the top.
    fn table() -> Vec<u64> {
        table_of(&[1, 3, 5, 7].map(|key| [key, 10, 20]))
    }

    fn kinds_of(table: Vec<u64>, second_words: usize) -> Vec<Kind> {
        let mut second = vec![0; second_words];
        let (number, _) = convert(&table, &mut second);
        kinds(&Case { call: Call::Convert, table, list: second }, number)
    }

    fn with(index: usize, word: u64) -> Vec<u64> {
        let mut table = table();
        table[index] = word;
        table
    }

    #[test]
    fn each_way_is_named_by_the_source() {
        assert_eq!([1, 2, 3].map(|form| Way::of_source(&[form])), [Way::ToForm2, Way::ToForm1, Way::Nowhere]);
        assert_eq!(Way::of_source(&[]), Way::Nowhere);
    }

    #[test]
    fn each_fault_has_its_kind() {
        let not_sound = |table: Vec<u64>| kinds_of(table, 100)[1..].to_vec();
        assert_eq!(not_sound(with(5, 1)), [Kind::FlagOne]);
        assert_eq!(not_sound(with(5, 2)), [Kind::OtherFlag]);
        assert_eq!(not_sound(with(token_word(2), 31)), [Kind::TokenWords]);
        assert_eq!(not_sound(with(key_word(2, 1), 2)), [Kind::OutOfPlace]);
        assert_eq!(not_sound(with(key_word(2, 1), 1)), [Kind::EqualCopies]);
        let mut unequal = with(key_word(2, 1), 1);
        unequal[key_word(2, 1) + 1] = 11;
        assert_eq!(not_sound(unequal.clone()), [Kind::UnequalCopies]);
        unequal[key_word(2, 2)] = 1;
        assert_eq!(not_sound(unequal.clone()), [Kind::MoreCopies]);
        unequal[5] = 1;
        assert_eq!(not_sound(unequal), []);
    }

    #[test]
    fn each_refusal_has_its_kinds() {
        assert_eq!(kinds_of(table(), 100), [Kind::Converted]);
        let lengths = [(0, Kind::NoWords), (99, Kind::OneWordLess), (101, Kind::OneWordMore)];
        let lengths =
            lengths.into_iter().chain([(48, Kind::WordsOfOtherCapacity), (7, Kind::SomeOtherLength)]);
        lengths.for_each(|(words, kind)| assert_eq!(kinds_of(table(), words), [Kind::OtherLength, kind]));
        assert_eq!(kinds_of(with(0, 3), 9), [Kind::BadHeader, Kind::BadHeaderAndOtherLength]);
        let mut growing = table();
        change(&mut growing, Event::Begin);
        assert_eq!(kinds_of(growing.clone(), 100), [Kind::Resizing, Kind::Growing]);
        let both = [Kind::Resizing, Kind::Growing, Kind::ResizingAndOtherLength];
        assert_eq!(kinds_of(growing.clone(), 99), both);
        growing[token_word(2)] = 16;
        let both = [Kind::NotSound, Kind::NotSoundAndResizing, Kind::NotSoundAndOtherLength];
        assert_eq!(kinds_of(growing, 99)[..3], both);
    }

    #[test]
    fn an_empty_table_is_told_apart() {
        let setting = Setting { form: 2, c: 2, k: 1, mul1: MARKED_1, mul2: MARKED_2 };
        assert_eq!(kinds_of(table_after(setting, []), 100), [Kind::Converted, Kind::EmptyConverted]);
    }
}
