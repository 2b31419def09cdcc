//! Starts of a step that goes on: which words they are, and what the step meets from there on.

use std::collections::BTreeMap;
use std::fmt::{self, Display};

use ragansils::Phase;
use ragansils_model::{Table, SUCCESS};

use crate::case::phase_of;
use crate::random::Random;
use crate::stuck_items::{step_by_inserts, step_from_by_inserts};

#[derive(Clone, Copy, Debug, PartialEq, Eq, PartialOrd, Ord)]
pub enum Start {
    /// 0: the step itself.
    First,
    /// The bucket that an earlier step told, where it is not 0.
    Told,
    /// Any other bucket of the level.
    Within,
    /// The level's size: one past its last bucket.
    Size,
    /// Further past it, often so that a part of the word is a bucket.
    Past,
    /// The largest word.
    Last,
}

/// The phases in which there is an interim level.
const RESIZING: [Phase; 2] = [Phase::Growing, Phase::Shrinking];

pub const STARTS: [Start; 6] =
    [Start::First, Start::Told, Start::Within, Start::Size, Start::Past, Start::Last];

impl Start {
    /// A word of this kind for a level of so many buckets; none where the level has no such bucket.
    pub fn word(self, random: &mut Random, buckets: u64, told: u64) -> Option<u64> {
        let within = random.below(buckets);
        let high_part = 1 << random.pick(&[32, 56, 60, 61, 62, 63]);
        let past = random.pick(&[buckets + 1, 2 * buckets + within, high_part + within, high_part]);
        let word = match self {
            Start::First => 0,
            Start::Told => told,
            Start::Within => within,
            Start::Size => buckets,
            Start::Past => past,
            Start::Last => u64::MAX,
        };
        let needs_a_bucket = matches!(self, Start::Told | Start::Within);
        (!needs_a_bucket || (1..buckets).contains(&word)).then_some(word)
    }
}

/// The buckets of the interim level; none where the words are no table that grows or shrinks.
pub fn interim_buckets(words: &[u64]) -> Option<u64> {
    let interim = Table::read(words).ok()?.interim()?;
    Some(interim.size as u64)
}

/// A start for any words.
pub fn any_start(random: &mut Random, words: &[u64]) -> u64 {
    let start = random.pick(&STARTS);
    let word = interim_buckets(words).and_then(|buckets| start.word(random, buckets, 0));
    word.unwrap_or_else(|| random.pick(&[0, 1, u64::MAX]))
}

/// The interim items before a start.
#[derive(Clone, Copy, Debug, PartialEq, Eq, PartialOrd, Ord)]
pub enum Before {
    Nothing,
    OnlyStuck,
    /// Some have a place: this start leaves them for later.
    SomeWithPlace,
}

/// What a step meets from its start on.
#[derive(Clone, Copy, Debug, PartialEq, Eq, PartialOrd, Ord)]
pub enum Met {
    /// An item that has a place.
    Item,
    /// Items without one: refused with 6.
    OnlyStuck,
    /// No item: refused with 11.
    Nothing,
}

/// A step from a start, on a sound table that grows or shrinks.
#[derive(Clone, Copy, Debug, PartialEq, Eq, PartialOrd, Ord)]
pub struct Kind {
    pub phase: Phase,
    pub start: Start,
    pub before: Before,
    pub met: Met,
}

/// Where the words keep inserts from telling it, and where the table is at rest, there is no kind.
pub fn kind_of(words: &[u64], start: Start, from: u64) -> Option<Kind> {
    let step = step_from_by_inserts(words, from)?;
    let met = match step.number {
        SUCCESS => Met::Item,
        6 => Met::OnlyStuck,
        11 => Met::Nothing,
        _ => return None,
    };
    let table = Table::read(words).ok()?;
    let interim = table.interim()?;
    let is_before = |bucket: usize| interim.number_of(bucket) < from;
    let first = step_by_inserts(words)?;
    let before = match table.taken_slots(&[interim]).first() {
        Some(_) if first.number == SUCCESS && first.bucket < from => Before::SomeWithPlace,
        Some(item) if is_before(item.bucket) => Before::OnlyStuck,
        _ => Before::Nothing,
    };
    Some(Kind { phase: phase_of(words)?, start, before, met })
}

/// All that a run should meet on sound tables. A bucket that was told may have items with a place before it only where another change has
/// made room for them since: that is the kind `Within` too.
pub fn kinds_of_sound_tables() -> Vec<Kind> {
    let before = [Before::Nothing, Before::OnlyStuck, Before::SomeWithPlace];
    let met = [Met::Item, Met::OnlyStuck, Met::Nothing];
    let kinds_of = |phase, start| match start {
        Start::First => kinds(phase, start, &before[..1], &met),
        Start::Told => kinds(phase, start, &before[..2], &met),
        Start::Within => kinds(phase, start, &before, &met),
        Start::Size | Start::Past | Start::Last => kinds(phase, start, &before, &met[2..]),
    };
    let of_phase = |phase| STARTS.into_iter().flat_map(move |start| kinds_of(phase, start));
    RESIZING.into_iter().flat_map(of_phase).collect()
}

fn kinds(phase: Phase, start: Start, before: &[Before], met: &[Met]) -> Vec<Kind> {
    let with = |&before| met.iter().map(move |&met| Kind { phase, start, before, met });
    before.iter().flat_map(with).collect()
}

impl Display for Kind {
    fn fmt(&self, out: &mut fmt::Formatter) -> fmt::Result {
        let start = match self.start {
            Start::First => "from 0",
            Start::Told => "from a bucket told",
            Start::Within => "from any bucket",
            Start::Size => "from the level's size",
            Start::Past => "from further past it",
            Start::Last => "from the largest word",
        };
        let before = match self.before {
            Before::Nothing => "nothing",
            Before::OnlyStuck => "stuck items",
            Before::SomeWithPlace => "items with a place",
        };
        let met = match self.met {
            Met::Item => "an item moves",
            Met::OnlyStuck => "all stuck",
            Met::Nothing => "no item",
        };
        write!(out, "{start} past {before}, {}: {met}", self.phase)
    }
}

/// How often a step from a start was answered with each number, in each phase; words that are no table have none.
pub type Numbers = BTreeMap<(Option<Phase>, u64), u64>;

/// What a run has seen of steps from a start.
#[derive(Default)]
pub struct StartTally {
    /// On sound tables, those after a recovery among them.
    pub kinds: BTreeMap<Kind, u64>,
    pub of_cut_tables: Numbers,
    pub of_recovered_tables: Numbers,
    pub of_other_words: Numbers,
    /// On sound tables, from another start than 0: steps of ten stores.
    pub moves: u64,
    /// Whole passes, and their steps.
    pub passes: u64,
    pub steps_of_passes: u64,
}

impl StartTally {
    pub fn count(&mut self, kind: Option<Kind>) {
        if let Some(kind) = kind {
            *self.kinds.entry(kind).or_default() += 1;
        }
    }

    /// The kinds that a sound table met less often than this.
    pub fn rare(&self, least: u64) -> Vec<Kind> {
        let seen = |kind: &Kind| self.kinds.get(kind).copied().unwrap_or(0);
        kinds_of_sound_tables().into_iter().filter(|kind| seen(kind) < least).collect()
    }
}

pub fn count_number(numbers: &mut Numbers, words: &[u64], number: u64) {
    *numbers.entry((phase_of(words), number)).or_default() += 1;
}

/// Some numbers, both while growing and while shrinking.
pub fn while_resizing(numbers: &[u64]) -> Vec<(Option<Phase>, u64)> {
    let of_phase = |phase| numbers.iter().map(move |&number| (Some(phase), number));
    RESIZING.into_iter().flat_map(of_phase).collect()
}

/// Of some numbers and their phases, those that were met less often than this.
pub fn rare_numbers(
    numbers: &Numbers,
    possible: &[(Option<Phase>, u64)],
    least: u64,
) -> Vec<(Option<Phase>, u64)> {
    let seen = |number| numbers.get(number).copied().unwrap_or(0);
    possible.iter().filter(|number| seen(number) < least).copied().collect()
}

#[cfg(test)]
mod tests {
    use super::*;
    use crate::history::{Setting, MARKED_1};
    use crate::test_table::{change, table_after};
    use ragansils_model::Event;
    use std::collections::BTreeSet;

    /// Growing, with four interim buckets of four items each; none is stuck. With both multipliers alike a key has one place in each level.
    fn growing() -> Vec<u64> {
        let insert = |key| Event::Insert { key, function: 5, place: 5 };
        let setting = Setting { form: 1, c: 4, k: 3, mul1: MARKED_1, mul2: MARKED_1 };
        table_after(setting, (0..48).map(insert).chain([Event::Begin]))
    }

    #[test]
    fn starts_are_where_they_should_be() {
        let mut random = Random::new(1);
        let mut words = |start: Start| -> BTreeSet<u64> {
            (0..999).filter_map(|_| start.word(&mut random, 4, 2)).collect()
        };
        assert_eq!([Start::First, Start::Told].map(&mut words), [BTreeSet::from([0]), BTreeSet::from([2])]);
        assert_eq!(words(Start::Within), BTreeSet::from([1, 2, 3]));
        assert_eq!(
            [Start::Size, Start::Last].map(&mut words),
            [4, u64::MAX].map(|word| BTreeSet::from([word]))
        );
        let past = words(Start::Past);
        assert!(
            past.iter().all(|&word| word > 4)
                && [5, 8, 11, 1 << 32, (1 << 61) + 3].iter().all(|word| past.contains(word))
        );
        assert_eq!(Start::Told.word(&mut random, 4, 0), None);
        assert_eq!(Start::Within.word(&mut random, 1, 0), None);
    }

    #[test]
    fn a_start_has_its_kind() {
        let mut table = growing();
        let phase = Phase::Growing;
        let moves = |start, before| Some(Kind { phase, start, before, met: Met::Item });
        assert_eq!(kind_of(&table, Start::First, 0), moves(Start::First, Before::Nothing));
        assert_eq!(kind_of(&table, Start::Within, 3), moves(Start::Within, Before::SomeWithPlace));
        let past = |before| Some(Kind { phase, start: Start::Size, before, met: Met::Nothing });
        assert_eq!(kind_of(&table, Start::Size, 4), past(Before::SomeWithPlace));
        (0..16).for_each(|_| change(&mut table, Event::Step));
        assert_eq!(kind_of(&table, Start::Size, 4), past(Before::Nothing));
        change(&mut table, Event::End);
        assert_eq!(kind_of(&table, Start::Size, 4), None);
        change(&mut table, Event::Shrink);
        let shrinks =
            Kind { phase: Phase::Shrinking, start: Start::First, before: Before::Nothing, met: Met::Item };
        assert_eq!(kind_of(&table, Start::First, 0), Some(shrinks));
    }

    #[test]
    fn what_was_seldom_seen_is_told() {
        let mut tally = StartTally::default();
        let (start, before, met) = (Start::Told, Before::OnlyStuck, Met::Nothing);
        let kind = Kind { phase: Phase::Shrinking, start, before, met };
        tally.count(Some(kind));
        tally.count(None);
        assert_eq!((tally.rare(1).len(), tally.rare(1).contains(&kind)), (2 * 27 - 1, false));
        assert_eq!(tally.rare(2).len(), 2 * 27);
        let mut numbers = Numbers::default();
        let table = growing();
        [6, 11, 11].into_iter().for_each(|number| count_number(&mut numbers, &table, number));
        let rare = rare_numbers(&numbers, &while_resizing(&[0, 6, 11]), 2);
        let (growing, shrinking) = (Some(Phase::Growing), Some(Phase::Shrinking));
        assert_eq!(rare, [(growing, 0), (growing, 6), (shrinking, 0), (shrinking, 6), (shrinking, 11)]);
    }
}
