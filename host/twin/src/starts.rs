//! Where steps that go on start, and what a run has met of them.

use std::collections::BTreeMap;

use ragansils_compare::random::Random;
use ragansils_compare::starts::{interim_buckets, Start};
use ragansils_model::{Refusal, Table};

/// Those that need no step before them.
const FRESH: [Start; 5] = [Start::First, Start::Within, Start::Size, Start::Past, Start::Last];

/// Any but one that a step tells, with its bucket. A table at rest is asked as if it had a small interim level.
pub fn random_start(random: &mut Random, table: &[u64]) -> (Start, u64) {
    let buckets = interim_buckets(table).unwrap_or(4);
    // Half of all starts lie in the level, where most is to be met.
    let start = if random.one_in(2) { Start::Within } else { random.pick(&FRESH) };
    let word = start.word(random, buckets, 0);
    word.map_or((Start::First, 0), |word| (start, word))
}

/// The answers that a step from there may give where the table grows or shrinks, its header is good and its flag is clear.
fn answers(start: Start) -> &'static [u64] {
    match start {
        Start::First | Start::Told | Start::Within => &[0, 6, 11],
        Start::Size | Start::Past | Start::Last => &[11],
    }
}

fn name(start: Start) -> &'static str {
    match start {
        Start::First => "from 0",
        Start::Told => "from the bucket told",
        Start::Within => "from some bucket",
        Start::Size => "from the level's end",
        Start::Past => "from past the level",
        Start::Last => "from the largest word",
    }
}

/// The refusals that come before any look at the interim level.
const FIRST_REFUSALS: [u64; 3] = [1, 3, 8];

/// What a run has seen of steps from a start, and of passes of them.
#[derive(Default)]
pub struct StartTally {
    answers: BTreeMap<(Start, u64), u64>,
    /// Passes that placed every item, and passes that left stuck ones.
    pub passes_to_the_end: u64,
    pub passes_with_items_left: u64,
}

impl StartTally {
    pub fn count(&mut self, start: Start, number: u64) {
        *self.answers.entry((start, number)).or_default() += 1;
    }

    pub fn count_pass(&mut self, items_left: usize) {
        match items_left {
            0 => self.passes_to_the_end += 1,
            _ => self.passes_with_items_left += 1,
        }
    }

    fn met(&self, start: Start, number: u64) -> u64 {
        self.answers.get(&(start, number)).copied().unwrap_or(0)
    }

    /// What was met less often than this.
    pub fn rare(&self, least: u64) -> Vec<String> {
        let starts = FRESH.into_iter().chain([Start::Told]);
        let after_the_tests = starts.clone().flat_map(|start| {
            let told = move |&number: &u64| (format!("{}: {number}", name(start)), self.met(start, number));
            answers(start).iter().map(told)
        });
        let by_the_tests = FIRST_REFUSALS.into_iter().map(|number| {
            let met = starts.clone().map(|start| self.met(start, number)).sum();
            (format!("from anywhere: {number}"), met)
        });
        let passes = [
            ("a pass to the end".to_string(), self.passes_to_the_end),
            ("a pass that leaves items".to_string(), self.passes_with_items_left),
        ];
        let all = after_the_tests.chain(by_the_tests).chain(passes);
        all.filter(|(_, met)| *met < least).map(|(what, met)| format!("{what}, met {met} times")).collect()
    }

    pub fn steps(&self) -> u64 {
        self.answers.values().sum()
    }
}

pub fn interim_items(words: &[u64]) -> usize {
    let table = match Table::read(words) {
        Ok(table) => table,
        Err(_) => return 0,
    };
    table.interim().map_or(0, |interim| table.taken_slots(&[interim]).len())
}

/// What a step answers after a pass: none of the items left has a place.
pub fn answer_after_pass(items_left: usize) -> u64 {
    match items_left {
        0 => Refusal::InterimEmpty.number(),
        _ => Refusal::NoPlace.number(),
    }
}

#[cfg(test)]
mod tests {
    use super::*;

    #[test]
    fn what_was_met_too_seldom_is_told() {
        let mut tally = StartTally::default();
        let all = tally.rare(1).len();
        assert_eq!(all, 9 + 3 + 3 + 2);
        tally.count(Start::Told, 0);
        tally.count(Start::Past, 1);
        tally.count_pass(3);
        assert_eq!(tally.rare(1).len(), all - 3);
        assert!(tally.rare(2).contains(&"from the bucket told: 0, met 1 times".to_string()));
        assert_eq!(tally.steps(), 2);
    }
}
