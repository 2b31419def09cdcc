//! Makes what fails smaller as long as it still fails.

use ragansils_model::Event;

use crate::case::{Call, Case};
use crate::chain::Chain;

/// Zeroes and shortens whatever the failure does not need.
pub fn smallest_case(mut case: Case, fails: impl Fn(&Case) -> bool) -> Case {
    loop {
        let before = case.clone();
        lower_arguments(&mut case, &fails);
        shorten(&mut case, |case| &mut case.list, &fails);
        shorten(&mut case, |case| &mut case.table, &fails);
        lower_words(&mut case, |case| &mut case.list, &fails);
        lower_words(&mut case, |case| &mut case.table, &fails);
        if case == before {
            return case;
        }
    }
}

/// Takes over a smaller case if it still fails.
fn accept(case: &mut Case, smaller: Case, fails: &impl Fn(&Case) -> bool) -> bool {
    let better = smaller != *case && fails(&smaller);
    if better {
        *case = smaller;
    }
    better
}

/// Numbers to try in the place of one, all of them below it, so that this ends.
fn smaller_numbers(number: u64) -> Vec<u64> {
    let without_lowest_bit = number & number.wrapping_sub(1);
    let one_less = if number < 64 { number.saturating_sub(1) } else { 0 };
    let candidates = [0, 1, number / 2, without_lowest_bit, one_less];
    candidates.into_iter().filter(|&smaller| smaller < number).collect()
}

fn lower_arguments(case: &mut Case, fails: &impl Fn(&Case) -> bool) {
    for index in 0..arguments(&mut case.call).len() {
        for smaller in smaller_numbers(*arguments(&mut case.call)[index]) {
            let mut candidate = case.clone();
            *arguments(&mut candidate.call)[index] = smaller;
            if accept(case, candidate, fails) {
                break;
            }
        }
    }
}

fn arguments(call: &mut Call) -> Vec<&mut u64> {
    match call {
        Call::Create { form, c, k, mul1, mul2 } => vec![form, c, k, mul1, mul2],
        Call::Query { key } | Call::Ask { key } | Call::AskTwice { key } => vec![key],
        Call::Change(Event::Delete { key }) => vec![key],
        Call::Chain(Chain { address, depth }) => vec![address, depth],
        Call::Change(Event::Insert { key, function, place } | Event::Update { key, function, place }) => {
            vec![key, function, place]
        }
        Call::Change(Event::StepFrom { from }) => vec![from],
        Call::Change(_) | Call::Convert => vec![],
        Call::Make { n } => vec![n],
    }
}

fn shorten(case: &mut Case, words: fn(&mut Case) -> &mut Vec<u64>, fails: &impl Fn(&Case) -> bool) {
    let mut cut_off = words(case).len();
    while cut_off > 0 {
        let mut candidate = case.clone();
        let shorter = words(&mut candidate);
        shorter.truncate(shorter.len().saturating_sub(cut_off));
        if !accept(case, candidate, fails) {
            cut_off /= 2;
        }
    }
}

/// Zeroes runs of words, the longest first, then lowers single words.
fn lower_words(case: &mut Case, words: fn(&mut Case) -> &mut Vec<u64>, fails: &impl Fn(&Case) -> bool) {
    let length = words(case).len();
    let mut run = length;
    while run > 0 {
        for start in (0..length).step_by(run) {
            let mut candidate = case.clone();
            let end = (start + run).min(length);
            words(&mut candidate)[start..end].fill(0);
            accept(case, candidate, fails);
        }
        run /= 2;
    }
    for index in 0..length {
        for smaller in smaller_numbers(words(case)[index]) {
            let mut candidate = case.clone();
            words(&mut candidate)[index] = smaller;
            if accept(case, candidate, fails) {
                break;
            }
        }
    }
}

/// Drops runs of pieces, the longest first, as long as the rest still fails.
pub fn drop_pieces<T: Clone>(mut pieces: Vec<T>, fails: impl Fn(&[T]) -> bool) -> Vec<T> {
    let mut run = pieces.len();
    while run > 0 {
        let mut start = 0;
        while start < pieces.len() {
            let mut fewer = pieces.clone();
            fewer.drain(start..(start + run).min(pieces.len()));
            if fails(&fewer) {
                pieces = fewer;
            } else {
                start += run;
            }
        }
        run /= 2;
    }
    pieces
}

#[cfg(test)]
mod tests {
    use super::*;

    #[test]
    fn only_what_the_failure_needs_is_left() {
        let call = Call::Change(Event::Insert { key: 12345, function: 678, place: u64::MAX });
        let case = Case { call, table: (100..200).collect(), list: vec![9; 24] };
        let fails = |case: &Case| {
            let word = case.table.get(50).copied().unwrap_or(0);
            word >= 7 && case.list.len() > 19
        };
        let smallest = smallest_case(case, fails);
        let call = Call::Change(Event::Insert { key: 0, function: 0, place: 0 });
        assert_eq!((smallest.call, smallest.list), (call, vec![0; 20]));
        assert_eq!((smallest.table.len(), smallest.table[50]), (51, 7));
        assert_eq!(smallest.table.iter().sum::<u64>(), 7);
    }

    #[test]
    fn pieces_are_dropped_but_for_those_that_fail() {
        let needs_both = |pieces: &[u64]| pieces.contains(&3) && pieces.contains(&17);
        assert_eq!(drop_pieces((0..40).collect(), needs_both), [3, 17]);
    }
}
