//! Limits of what is measured at one capacity after the other: whole growths and shrinks.

use crate::limits::{median, Bound, Limit};
use crate::peers::LIBRARY;
use crate::rounds::Measured;

/// The capacity at which it is held beside others.
pub const LIMITED_C: u64 = 20;
/// From 2N top buckets it takes less than so many times that from N, from N = 2^k on with this k.
const MOST_FACTOR: f64 = 2.6;
const LEAST_K: u64 = 10;

/// By how much the library takes longer than at half the size: the larger capacity, and the factor.
pub fn factors(times: &[Measured]) -> Vec<(u64, f64)> {
    let median = |measured: &Measured| measured.of(LIBRARY).map(|series| series.middle().median);
    let factor = |pair: &[Measured]| match (median(&pair[0]), median(&pair[1])) {
        (Some(half), Some(whole)) if pair[1].c == pair[0].c + 1 => Some((pair[1].c, whole / half)),
        _ => None,
    };
    times.windows(2).filter_map(factor).collect()
}

/// The library's time as a multiple of another's. `of` names the table.
pub fn beside(times: &[Measured], peer: &str, name: &str, most: f64, of: String) -> Limit {
    let largest = times.iter().find(|measured| measured.c == LIMITED_C);
    let ratio = largest.and_then(|measured| measured.ratio_to(peer));
    Limit {
        what: format!("time as a multiple of {name}"),
        bound: Bound::AtMost(most),
        measured: median(ratio),
        of,
    }
}

/// Where k, before it begins, is less than the capacity by so much.
pub fn worst_factor(times: &[Measured], less: u64) -> Limit {
    // The factor at k is that from k - 1 on.
    let by_k = factors(times).into_iter().map(|(c, factor)| (c - less, factor));
    Limit::of_worst(
        format!("time from 2N top buckets as a multiple of that from N, N = 2^{LEAST_K} and more"),
        Bound::AtMost(MOST_FACTOR),
        by_k.filter(|&(k, _)| k > LEAST_K).map(|(k, factor)| (factor, format!("from 2^{} to 2^{k}", k - 1))),
    )
}
