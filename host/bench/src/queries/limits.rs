//! What a query may cost, and whether it costs more.

use ragansils_counts::Middle;

use crate::builds::BuildTimes;
use crate::limits::{self, median, Bound, Limit};

use super::Queries;

/// A query's time as a multiple of that before the change, and of the twin's.
const MOST_TO_BEFORE: f64 = 1.02;
const MOST_TO_TWIN: f64 = 1.0;

impl Queries {
    pub fn limits(&self) -> Vec<Limit> {
        vec![
            self.worst("that before", MOST_TO_BEFORE, BuildTimes::to_before),
            self.worst("the twin's", MOST_TO_TWIN, BuildTimes::to_twin),
        ]
    }

    /// Says where a query costs more than it may.
    pub fn check(&self) -> Result<(), String> {
        limits::check("a query", &self.limits())
    }

    fn worst(&self, of: &str, most: f64, ratio: fn(&BuildTimes) -> Option<Middle>) -> Limit {
        let one = |times: &BuildTimes| (median(ratio(times)), times.name());
        Limit::of_worst(
            format!("time of a query as a multiple of {of}"),
            Bound::AtMost(most),
            self.times.iter().map(one),
        )
    }
}

#[cfg(test)]
mod tests {
    use super::super::examples::queries;
    use super::*;

    #[test]
    fn what_is_within_its_limits() {
        assert_eq!(queries([100.0, 80.0]).check(), Ok(()));
    }

    /// The library before, and the twin, take 100.
    #[test]
    fn each_limit_is_told_where_it_is_missed() {
        let slower_than_twin = queries([101.0, 80.0]).check().unwrap_err();
        assert!(slower_than_twin
            .contains("of the twin's, worst query, positive, load 0.8, c = 14: 1.010, at most 1"));
        assert!(!slower_than_twin.contains("that before"), "{slower_than_twin}");
        let slower = queries([80.0, 106.0]).check().unwrap_err();
        assert!(
            slower.contains("of that before, worst query, positive, load 0.8, c = 18: 1.060, at most 1.02"),
            "{slower}"
        );
    }

    #[test]
    fn what_was_not_measured_is_not_within_a_limit() {
        let nothing = Queries { times: vec![], counts: vec![] };
        assert!(nothing.limits().iter().all(|limit| !limit.is_met()));
    }
}
