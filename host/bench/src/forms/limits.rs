//! What form 2 may cost, and whether it costs more.

use ragansils_counts::{Source, NEW_FORM};

use crate::limits::{self, median, Bound, Limit};
use crate::operations::Operation;
use crate::peers::{CUCKOO, FORM_1, FORM_2};

use super::Forms;

/// The capacity at which form 2 has limits.
const LIMITED_C: u64 = 18;

/// Form 2's time, as a multiple of another's.
const MOST: [(Operation, &str, f64); 5] = [
    (Operation::NegativeQuery, FORM_1, 0.75),
    (Operation::PositiveQuery, FORM_1, 0.95),
    (Operation::Insert, FORM_1, 1.05),
    (Operation::NegativeQuery, CUCKOO, 0.70),
    (Operation::PositiveQuery, CUCKOO, 1.00),
];

/// "load at first refusal no lower than for random keys"
const MOST_LOAD_OF_RANDOM_KEYS: f64 = 1.0;

impl Forms {
    pub fn limits(&self) -> Vec<Limit> {
        let times = MOST.into_iter().map(|(operation, other, most)| self.time_limit(operation, other, most));
        times.chain([self.load_limit()]).collect()
    }

    /// Says where form 2 costs more than it may.
    pub fn check(&self) -> Result<(), String> {
        limits::check("form 2", &self.limits())
    }

    fn time_limit(&self, operation: Operation, other: &str, most: f64) -> Limit {
        let is_meant =
            |name: &str, c: u64| c == LIMITED_C && name.split(", load").next() == Some(operation.name());
        let measured = self.times.iter().find(|measured| is_meant(&measured.operation, measured.c));
        Limit {
            what: format!("{}: time in form 2 as a multiple of that of {other}", operation.name()),
            bound: Bound::AtMost(most),
            measured: median(measured.and_then(|measured| measured.ratio(FORM_2, other))),
            of: format!("c = {LIMITED_C}"),
        }
    }

    /// In the largest tables of form 2, for the collector's keys with the lowest load.
    fn load_limit(&self) -> Limit {
        let largest = self.spreads.iter().map(|spread| spread.k).max();
        let of_form_2 =
            || self.spreads.iter().filter(|spread| spread.form == NEW_FORM && Some(spread.k) == largest);
        let random = of_form_2().find(|spread| spread.source == Source::Random);
        let of_random = random.map_or(f64::NAN, |spread| spread.load());
        let collectors = of_form_2().filter(|spread| spread.source != Source::Random);
        Limit::of_worst(
            "form 2: load at the first refusal with random keys as a multiple of that with collector's keys"
                .to_string(),
            Bound::AtMost(MOST_LOAD_OF_RANDOM_KEYS),
            collectors
                .map(|spread| (of_random / spread.load(), format!("{}, k = {}", spread.source, spread.k))),
        )
    }
}

#[cfg(test)]
mod tests {
    use super::super::examples::forms;
    use super::*;

    #[test]
    fn what_is_within_its_limits() {
        assert_eq!(forms([95.0, 70.0, 105.0], 0.9).check(), Ok(()));
    }

    /// Form 1 and libcuckoo take 100.
    #[test]
    fn each_limit_is_told_where_it_is_missed() {
        let missed = |times, load| {
            let limits = forms(times, load).limits();
            limits.iter().map(|limit| !limit.is_met()).collect::<Vec<bool>>()
        };
        assert_eq!(missed([95.0, 71.0, 105.0], 0.9), [false, false, false, true, false, false]);
        assert_eq!(missed([101.0, 76.0, 106.0], 0.899), [true; 6]);
        assert_eq!(missed([96.0, 70.0, 100.0], 0.95), [false, true, false, false, false, false]);
        let told = forms([95.0, 76.0, 105.0], 0.9).check().unwrap_err();
        let what =
            "query, negative: time in form 2 as a multiple of that of form 1, c = 18: 0.760, at most 0.75";
        assert!(told.contains(what), "{told}");
    }

    #[test]
    fn what_was_not_measured_is_not_within_a_limit() {
        assert_eq!(Forms::default().limits().iter().filter(|limit| !limit.is_met()).count(), 6);
    }
}
