//! What an insert and an import may cost, and whether they cost more.

use crate::builds::BuildTimes;
use crate::instructions;
use crate::limits::{self, median, Bound, Limit, INSERT_TO_TWIN, TARGET_CAPACITIES};
use crate::rounds::Measured;

use super::Imports;

/// An insert at the high load takes fewer instructions than these.
const INSTRUCTIONS: f64 = 300.0;
/// No import takes longer than before; what is above 1 is noise.
const MOST_TO_BEFORE: f64 = 1.02;

impl Imports {
    pub fn limits(&self) -> Vec<Limit> {
        vec![self.insert_to_twin(), self.instructions_of_an_insert(), self.import_to_before()]
    }

    /// Says where an insert or an import costs more than it may.
    pub fn check(&self) -> Result<(), String> {
        limits::check("an insert or an import", &self.limits())
    }

    fn insert_to_twin(&self) -> Limit {
        let ratio = |measured: &Measured| {
            (median(measured.ratio_to_twin()), format!("{}, c = {}", measured.operation, measured.c))
        };
        let [smaller, larger] = TARGET_CAPACITIES;
        Limit::of_worst(
            format!("time of an insert as a multiple of the twin's, c = {smaller} and {larger}"),
            Bound::AtMost(INSERT_TO_TWIN),
            self.inserts.iter().map(ratio),
        )
    }

    fn instructions_of_an_insert(&self) -> Limit {
        Limit {
            what: "counted instructions of an insert".to_string(),
            bound: Bound::Below(INSTRUCTIONS),
            measured: self.insert_counts.after.instructions,
            of: instructions::about(),
        }
    }

    fn import_to_before(&self) -> Limit {
        let ratio = |times: &BuildTimes| (median(times.to_before()), format!("at c = {}", times.library.c));
        Limit::of_worst(
            "time of an import as a multiple of that before".to_string(),
            Bound::AtMost(MOST_TO_BEFORE),
            self.times.iter().map(ratio),
        )
    }
}

#[cfg(test)]
mod tests {
    use super::super::examples::imports;
    use super::*;

    #[test]
    fn what_is_within_its_limits() {
        assert_eq!(imports([115.0, 90.0], 299.995, [102.0, 80.0]).check(), Ok(()));
    }

    #[test]
    fn each_limit_is_told_where_it_is_missed() {
        let missed = |imports: Imports| imports.check().unwrap_err();
        let slow = missed(imports([90.0, 116.0], 299.0, [100.0, 100.0]));
        assert!(slow.contains("worst insert, c = 18: 1.160, at most 1.15"), "{slow}");
        assert!(!slow.contains("instructions") && !slow.contains("of an import"), "{slow}");
        let long = missed(imports([90.0, 90.0], 300.0, [100.0, 100.0]));
        assert!(long.contains("instructions of an insert, c = 12, load 0.8: 300.000, below 300"), "{long}");
        let later = missed(imports([90.0, 90.0], 299.0, [103.0, 100.0]));
        assert!(later.contains("of that before, worst at c = 8: 1.030, at most 1.02"), "{later}");
    }

    #[test]
    fn what_was_not_measured_is_not_within_a_limit() {
        let nothing = Imports { times: vec![], inserts: vec![], ..imports([90.0; 2], f64::NAN, [90.0; 2]) };
        assert!(nothing.limits().iter().all(|limit| !limit.is_met()));
    }
}
