//! What a conversion may cost, and whether it costs more.

use crate::limits::{self, median, Bound, Limit};
use crate::rounds::Measured;

use super::{Conversions, BY_CALLS, CONVERSION};

/// A conversion's time, as a multiple of that of creating the table and inserting the items.
const MOST: f64 = 1.1;

impl Conversions {
    pub fn limits(&self) -> Vec<Limit> {
        let limit = |measured: &Measured| Limit {
            what: format!("time of a conversion {} as a multiple of that of the calls", measured.operation),
            bound: Bound::AtMost(MOST),
            measured: median(measured.ratio(CONVERSION, BY_CALLS)),
            of: format!("c = {}", measured.c),
        };
        self.times.iter().map(limit).collect()
    }

    /// Says where a conversion costs more than it may.
    pub fn check(&self) -> Result<(), String> {
        limits::check("a conversion", &self.limits())
    }
}

#[cfg(test)]
mod tests {
    use super::super::examples::conversions;

    #[test]
    fn each_limit_is_told_where_it_is_missed() {
        assert_eq!(conversions([110.0, 90.0]).check(), Ok(()));
        let told = conversions([90.0, 111.0]).check().unwrap_err();
        let what = "time of a conversion from form 2 to 1 as a multiple of that of the calls, c = 18: 1.110, at most 1.1";
        assert!(told.contains(what) && !told.contains("from form 1 to 2"), "{told}");
    }
}
