//! What asking two tables may cost, and whether it costs more.

use crate::limits::{self, median, Bound, Limit};
use crate::rounds::Measured;

use super::{Asked, Call, Overlays, QUERIES, TOGETHER};

/// The time of a call, as a multiple of that of the queries that it stands for.
const MOST: f64 = 1.05;

impl Overlays {
    /// One for each measurement.
    pub fn limits(&self) -> Vec<Limit> {
        let limit = |measured: &Measured| Limit {
            what: format!("time of {} as a multiple of that of its queries", measured.operation),
            bound: Bound::AtMost(MOST),
            measured: ratio(measured),
            of: format!("c = {}", measured.c),
        };
        self.times.iter().map(limit).collect()
    }

    /// The worst of each call with each kind of key.
    pub fn worst_limits(&self) -> Vec<Limit> {
        let pairs = Call::ALL.into_iter().flat_map(|call| Asked::ALL.map(|asked| (call, asked)));
        let worst = |(call, asked): (Call, Asked)| {
            let what = format!("{}, {}", call.name(), asked.name());
            let start = format!("{what}, ");
            let its_own = self.times.iter().filter_map(|measured| {
                let rest = measured.operation.strip_prefix(&start)?;
                Some((ratio(measured), format!("{rest}, c = {}", measured.c)))
            });
            Limit::of_worst(format!("time of {what}, to that of its queries"), Bound::AtMost(MOST), its_own)
        };
        pairs.map(worst).collect()
    }

    /// Says where a call costs more than it may.
    pub fn check(&self) -> Result<(), String> {
        if self.times.is_empty() {
            return Err("no two tables were measured".to_string());
        }
        limits::check("asking two tables", &self.limits())
    }
}

fn ratio(measured: &Measured) -> f64 {
    median(measured.ratio(TOGETHER, QUERIES))
}

#[cfg(test)]
mod tests {
    use super::super::examples::overlays;
    use super::*;

    #[test]
    fn each_limit_is_told_where_it_is_missed() {
        assert_eq!(overlays([105.0, 90.0]).check(), Ok(()));
        let told = overlays([90.0, 106.0]).check().unwrap_err();
        let what = "time of part, keys of the newer, form 2, newer c = 10 as a multiple of that of its queries, c = 18: 1.060, at most 1.05";
        assert!(told.contains(what) && !told.contains("time of asked"), "{told}");
        assert!(Overlays::default().check().is_err());
    }

    #[test]
    fn the_worst_of_each_kind_is_told() {
        let worst = overlays([104.0, 106.0]).worst_limits();
        assert_eq!(worst.len(), 8);
        assert_eq!((worst[0].measured, worst[0].of.as_str()), (1.04, "worst form 2, newer c = 10, c = 18"));
        assert!(worst[0].is_met() && !worst[4].is_met() && worst[1].measured.is_nan());
    }
}
