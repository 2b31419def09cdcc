//! What a whole growth may cost, and whether it costs more.

use crate::by_size::{beside, worst_factor, LIMITED_C};
use crate::limits::{self, Limit};
use crate::peers::{CUCKOO, TWIN};

use super::Growths;

/// The library's time at the largest capacity, as a multiple of libcuckoo's and of the twin's.
const MOST_TO_CUCKOO: f64 = 1.5;
const MOST_TO_TWIN: f64 = 1.3;

impl Growths {
    pub fn limits(&self) -> Vec<Limit> {
        let largest = || format!("to c = {LIMITED_C}");
        let twin = "the twin's growth by the same driver";
        vec![
            beside(&self.times, CUCKOO, "libcuckoo's doubling", MOST_TO_CUCKOO, largest()),
            beside(&self.times, TWIN, twin, MOST_TO_TWIN, largest()),
            worst_factor(&self.times, 1),
        ]
    }

    /// Says where a growth costs more than it may.
    pub fn check(&self) -> Result<(), String> {
        limits::check("a growth", &self.limits())
    }
}

#[cfg(test)]
mod tests {
    use super::*;
    use crate::by_size::factors;
    use crate::peers::LIBRARY;
    use crate::rounds::{Measured, Series};

    /// To c = 11, 12 and 20, with these times of the library; the others take 100.
    fn growths(library: [f64; 3]) -> Growths {
        let one = |(c, time)| {
            let series = [(LIBRARY, time), (TWIN, 100.0), (CUCKOO, 100.0)];
            let series = series.map(|(peer, time)| Series { peer, rounds: vec![time] }).into();
            Measured { c, operation: String::new(), series }
        };
        let times = [11, 12, 20].into_iter().zip(library).map(one).collect();
        Growths { times, instructions: vec![] }
    }

    #[test]
    fn a_growth_within_its_limits() {
        assert_eq!(growths([50.0, 130.0, 130.0]).check(), Ok(()));
    }

    #[test]
    fn each_limit_is_told_where_it_is_missed() {
        let slow = growths([50.0, 100.0, 131.0]).check().unwrap_err();
        assert!(
            slow.contains("of the twin's growth by the same driver, to c = 20: 1.310, at most 1.3"),
            "{slow}"
        );
        assert!(!slow.contains("libcuckoo"), "{slow}");
        assert!(growths([50.0, 100.0, 151.0]).check().unwrap_err().contains("libcuckoo"));
        let steep = growths([50.0, 131.0, 100.0]).check().unwrap_err();
        assert!(steep.contains("worst from 2^10 to 2^11: 2.620, at most 2.6"), "{steep}");
    }

    #[test]
    fn what_was_not_measured_is_not_within_a_limit() {
        let missed = Growths::default().limits().iter().filter(|limit| !limit.is_met()).count();
        assert_eq!(missed, 3);
    }

    #[test]
    fn a_factor_is_that_of_neighbours() {
        assert_eq!(factors(&growths([50.0, 120.0, 100.0]).times), [(12, 2.4)]);
    }
}
