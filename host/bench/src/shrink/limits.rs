//! What a whole shrink may cost, and whether it costs more.

use crate::by_size::{beside, worst_factor, LIMITED_C};
use crate::limits::{self, Limit};
use crate::peers::TWIN;

use super::Shrinks;

/// The library's time at the largest capacity, as a multiple of the twin's. A growth may take less.
const MOST_TO_TWIN: f64 = 1.5;

impl Shrinks {
    pub fn limits(&self) -> Vec<Limit> {
        let (twin, largest) = ("the twin's shrink by the same driver", format!("from c = {LIMITED_C}"));
        vec![beside(&self.times, TWIN, twin, MOST_TO_TWIN, largest), worst_factor(&self.times, 0)]
    }

    /// Says where a shrink costs more than it may.
    pub fn check(&self) -> Result<(), String> {
        limits::check("a shrink", &self.limits())
    }
}

#[cfg(test)]
mod tests {
    use super::*;
    use crate::peers::LIBRARY;
    use crate::rounds::{Measured, Series};

    /// From c = 10, 11 and 20, with these times of the library; the twin takes 100.
    fn shrinks(library: [f64; 3]) -> Shrinks {
        let one = |(c, time)| {
            let series = [(LIBRARY, time), (TWIN, 100.0)];
            let series = series.map(|(peer, time)| Series { peer, rounds: vec![time] }).into();
            Measured { c, operation: String::new(), series }
        };
        let times = [10, 11, 20].into_iter().zip(library).map(one).collect();
        Shrinks { times, instructions: vec![] }
    }

    #[test]
    fn each_limit_is_told_where_it_is_missed() {
        assert_eq!(shrinks([50.0, 130.0, 130.0]).check(), Ok(()));
        let slow = shrinks([50.0, 100.0, 151.0]).check().unwrap_err();
        assert!(
            slow.contains("of the twin's shrink by the same driver, from c = 20: 1.510, at most 1.5"),
            "{slow}"
        );
        let steep = shrinks([50.0, 131.0, 100.0]).check().unwrap_err();
        assert!(steep.contains("worst from 2^10 to 2^11: 2.620, at most 2.6"), "{steep}");
    }

    #[test]
    fn what_was_not_measured_is_not_within_a_limit() {
        assert_eq!(Shrinks::default().limits().iter().filter(|limit| !limit.is_met()).count(), 2);
    }
}
