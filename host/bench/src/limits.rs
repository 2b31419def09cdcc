//! Limits: what something may cost, and whether it costs more.

use std::fmt::{Display, Formatter};

use ragansils_counts::Middle;

/// The capacities at which the library has a limit beside the twin.
pub const TARGET_CAPACITIES: [u64; 2] = [14, 18];
/// What an insert may take there, as a multiple of the twin's time.
pub const INSERT_TO_TWIN: f64 = 1.15;

#[derive(Clone, Copy)]
pub enum Bound {
    AtMost(f64),
    Below(f64),
}

impl Display for Bound {
    fn fmt(&self, formatter: &mut Formatter<'_>) -> std::fmt::Result {
        match self {
            Bound::AtMost(most) => write!(formatter, "at most {most}"),
            Bound::Below(limit) => write!(formatter, "below {limit}"),
        }
    }
}

/// A limit, and what was measured beside it; no number where nothing was.
pub struct Limit {
    pub what: String,
    pub bound: Bound,
    pub measured: f64,
    /// For which table.
    pub of: String,
}

impl Limit {
    /// The worst of several measurements, each with what it is of.
    pub fn of_worst(what: String, bound: Bound, all: impl Iterator<Item = (f64, String)>) -> Limit {
        let worst = all.max_by(|a, b| a.0.total_cmp(&b.0));
        let (measured, of) =
            worst.map_or((f64::NAN, String::new()), |(one, of)| (one, format!("worst {of}")));
        Limit { what, bound, measured, of }
    }

    /// What is no number is not within a limit.
    pub fn is_met(&self) -> bool {
        match self.bound {
            Bound::AtMost(most) => self.measured <= most,
            Bound::Below(limit) => self.measured < limit,
        }
    }

    /// With three places: a limit that is missed by a little would look met with two.
    pub fn measured_text(&self) -> String {
        format!("{:.3}", self.measured)
    }
}

/// The median of what was measured; no number where nothing was.
pub fn median(middle: Option<Middle>) -> f64 {
    middle.map_or(f64::NAN, |middle| middle.median)
}

/// Says which limits of a thing are missed.
pub fn check(thing: &str, limits: &[Limit]) -> Result<(), String> {
    let missed: Vec<String> = limits
        .iter()
        .filter(|limit| !limit.is_met())
        .map(|limit| format!("{}, {}: {}, {}", limit.what, limit.of, limit.measured_text(), limit.bound))
        .collect();
    match missed.is_empty() {
        true => Ok(()),
        false => Err(format!("{thing} costs more than it may: {}", missed.join("; "))),
    }
}

#[cfg(test)]
mod tests {
    use super::*;

    fn limit(bound: Bound, measured: f64) -> Limit {
        Limit { what: "time".to_string(), bound, measured, of: "c = 8".to_string() }
    }

    #[test]
    fn a_bound_is_met_or_not() {
        let met = [(Bound::AtMost(2.0), 2.0), (Bound::Below(2.0), 1.999)];
        assert!(met.into_iter().all(|(bound, measured)| limit(bound, measured).is_met()));
        let missed = [(Bound::AtMost(2.0), 2.001), (Bound::Below(2.0), 2.0), (Bound::AtMost(2.0), f64::NAN)];
        assert!(missed.into_iter().all(|(bound, measured)| !limit(bound, measured).is_met()));
    }

    #[test]
    fn the_worst_is_held() {
        let of_worst = |all: &[f64]| {
            let all = all.iter().map(|&one| (one, format!("in {one}")));
            Limit::of_worst("time".to_string(), Bound::AtMost(2.0), all)
        };
        let worst = of_worst(&[1.0, 3.0, 2.0]);
        assert_eq!((worst.measured, worst.of.as_str()), (3.0, "worst in 3"));
        assert!(!of_worst(&[]).is_met());
    }

    #[test]
    fn what_is_missed_is_told() {
        let both = [limit(Bound::AtMost(1.02), 1.024), limit(Bound::Below(300.0), 299.0)];
        let missed = check("an import", &both).unwrap_err();
        assert_eq!(missed, "an import costs more than it may: time, c = 8: 1.024, at most 1.02");
        assert_eq!(check("an import", &both[1..]), Ok(()));
    }
}
