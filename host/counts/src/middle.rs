//! What is said of many numbers.

/// The middle of some numbers, and the bounds of their middle half.
#[derive(Clone, Copy)]
pub struct Middle {
    pub low: f64,
    pub median: f64,
    pub high: f64,
}

impl Middle {
    pub fn of(numbers: impl IntoIterator<Item = f64>) -> Middle {
        let mut sorted: Vec<f64> = numbers.into_iter().collect();
        sorted.sort_by(f64::total_cmp);
        let at = |share: f64| sorted[((sorted.len() - 1) as f64 * share).round() as usize];
        Middle { low: at(0.25), median: at(0.5), high: at(0.75) }
    }
}

#[cfg(test)]
mod tests {
    use super::*;

    #[test]
    fn the_middle_of_five() {
        let middle = Middle::of([5.0, 1.0, 4.0, 2.0, 3.0]);
        assert_eq!([middle.low, middle.median, middle.high], [2.0, 3.0, 4.0]);
    }
}
