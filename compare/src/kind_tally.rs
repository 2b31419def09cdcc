//! How often each kind of something was seen.

use std::collections::BTreeMap;

/// Of things that may each be of several kinds.
pub struct KindTally<K> {
    pub kinds: BTreeMap<K, u64>,
    /// How many things were counted.
    pub total: u64,
}

impl<K> Default for KindTally<K> {
    fn default() -> KindTally<K> {
        KindTally { kinds: BTreeMap::new(), total: 0 }
    }
}

impl<K: Ord> KindTally<K> {
    /// Counts one thing, by its kinds.
    pub fn count(&mut self, kinds: impl IntoIterator<Item = K>) {
        self.total += 1;
        kinds.into_iter().for_each(|kind| self.add(kind));
    }

    /// Another kind of something that was counted.
    pub fn add(&mut self, kind: K) {
        *self.kinds.entry(kind).or_default() += 1;
    }

    pub fn seen(&self, kind: &K) -> u64 {
        self.kinds.get(kind).copied().unwrap_or(0)
    }

    /// Of the possible kinds, those that were seen less often than this.
    pub fn rare(&self, possible: impl IntoIterator<Item = K>, least: u64) -> Vec<K> {
        possible.into_iter().filter(|kind| self.seen(kind) < least).collect()
    }
}

#[cfg(test)]
mod tests {
    use super::*;

    #[test]
    fn kinds_that_were_seldom_seen_are_told() {
        let mut tally = KindTally::default();
        tally.count(["sound", "large"]);
        tally.count(["sound"]);
        tally.add("used");
        let rare = |least| tally.rare(["sound", "large", "used", "empty"], least);
        assert_eq!((rare(1), rare(2)), (vec!["empty"], vec!["large", "used", "empty"]));
        assert_eq!((tally.total, tally.seen(&"sound")), (2, 2));
    }
}
