//! Two sound tables against their plain maps: the newer one's record, and else the older one's. And the law about a hidden key: a change
//! of it in the older table, made whole, changes no record answered for any key.

use std::collections::BTreeSet;

use ragansils::Phase;
use ragansils_model::{Event, LEAST_LIST_WORDS, SUCCESS};

use crate::both::{Both, Finding};
use crate::case::{event_name, phase_of, Call, Case, Outcome};
use crate::overlaid::KEY_ABSENT;
use crate::overlay_tally::Kind;
use crate::plain_map::{self, PlainMap};
use crate::two_tables::{Told, TwoTables, NEWER, OLDER};

/// Bits in which a key that is in no map may differ from one that is.
const OTHER_KEYS: [u64; 4] = [1, 1 << 8, 1 << 31, 1 << 63];

/// The record of a change of a hidden key, which no other has but by chance.
const FUNCTION: u64 = 0x0123_4567_89ab_cdef;
const PLACE: u64 = 0xfedc_ba98_7654_3210;

/// Two sound tables, and what they hold.
pub struct SoundPair {
    newer: Vec<u64>,
    older: Vec<u64>,
    maps: [PlainMap; 2],
}

/// The three calls that change one key.
#[derive(Clone, Copy)]
pub enum Change {
    Insert,
    Update,
    Delete,
}

impl Change {
    pub const ALL: [Change; 3] = [Change::Insert, Change::Update, Change::Delete];

    fn of(self, key: u64) -> Event {
        match self {
            Change::Insert => Event::Insert { key, function: FUNCTION, place: PLACE },
            Change::Update => Event::Update { key, function: FUNCTION, place: PLACE },
            Change::Delete => Event::Delete { key },
        }
    }
}

impl SoundPair {
    /// None where one of them is not sound.
    pub fn new(newer: &[u64], older: &[u64]) -> Option<SoundPair> {
        let maps = [sound_map(newer)?, sound_map(older)?];
        Some(SoundPair { newer: newer.to_vec(), older: older.to_vec(), maps })
    }

    fn phases(&self) -> [Phase; 2] {
        [&self.newer, &self.older].map(|table| phase_of(table).unwrap_or(Phase::AtRest))
    }

    /// Number, name and record, by the maps alone.
    fn by_maps(&self, key: u64) -> (u64, u64, [u64; 3]) {
        let [newer, older] = &self.maps;
        let words = |record: &[u64; 2]| [key, record[0], record[1]];
        match (newer.get(&key), older.get(&key)) {
            (Some(record), _) => (SUCCESS, NEWER, words(record)),
            (None, Some(record)) => (SUCCESS, OLDER, words(record)),
            (None, None) => (KEY_ABSENT, OLDER, [0; 3]),
        }
    }

    fn finding(&self, key: u64, what: String) -> Finding {
        let (table, list) = (self.newer.clone(), self.older.clone());
        Finding::of_sound_table(&Case { call: Call::Ask { key }, table, list }, what)
    }

    /// Checks what was answered for one key.
    pub fn check(&self, both: &mut Both, key: u64, outcome: &Outcome) -> Result<(), Finding> {
        let told = Told::of_words(outcome.number, &outcome.answer);
        let told = told.map(|told| (told.number, told.name, told.part.words));
        let (number, name, words) = self.by_maps(key);
        if told != Some((number, name, words)) {
            let what =
                format!("told is {told:?}, and by the plain maps {number} of table {name} with {words:?}");
            return Err(self.finding(key, what));
        }
        both.tally.overlays.add(Kind::BesideMaps { phases: self.phases(), number, name });
        Ok(())
    }

    /// The keys that a change may take: keys of the newer table, which the older one has or, for an insert, has not.
    pub fn hidden_keys(&self, change: Change) -> Vec<u64> {
        let [newer, older] = &self.maps;
        let is_wanted = |key: &u64| older.contains_key(key) != matches!(change, Change::Insert);
        let mut keys: Vec<u64> = newer.keys().copied().filter(is_wanted).collect();
        // A map has no order, and the same seed must make the same calls.
        keys.sort_unstable();
        keys
    }

    /// Changes a hidden key in the older table, and asks both for every key before and after. Only an insert may be refused, with 6.
    pub fn check_hidden(&self, both: &mut Both, change: Change, key: u64) -> Result<(), Finding> {
        let event = change.of(key);
        let (table, list) = (self.older.clone(), vec![0; LEAST_LIST_WORDS]);
        let listed = both.run(&Case { call: Call::Change(event), table, list })?;
        if listed.number != SUCCESS {
            return Ok(());
        }
        let changed = both.make(&self.older, &listed.list, listed.stores())?;
        let asked = self.check_answers_stay(&changed);
        both.tally.asks_of_hidden +=
            asked.map_err(|what| self.finding(key, format!("{event:?} in the older: {what}")))?;
        both.tally.overlays.add(Kind::Changed { call: event_name(event), phases: self.phases() });
        Ok(())
    }

    /// How many keys were asked for.
    fn check_answers_stay(&self, changed: &[u64]) -> Result<u64, String> {
        let mut before = TwoTables::apart(&self.newer, &self.older);
        let mut after = TwoTables::apart(&self.newer, changed);
        let keys = self.keys_and_others();
        for &key in &keys {
            let answers =
                [before.ask(key), after.ask(key)].map(|told| (told.number, told.name, told.part.words));
            if answers != [self.by_maps(key); 2] {
                return Err(format!(
                    "key {key} is answered with {:?}, and then with {:?}",
                    answers[0], answers[1]
                ));
            }
        }
        for (lent, older) in [(&before, &self.older[..]), (&after, changed)] {
            lent.check_guards()?;
            if (lent.newer(), lent.older()) != (&self.newer[..], older) {
                return Err("asking changed a table".to_string());
            }
        }
        Ok(keys.len() as u64)
    }

    /// Every key of both maps, and some that neither has.
    fn keys_and_others(&self) -> BTreeSet<u64> {
        let keys: BTreeSet<u64> = self.maps.iter().flat_map(|map| map.keys().copied()).collect();
        let others: Vec<u64> = keys.iter().flat_map(|key| OTHER_KEYS.map(|bit| key ^ bit)).collect();
        let few_others = others.into_iter().step_by(9).chain(OTHER_KEYS);
        let few_others: Vec<u64> = few_others.collect();
        keys.into_iter().chain(few_others).collect()
    }
}

/// A case of its own: against both maps, and where the key is hidden each change of it.
pub fn check_alone(both: &mut Both, case: &Case, key: u64) -> Result<(), Finding> {
    let pair = match SoundPair::new(&case.table, &case.list) {
        Some(pair) => pair,
        None => return Ok(()),
    };
    let outcome = both.run(case)?;
    pair.check(both, key, &outcome)?;
    let changes = Change::ALL.into_iter().filter(|&change| pair.hidden_keys(change).contains(&key));
    changes.into_iter().try_for_each(|change| pair.check_hidden(both, change, key))
}

/// Recovery finds nothing to do in a sound table.
fn sound_map(table: &[u64]) -> Option<PlainMap> {
    let recovery = Event::Recover.list_stores(table, &mut [0; LEAST_LIST_WORDS]);
    plain_map::of_table(table).filter(|_| recovery == (SUCCESS, 0))
}

#[cfg(test)]
mod tests {
    use super::*;
    use crate::case::run_model;
    use crate::tally::Tally;
    use crate::test_table::table_of;

    fn pair() -> SoundPair {
        SoundPair::new(&table_of(&[[1, 10, 20], [3, 30, 40]]), &table_of(&[[3, 31, 41], [5, 50, 60]]))
            .unwrap()
    }

    fn with_both<T>(check: impl FnOnce(&mut Both) -> T) -> (T, Tally) {
        let mut tally = Tally::default();
        let checked = check(&mut Both::new(&mut tally));
        (checked, tally)
    }

    #[test]
    fn a_wrong_map_is_found() {
        let outcome =
            |key| run_model(&Case { call: Call::Ask { key }, table: pair().newer, list: pair().older });
        let check = |pair: SoundPair, key| with_both(|both| pair.check(both, key, &outcome(key)).is_ok()).0;
        assert!([1, 3, 5, 7].into_iter().all(|key| check(pair(), key)));
        let with = |name: u64, event: Event| {
            let mut wrong = pair();
            wrong.maps[name as usize] = plain_map::after(&wrong.maps[name as usize], event);
            wrong
        };
        let insert = |key| Event::Insert { key, function: 0, place: 0 };
        assert!(!check(with(NEWER, Event::Delete { key: 3 }), 3) && !check(with(NEWER, insert(5)), 5));
        assert!(!check(with(OLDER, Event::Delete { key: 5 }), 5) && !check(with(OLDER, insert(7)), 7));
        // What is hidden is of no matter.
        assert!(check(with(OLDER, insert(3)), 3));
    }

    #[test]
    fn a_hidden_key_may_be_changed() {
        let pair = pair();
        assert_eq!((pair.hidden_keys(Change::Insert), pair.hidden_keys(Change::Update)), (vec![1], vec![3]));
        for (change, key) in [(Change::Insert, 1), (Change::Update, 3), (Change::Delete, 3)] {
            let (checked, tally) = with_both(|both| pair.check_hidden(both, change, key).is_ok());
            assert!(checked && tally.asks_of_hidden > 4 && tally.overlays.kinds.len() == 1);
        }
    }

    #[test]
    fn a_change_of_another_key_is_found() {
        for (change, key) in [(Change::Insert, 256), (Change::Update, 5), (Change::Delete, 5)] {
            let told = with_both(|both| pair().check_hidden(both, change, key).unwrap_err().what).0;
            assert!(told.contains(&format!("key {key} is answered")), "{told}");
        }
    }

    #[test]
    fn tables_that_are_not_sound_have_no_law() {
        let mut flagged = pair().older;
        flagged[5] = 1;
        assert!(SoundPair::new(&pair().newer, &flagged).is_none() && SoundPair::new(&[], &flagged).is_none());
    }
}
