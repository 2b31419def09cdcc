//! Sound tables against the plain map: queries, chains, and changes that are cut after
//! every number of stores and recovered, the recovery cut too.

use ragansils::Phase;
use ragansils_model::{Event, LEAST_LIST_WORDS, SUCCESS};

use crate::both::{Both, Finding};
use crate::case::{is_resizing, phase_of, Call, Case, Outcome};
use crate::chain::Chain;
use crate::hidden_keys;
use crate::layout::check_tokens;
use crate::plain_map::{self, PlainMap};
use crate::stuck_items::{step_by_inserts, step_from_by_inserts, Kind, Step};
use crate::there_and_back::{check_there_and_back, OLD_WORD};

/// The list lent to recoveries: longer than need be, and not zero.
const RECOVERY_LIST: [u64; 22] = [0x0123_4567_89ab_cdef; 22];

/// How much is tried of a change.
#[derive(Clone, Copy, PartialEq, Eq)]
pub enum Depth {
    WholeOnly,
    EveryCut,
}

/// A sound table and its map, after a change or a refusal.
pub struct Changed {
    pub number: u64,
    pub table: Vec<u64>,
    pub map: PlainMap,
    pub stores: u64,
    /// The one that a step from a start told.
    pub bucket: u64,
}

/// Checks one change of a sound table whose map is `before`.
pub fn check_change(
    both: &mut Both,
    case: &Case,
    event: Event,
    before: &PlainMap,
    depth: Depth,
) -> Result<Changed, Finding> {
    let outcome = both.run(case)?;
    let number = outcome.number;
    if !plain_map::answer_fits(before, event, number) {
        return Err(Finding::of_sound_table(
            case,
            format!("the plain map does not allow the answer {number}"),
        ));
    }
    both.tally.phases_of_sound_tables.count_case(case, &outcome);
    match event {
        Event::Step => check_step(both, case, &outcome)?,
        Event::StepFrom { from } => check_step_from(case, from, &outcome).map(drop)?,
        Event::Back if is_stuck_shrink(&case.table) => {
            both.tally.phases_of_sound_tables.count_stuck_shrink_left()
        }
        _ => {}
    }
    let (stores, bucket) = (outcome.stores(), outcome.bucket());
    if number != 0 {
        return Ok(Changed { number, table: case.table.clone(), map: before.clone(), stores, bucket });
    }
    let after = plain_map::after(before, event);
    let mut change = Change { both, case, outcome: &outcome, before, after: &after };
    if depth == Depth::EveryCut {
        for kept in 0..=outcome.stores() {
            change.check_cut(kept)?;
        }
    }
    let table = change.whole()?;
    Ok(Changed { number, table, map: after, stores, bucket })
}

fn is_stuck_shrink(table: &[u64]) -> bool {
    let is_stuck = |step: Step| step.kind == Some(Kind::AllStuck);
    phase_of(table) == Some(Phase::Shrinking) && step_by_inserts(table).map_or(false, is_stuck)
}

/// The plain map does not tell which item a step takes; inserts do.
fn check_step(both: &mut Both, case: &Case, outcome: &Outcome) -> Result<(), Finding> {
    let step = check_step_from(case, 0, outcome)?;
    match phase_of(&case.table) {
        Some(Phase::Shrinking) => both.tally.steps_of_shrinks.count(&step),
        _ => both.tally.steps_of_growths.count(&step),
    }
    Ok(())
}

/// The bucket told is the item's own too.
fn check_step_from(case: &Case, from: u64, outcome: &Outcome) -> Result<Step, Finding> {
    let step = step_from_by_inserts(&case.table, from).ok_or_else(|| {
        Finding::of_sound_table(case, "no insert tells which item a step takes".to_string())
    })?;
    let Step { number, list, bucket, .. } = &step;
    let listed = outcome.list.get(..2 * outcome.stores() as usize);
    let is_told = outcome.answer.len() < 2 || outcome.bucket() == *bucket;
    if outcome.number == *number && listed == Some(list) && is_told {
        return Ok(step);
    }
    Err(Finding::of_sound_table(
        case,
        format!("by inserts a step answers {number}, lists {list:?} and tells bucket {bucket}"),
    ))
}

/// Checks one query of a sound table whose map is `map`.
pub fn check_query(both: &mut Both, case: &Case, key: u64, map: &PlainMap) -> Result<(), Finding> {
    let outcome = both.run(case)?;
    both.tally.phases_of_sound_tables.count_case(case, &outcome);
    if plain_map::query_fits(map, key, outcome.number, &outcome.answer) {
        return Ok(());
    }
    Err(Finding::of_sound_table(case, format!("the plain map has {:?} for this key", map.get(&key))))
}

/// Checks one chain of a sound table whose map is `map`.
pub fn check_chain(both: &mut Both, case: &Case, chain: Chain, map: &PlainMap) -> Result<(), Finding> {
    let outcome = both.run(case)?;
    both.tally.chains_of_sound_tables.count(case, outcome.number);
    let expected = plain_map::chain_answer(map, chain, case.list.len());
    let number = expected.as_ref().err().copied().unwrap_or(SUCCESS);
    if outcome.number != number {
        return Err(Finding::of_sound_table(
            case,
            format!("answer {}, but {number} by the plain map", outcome.number),
        ));
    }
    let records = expected.unwrap_or_default();
    if outcome.list != [&records[..], &case.list[records.len()..]].concat() {
        return Err(Finding::of_sound_table(
            case,
            "the lent words are not those of the plain map".to_string(),
        ));
    }
    let depths = if [SUCCESS, 5].contains(&number) { plain_map::depths_asked(map, chain) } else { 0 };
    // A key may stand in two buckets of each level in use.
    let most_buckets = if is_resizing(&case.table) { 6 } else { 4 };
    let buckets = outcome.answer[0];
    if (depths..=most_buckets * depths).contains(&buckets) {
        return Ok(());
    }
    Err(Finding::of_sound_table(case, format!("{buckets} buckets were looked at for {depths} depths")))
}

/// Checks a case of its own, where it is one of a sound table: the plain map is the table's.
pub fn check_alone(both: &mut Both, case: &Case) -> Result<(), Finding> {
    let recovery = Event::Recover.list_stores(&case.table, &mut RECOVERY_LIST.clone());
    let map = plain_map::of_table(&case.table).filter(|_| recovery == (0, 0));
    match (map, case.call) {
        (Some(_), Call::Ask { key }) => hidden_keys::check_alone(both, case, key),
        (Some(map), Call::Query { key }) => check_query(both, case, key, &map),
        (Some(map), Call::Chain(chain)) => check_chain(both, case, chain, &map),
        (Some(map), Call::Convert) => {
            check_there_and_back(both, case, &map, vec![OLD_WORD; case.table.len()]).map(drop)
        }
        (Some(map), Call::Change(event)) if case.list.len() >= LEAST_LIST_WORDS => {
            check_change(both, case, event, &map, Depth::EveryCut).map(|_| ())
        }
        _ => Ok(()),
    }
}

struct Change<'a, 't> {
    both: &'a mut Both<'t>,
    case: &'a Case,
    outcome: &'a Outcome,
    before: &'a PlainMap,
    after: &'a PlainMap,
}

impl Change<'_, '_> {
    fn finding(&self, what: String) -> Finding {
        Finding::of_sound_table(self.case, what)
    }

    fn make(&mut self, kept: u64) -> Result<Vec<u64>, Finding> {
        self.both.make(&self.case.table, &self.outcome.list, kept)
    }

    /// The table with all stores made; it must hold exactly the map after, under the right token words.
    fn whole(&mut self) -> Result<Vec<u64>, Finding> {
        let table = self.make(self.outcome.stores())?;
        if plain_map::of_table(&table).as_ref() != Some(self.after) {
            return Err(self.finding("the whole change does not give the plain map".to_string()));
        }
        check_tokens(&table).map_err(|what| self.finding(what))?;
        Ok(table)
    }

    fn check_cut(&mut self, kept: u64) -> Result<(), Finding> {
        self.both.tally.cuts += 1;
        let cut_table = self.make(kept)?;
        for recovered in self.recovered_every_way(kept, &cut_table)? {
            let map = plain_map::of_table(&recovered);
            let is = |expected: &PlainMap| map.as_ref() == Some(expected);
            let good = match kept {
                0 => is(self.before),
                _ if kept == self.outcome.stores() => is(self.after),
                _ => is(self.before) || is(self.after),
            };
            if !good {
                return Err(self.finding(format!("cut after {kept} stores: a wrong map is recovered")));
            }
        }
        Ok(())
    }

    /// The recovered tables, one for each cut of the first recovery.
    fn recovered_every_way(&mut self, kept: u64, table: &[u64]) -> Result<Vec<Vec<u64>>, Finding> {
        let first = self.recovery(kept, table)?;
        let mut recovered = vec![];
        for recovery_kept in 0..=first.stores() {
            self.both.tally.recovery_cuts += 1;
            let half = self.both.make(table, &first.list, recovery_kept)?;
            let second = self.recovery(kept, &half)?;
            let whole = self.both.make(&half, &second.list, second.stores())?;
            if self.recovery(kept, &whole)?.stores() != 0 {
                let what = format!("cut after {kept} stores, recovery after {recovery_kept}: not sound");
                return Err(self.finding(what));
            }
            recovered.push(whole);
        }
        Ok(recovered)
    }

    fn recovery(&mut self, kept: u64, table: &[u64]) -> Result<Outcome, Finding> {
        let call = Call::Change(Event::Recover);
        let case = Case { call, table: table.to_vec(), list: RECOVERY_LIST.to_vec() };
        let outcome = self.both.run(&case)?;
        self.both.tally.phases_of_sound_tables.count_case(&case, &outcome);
        match outcome.number {
            0 => Ok(outcome),
            number => Err(self.finding(format!("cut after {kept} stores: recovery refuses with {number}"))),
        }
    }
}

#[cfg(test)]
mod tests {
    use super::*;
    use crate::random::Random;
    use crate::stuck_items::KINDS;
    use crate::stuck_tables::history_to;
    use crate::tally::Tally;
    use crate::test_table::{table_after, table_of};

    /// A wrong plain map must be found, or no right one would mean anything.
    #[test]
    fn a_wrong_map_is_found() {
        let table = table_of(&[]);
        let event = Event::Insert { key: 1, function: 10, place: 20 };
        let case = Case { call: Call::Change(event), table, list: vec![0; 20] };
        let mut tally = Tally::default();
        let mut both = Both::new(&mut tally);
        let mut check = |map: PlainMap, depth| check_change(&mut both, &case, event, &map, depth).is_ok();

        assert!(check(PlainMap::new(), Depth::EveryCut));
        assert!(!check(PlainMap::from([(1, [10, 20])]), Depth::WholeOnly));
        assert!(!check(PlainMap::from([(2, [10, 20])]), Depth::WholeOnly));
        assert!(!check(PlainMap::from([(2, [10, 20])]), Depth::EveryCut));
    }

    /// Whatever library and model agree on.
    #[test]
    fn a_step_of_another_item_is_found() {
        let (setting, events) = history_to(&mut Random::new(1), 1, KINDS[2]);
        let table = table_after(setting, events);
        let case = Case { call: Call::Change(Event::Step), table, list: vec![0; LEAST_LIST_WORDS] };
        let mut tally = Tally::default();
        let mut both = Both::new(&mut tally);
        let mut check = |number, list: &[u64]| {
            let answer = vec![list.len() as u64 / 2];
            let outcome = Outcome { number, answer, table: vec![], list: list.to_vec() };
            check_step(&mut both, &case, &outcome).is_ok()
        };

        let list = step_by_inserts(&case.table).unwrap().list;
        assert!(check(0, &list) && !check(6, &[]) && !check(11, &[]) && !check(0, &list[..8]));
        let mut of_first_item = list.clone();
        of_first_item[9] = 14;
        assert!(!check(0, &of_first_item));
    }

    #[test]
    fn a_wrong_bucket_is_found() {
        let (setting, events) = history_to(&mut Random::new(1), 2, KINDS[6]);
        let table = table_after(setting, events);
        let step = step_by_inserts(&table).unwrap();
        let case = Case { call: Call::Change(Event::StepFrom { from: 0 }), table, list: vec![] };
        let check = |bucket| {
            let answer = vec![step.list.len() as u64 / 2, bucket];
            let outcome = Outcome { number: 0, answer, table: vec![], list: step.list.clone() };
            check_step_from(&case, 0, &outcome).is_ok()
        };
        assert!(step.bucket > 0 && check(step.bucket));
        assert!(
            [0, step.bucket - 1, step.bucket + 1].into_iter().filter(|&bucket| check(bucket)).count() == 0
        );
    }

    #[test]
    fn a_wrong_map_is_found_by_a_chain() {
        let table = table_of(&[[256, 10, 20], [257, 30, 40]]);
        let map = PlainMap::from([(256, [10, 20]), (257, [30, 40])]);
        let mut tally = Tally::default();
        let mut both = Both::new(&mut tally);
        let mut check = |map: &PlainMap, depth, words| {
            let chain = Chain { address: 1, depth };
            let case = Case { call: Call::Chain(chain), table: table.clone(), list: vec![7; words] };
            check_chain(&mut both, &case, chain, map).is_ok()
        };

        for (depth, words) in [(1, 4), (1, 5), (0, 2), (1, 3), (2, 6), (256, 512)] {
            assert!(check(&map, depth, words));
        }
        let with = |key, function, place| plain_map::after(&map, Event::Insert { key, function, place });
        let (swapped, longer) = (with(257, 40, 30), with(258, 50, 60));
        assert!(!check(&swapped, 1, 4) && check(&swapped, 0, 2));
        assert!(!check(&longer, 2, 6) && check(&longer, 1, 4));
        assert!(!check(&PlainMap::new(), 0, 2));
    }
}
