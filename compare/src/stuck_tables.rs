//! Growing tables with stuck items, made on purpose: chance seldom makes them. They are made by inserts and one begin, so that they are
//! sound.
//!
//! Every key here has both hashes alike modulo the size of the bottom. So it has one place in the bottom and one in the interim level,
//! and its top places are one or both of the two top buckets whose keys share that bottom bucket. These three buckets are a family:
//! where all their slots are taken, its items in the interim level are stuck. Two families share an interim bucket; here one of them is
//! full, and the other has room.

use ragansils_model::{Event, SLOTS_PER_BUCKET};

use crate::history::{Setting, MARKED_1, MARKED_2};
use crate::layout::hash;
use crate::random::Random;
use crate::stuck_items::{Kind, Passed, Way, KINDS, MANY_BUCKETS};

/// One history in so many, the first among them, comes with tables of stuck items, one for each kind of step.
const STUCK_ITEMS_ONE_IN: u64 = 4;
/// Steps past many buckets need large tables, so these come less often.
const MANY_BUCKETS_ONE_IN: u64 = 16;

/// The largest interim level has 2 to the power of this many buckets.
const LARGEST_EXPONENT: u64 = 3;
/// The same where many of them are passed.
const LARGEST_EXPONENT_OF_MANY: u64 = 5;

/// So often a key is looked for. In the largest table one word in 16,384 is what is looked for, or more than that.
const MOST_TRIES: u64 = 1_000_000;

/// What an interim item is meant to be when a step comes to it.
#[derive(Clone, Copy, PartialEq, Eq)]
enum Fate {
    Stuck,
    Placed(Way),
}

/// The kinds of steps that tables are made for before the history of this number, from 0 on.
pub fn kinds_before(history: u64) -> impl Iterator<Item = Kind> {
    let comes = move |kind: &Kind| match kind.passes_many_buckets() {
        true => history % MANY_BUCKETS_ONE_IN == 0,
        false => history % STUCK_ITEMS_ONE_IN == 0,
    };
    KINDS.into_iter().filter(comes)
}

/// The creation of a table, and the events that bring it to where a step is of this kind.
pub fn history_to(random: &mut Random, form: u64, kind: Kind) -> (Setting, Vec<Event>) {
    let used = fates_for(random, kind);
    let least_exponent = (0..).find(|&exponent| 1 << exponent >= used.len()).unwrap_or(0);
    let largest = if kind.passes_many_buckets() { LARGEST_EXPONENT_OF_MANY } else { LARGEST_EXPONENT };
    let exponent = (least_exponent + random.pick(&[0, 0, 1])).min(largest);
    let fates = with_empty_buckets(random, used, 1 << exponent);
    // While growing, the top has four times as many buckets as the interim level.
    let c = exponent + 2 + random.below(2);
    let (mul1, mul2) = multipliers(random);
    let setting = Setting { form, c, k: exponent + 1, mul1, mul2 };
    let mut making = Making { random, setting, events: vec![] };
    making.make(fates);
    (setting, making.events)
}

/// The fates of the items of some interim buckets, by bucket and slot.
fn fates_for(random: &mut Random, kind: Kind) -> Vec<Vec<Fate>> {
    let part = 1 + random.index(SLOTS_PER_BUCKET - 1);
    let perhaps_part = random.index(SLOTS_PER_BUCKET);
    let (passed, way) = match kind {
        Kind::AllStuck => {
            return (0..1 + random.below(4)).map(|_| stuck(1 + random.index(SLOTS_PER_BUCKET))).collect()
        }
        Kind::Takes { passed, way } => (passed, way),
    };
    let (mut buckets, before_it) = match passed {
        Passed::Nothing => (vec![], 0),
        Passed::ItsBucket => (vec![], part),
        Passed::PartsOfBuckets => (vec![stuck(part)], perhaps_part),
        Passed::WholeBucket => (vec![stuck(SLOTS_PER_BUCKET)], perhaps_part),
        Passed::WholeBuckets => (vec![stuck(SLOTS_PER_BUCKET); 2 + random.index(2)], perhaps_part),
        Passed::ManyBuckets => {
            let count = MANY_BUCKETS + random.index(MANY_BUCKETS + 1);
            (vec![stuck(SLOTS_PER_BUCKET); count], perhaps_part)
        }
    };
    let mut its_bucket = stuck(before_it);
    its_bucket.push(Fate::Placed(way));
    let room = SLOTS_PER_BUCKET - its_bucket.len();
    its_bucket.extend(any_fates(random, room));
    buckets.push(its_bucket);
    if random.one_in(2) {
        buckets.push(any_fates(random, SLOTS_PER_BUCKET));
    }
    buckets
}

fn stuck(count: usize) -> Vec<Fate> {
    vec![Fate::Stuck; count]
}

fn any_fates(random: &mut Random, most: usize) -> Vec<Fate> {
    let count = random.index(most + 1);
    (0..count)
        .map(|_| random.pick(&[Fate::Stuck, Fate::Placed(Way::FreeSlot), Fate::Placed(Way::Move)]))
        .collect()
}

/// So many buckets, with empty ones here and there.
fn with_empty_buckets(random: &mut Random, mut buckets: Vec<Vec<Fate>>, size: usize) -> Vec<Vec<Fate>> {
    while buckets.len() < size {
        let at = random.index(buckets.len() + 1);
        buckets.insert(at, vec![]);
    }
    buckets
}

/// With these every family has keys of all its top places.
fn multipliers(random: &mut Random) -> (u64, u64) {
    let (one, other) = (random.word() | 1, random.word() | 1);
    random.pick(&[(MARKED_1, MARKED_1), (one, one), (MARKED_1, MARKED_2), (one, other), (one, other)])
}

/// A bottom bucket's two top buckets.
#[derive(Clone, Copy)]
struct Family {
    first: u64,
    second: u64,
}

/// An interim bucket's items, and the two families that share it: all slots of the one are taken in the end; the second top bucket of
/// the other has room for every item that is to be placed.
struct InterimBucket {
    fates: Vec<Fate>,
    full: Family,
    roomy: Family,
}

impl InterimBucket {
    fn has_stuck(&self) -> bool {
        self.fates.contains(&Fate::Stuck)
    }

    fn has_placed(&self) -> bool {
        self.fates.iter().any(|&fate| fate != Fate::Stuck)
    }

    fn has_move(&self) -> bool {
        self.fates.contains(&Fate::Placed(Way::Move))
    }
}

struct Making<'r> {
    random: &'r mut Random,
    /// At rest: the bottom will be the interim level, and the top the bottom.
    setting: Setting,
    events: Vec<Event>,
}

impl Making<'_> {
    fn make(&mut self, fates: Vec<Vec<Fate>>) {
        let buckets: Vec<InterimBucket> =
            (0..).zip(fates).map(|(number, fates)| self.interim_bucket(number, fates)).collect();
        for bucket in &buckets {
            self.fill_at_rest(bucket);
        }
        self.events.push(Event::Begin);
        for bucket in &buckets {
            self.fill_top(bucket);
        }
    }

    fn interim_bucket(&mut self, number: u64, fates: Vec<Fate>) -> InterimBucket {
        let [one, other] = [number, number + (1 << (self.setting.k - 1))].map(|bottom| self.family(bottom));
        let (full, roomy) = if self.random.one_in(2) { (one, other) } else { (other, one) };
        InterimBucket { fates, full, roomy }
    }

    fn family(&mut self, bottom: u64) -> Family {
        let higher = bottom + (1 << self.setting.k);
        let (first, second) = if self.random.one_in(2) { (bottom, higher) } else { (higher, bottom) };
        Family { first, second }
    }

    /// The top's buckets first: with these full, the next keys go to the bottom.
    fn fill_at_rest(&mut self, bucket: &InterimBucket) {
        let InterimBucket { full, roomy, .. } = *bucket;
        for _ in 0..SLOTS_PER_BUCKET {
            if bucket.has_stuck() {
                self.insert_any(full);
            }
            if bucket.has_placed() {
                self.insert_in_second(roomy);
            }
        }
        for fate in &bucket.fates {
            match fate {
                Fate::Stuck => self.insert_any(full),
                Fate::Placed(Way::FreeSlot) => self.insert_in_second(roomy),
                Fate::Placed(Way::Move) => self.insert(roomy.first, roomy.first),
            }
        }
    }

    /// The top is new and empty. An item that is to be placed by a move finds its one top place full; an item of the bottom can go up
    /// from there, or one of that top place to the other.
    fn fill_top(&mut self, bucket: &InterimBucket) {
        let InterimBucket { full, roomy, .. } = *bucket;
        if bucket.has_stuck() {
            self.fill_both(full);
        }
        if bucket.has_move() {
            let has_other = self.random.one_in(2) && !self.setting.has_equal_multipliers();
            self.insert(roomy.first, if has_other { roomy.second } else { roomy.first });
            for _ in 1..SLOTS_PER_BUCKET {
                self.insert(roomy.first, roomy.first);
            }
        }
    }

    /// One after the other, or, with keys that have both places, both at once.
    fn fill_both(&mut self, family: Family) {
        let Family { first, second } = family;
        let at_once = self.random.one_in(2) && !self.setting.has_equal_multipliers();
        for number in 0..2 * SLOTS_PER_BUCKET {
            match (at_once, number < SLOTS_PER_BUCKET) {
                (true, _) => self.insert(first, second),
                (false, true) => self.insert(first, first),
                (false, false) => self.insert_in_second(family),
            }
        }
    }

    /// A key of a family, with any of its top places.
    fn insert_any(&mut self, Family { first, second }: Family) {
        let family = if self.random.one_in(2) {
            Family { first, second }
        } else {
            Family { first: second, second: first }
        };
        self.insert_in_second(family);
    }

    /// A key whose top places are the second bucket of a family, alone or with the first one.
    fn insert_in_second(&mut self, Family { first, second }: Family) {
        let ways = [(second, second), (first, second), (second, first)];
        let possible = if self.setting.has_equal_multipliers() { &ways[..1] } else { &ways[..] };
        let (one, other) = self.random.pick(possible);
        self.insert(one, other);
    }

    /// A key with these first and second places in the top of the growing table. Where none is found, the table is perhaps of another
    /// kind; what a run has seen is told by the table itself.
    fn insert(&mut self, first: u64, second: u64) {
        let Setting { form, k, mul1, mul2, .. } = self.setting;
        let place = |key: u64, multiplier| hash(form, multiplier, key) % (2 << k);
        let fits = |&key: &u64| place(key, mul1) == first && place(key, mul2) == second;
        let key = (0..MOST_TRIES).map(|_| self.random.word()).find(fits).unwrap_or(0);
        let (function, place) = (self.random.any_word(), self.random.any_word());
        self.events.push(Event::Insert { key, function, place });
    }
}

#[cfg(test)]
mod tests {
    use super::*;
    use crate::layout::FORMS;
    use crate::stuck_items::step_by_inserts;
    use crate::test_table::table_after;
    use ragansils_model::Table;
    use std::collections::BTreeSet;

    #[test]
    fn the_first_history_comes_with_every_kind() {
        assert_eq!(kinds_before(0).collect::<Vec<_>>(), KINDS);
    }

    /// Tables come with every fourth history, and with every sixteenth those past many buckets: both forms have them all.
    fn form_of(history: u64) -> u64 {
        FORMS[history as usize / 16 % 2]
    }

    #[test]
    fn each_history_leads_to_its_kind() {
        let mut random = Random::new(1);
        for (form, kind) in
            (0..400).flat_map(|number| kinds_before(number).map(move |kind| (form_of(number), kind)))
        {
            let (setting, events) = history_to(&mut random, form, kind);
            let step = step_by_inserts(&table_after(setting, events)).unwrap();
            assert_eq!(step.kind, Some(kind), "{setting:?}");
        }
    }

    /// Levels of all sizes, equal multipliers and others, and an interim level that is full or has gaps.
    #[test]
    fn histories_differ() {
        let mut random = Random::new(1);
        let (mut settings, mut taken) = (BTreeSet::new(), BTreeSet::new());
        for kind in (0..640).flat_map(kinds_before) {
            let (setting, events) = history_to(&mut random, 2, kind);
            settings.insert((setting.k, setting.c, setting.has_equal_multipliers()));
            let words = table_after(setting, events);
            let table = Table::read(&words).unwrap();
            let interim = table.interim().unwrap();
            taken.extend(interim.buckets().map(|bucket| table.taken_count(bucket)));
        }
        let all_settings =
            (1..=6).flat_map(|k| [(k, k + 1), (k, k + 2)]).flat_map(|(k, c)| [(k, c, false), (k, c, true)]);
        assert_eq!(settings, all_settings.collect());
        assert_eq!(taken, (0..=4).collect());
    }
}
