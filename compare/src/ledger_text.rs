//! Random ledgers: a script, and samples behind it. The model's table tells which keys have a record.

use ragansils_model::{
    keys_in_several_slots, make, recover, Event, Slot, Table, LARGEST_PROGRAM_CAPACITY, LEAST_LIST_WORDS,
    SUCCESS,
};

use crate::case::is_resizing;
use crate::history::{any_item, Setting};
use crate::random::Random;
use crate::script_text::{any_cut, random_script, Script, SCRIPT_FORM};

/// So many functions are counted at most.
pub const MOST_COUNTED: usize = 512;

pub fn random_ledger(random: &mut Random) -> Vec<u8> {
    let has_many_functions = random.one_in(12);
    let mut script = if has_many_functions { many_functions(random) } else { random_script(random) };
    if random.one_in(2) {
        forget_recovery(random, &mut script);
    }
    let plan = Samples {
        each_key_once: has_many_functions || random.one_in(3),
        more: random.pick(&[0, 0, 1, 10, 100, 1000]),
        absent_one_in: random.pick(&[1, 2, 5, 20, 1000]),
    };
    plan.write(random, &mut script);
    script.text
}

/// A large table with about as many functions as are counted, or with more.
fn many_functions(random: &mut Random) -> Script {
    let c = LARGEST_PROGRAM_CAPACITY;
    let mut script = Script::default();
    script.header(Setting { form: SCRIPT_FORM, c, k: c, mul1: random.word() | 1, mul2: random.word() | 1 });
    let bound = MOST_COUNTED as u64;
    let functions = random.pick(&[bound - 1, bound, bound, bound, bound + 1, bound + 2, bound + 200]);
    let function = function_names(random);
    // Some functions have several keys.
    for index in 0..functions + random.below(60) {
        let event = Event::Insert { key: random.word(), function: function(index % functions), place: index };
        script.event(event, None);
    }
    script
}

/// Names for functions, by number: in ascending or descending order, or in none. The least or the largest word is among them.
fn function_names(random: &mut Random) -> Box<dyn Fn(u64) -> u64> {
    let seed = random.word();
    match random.below(3) {
        0 => Box::new(|number| number),
        1 => Box::new(|number| u64::MAX - number),
        _ => Box::new(move |number| match number {
            0 => 0,
            1 => u64::MAX,
            _ => Random::new(seed.wrapping_add(number)).word(),
        }),
    }
}

/// Changes that are cut, and no recovery behind them. Recovery mends what one cut leaves, and refuses most of what comes of two.
pub fn forget_recovery(random: &mut Random, script: &mut Script) {
    match random.below(4) {
        0 => cut_update(random, script),
        1 => cut_step(random, script),
        2 => {
            cut_step(random, script);
            change_doubled_key(random, script);
        }
        _ => {
            let event = Event::Insert {
                key: random.any_word(),
                function: random.any_word(),
                place: random.any_word(),
            };
            script.event(event, Some(any_cut(random)));
        }
    }
}

/// In a full bucket it may leave the flag.
fn cut_update(random: &mut Random, script: &mut Script) {
    let item = any_item_of_full_bucket(random, &script.table).or_else(|| any_item(random, &script.table));
    if let Some(slot) = item {
        let key = script.table[slot.key_word()];
        let event = Event::Update { key, function: random.any_word(), place: random.any_word() };
        let stores = script.stores_of(event);
        let after =
            if random.one_in(3) { any_cut(random) } else { stores.saturating_sub(1 + random.below(3)) };
        script.event(event, Some(after));
    }
}

fn any_item_of_full_bucket(random: &mut Random, words: &[u64]) -> Option<Slot> {
    let table = Table::read(words).ok()?;
    let mut items = table.taken_slots(&table.levels_in_use());
    items.retain(|slot| table.lowest_free_slot(slot.bucket).is_none());
    (!items.is_empty()).then(|| random.pick(&items))
}

/// Just before the step's last store, its item stands twice.
fn cut_step(random: &mut Random, script: &mut Script) {
    if !is_resizing(&script.table) {
        script.event(random.pick(&[Event::Begin, Event::Shrink]), None);
    }
    let stores = script.stores_of(Event::Step);
    let after = if random.one_in(3) { any_cut(random) } else { stores.saturating_sub(1) };
    script.event(Event::Step, Some(after));
}

/// Of two equal items one is changed, so that nobody can tell which is right.
fn change_doubled_key(random: &mut Random, script: &mut Script) {
    let doubled = Table::read(&script.table).map(|table| keys_in_several_slots(&table)).unwrap_or_default();
    if let Some(slot) = doubled.first().and_then(|slots| slots.first()) {
        let key = script.table[slot.key_word()];
        script.event(Event::Update { key, function: random.any_word(), place: random.any_word() }, None);
    }
}

/// Which samples come.
struct Samples {
    /// Each key that has a record, in no order, before all others.
    each_key_once: bool,
    more: u64,
    /// One in so many of the others has no record, as a rule.
    absent_one_in: u64,
}

impl Samples {
    fn write(&self, random: &mut Random, script: &mut Script) {
        let map = keys_after_recovery(&script.table);
        let is_refused = map.is_none();
        let present = shuffled(random, map.unwrap_or_default());
        if self.each_key_once {
            for key in &present {
                script.line("sample", key);
            }
        }
        for _ in 0..random.below(self.more + 1) {
            let is_absent = present.is_empty() || random.one_in(self.absent_one_in);
            let key = if is_absent { random.any_word() } else { often_the_first(random, &present) };
            script.line("sample", key);
        }
        if is_refused && !random.one_in(4) {
            script.line("sample", 1);
            script.text.extend_from_slice(b"not read");
        }
    }
}

/// Samples are of few functions, most of the time.
pub fn often_the_first(random: &mut Random, keys: &[u64]) -> u64 {
    let among = 1 + random.index(keys.len());
    keys[random.index(among)]
}

/// The keys of the final map; no map where recovery refuses.
pub fn keys_after_recovery(words: &[u64]) -> Option<Vec<u64>> {
    let mut words = words.to_vec();
    let mut list = [0; LEAST_LIST_WORDS];
    let (number, stores) = recover(&words, &mut list);
    if number != SUCCESS {
        return None;
    }
    make(&mut words, &list, stores);
    let table = Table::read(&words).ok()?;
    let items = table.taken_slots(&table.levels_in_use());
    Some(items.into_iter().map(|slot| table.key(slot)).collect())
}

fn shuffled(random: &mut Random, mut keys: Vec<u64>) -> Vec<u64> {
    for end in (1..keys.len()).rev() {
        keys.swap(end, random.index(end + 1));
    }
    keys
}

#[cfg(test)]
mod tests {
    use std::collections::BTreeSet;

    use super::*;

    #[test]
    fn shuffling_loses_no_key() {
        let keys: Vec<u64> = (0..50).collect();
        let mut shuffled = shuffled(&mut Random::new(1), keys.clone());
        assert_ne!(shuffled, keys);
        shuffled.sort_unstable();
        assert_eq!(shuffled, keys);
    }

    #[test]
    fn names_of_functions_are_all_different() {
        for seed in 0..20 {
            let name = function_names(&mut Random::new(seed));
            let names: BTreeSet<u64> = (0..700).map(name).collect();
            assert_eq!(names.len(), 700);
            assert!(names.contains(&0) || names.contains(&u64::MAX));
        }
    }
}
