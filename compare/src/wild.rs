//! Cases over words that no history made.

use ragansils_model::{table_words, Event, LEAST_LIST_WORDS};

use crate::both::{Both, Finding};
use crate::case::{Call, Case};
use crate::damage::few_depths_of_one_address;
use crate::history::any_item;
use crate::random::Random;
use crate::random_chains::{chain_near, lent_words};
use crate::starts::{any_start, count_number};
use crate::tag_damage::mend_tags;

/// Creations, makings and all other calls.
pub fn wild_calls(random: &mut Random, both: &mut Both, form: u64) -> Result<(), Finding> {
    both.run(&wild_creation(random, form))?;
    both.run(&wild_making(random))?;
    let table = wild_table(random, form);
    let (key, function, place) = (random.any_word(), random.any_word(), random.any_word());
    let call = random.pick(&[
        Call::Query { key },
        Call::Change(Event::Insert { key, function, place }),
        Call::Change(Event::Update { key, function, place }),
        Call::Change(Event::Delete { key }),
        Call::Change(Event::Begin),
        Call::Change(Event::Shrink),
        Call::Change(Event::Back),
        Call::Change(Event::Step),
        Call::Change(Event::End),
        Call::Change(Event::Recover),
    ]);
    let case = Case { call, table, list: any_list(random) };
    let outcome = both.run(&case)?;
    both.tally.phases_of_other_words.count_case(&case, &outcome);
    both.tally.tags.count_case(&case, &outcome);
    let step = wild_step(random, form);
    let number = both.run(&step)?.number;
    count_number(&mut both.tally.starts.of_other_words, &step.table, number);
    let chain = wild_chain(random, form);
    let number = both.run(&chain)?.number;
    both.tally.chains_of_other_words.count(&chain, number);
    Ok(())
}

fn wild_step(random: &mut Random, form: u64) -> Case {
    let table = wild_table(random, form);
    let from = any_start(random, &table);
    Case { call: Call::Change(Event::StepFrom { from }), list: any_list(random), table }
}

fn wild_chain(random: &mut Random, form: u64) -> Case {
    let mut table = wild_table(random, form);
    if random.one_in(2) {
        few_depths_of_one_address(random, &mut table);
    }
    let key = any_item(random, &table).map_or(random.any_word(), |slot| table[slot.key_word()]);
    let chain = chain_near(random, &table, key);
    Case { call: Call::Chain(chain), list: lent_words(random, chain), table }
}

fn wild_creation(random: &mut Random, own_form: u64) -> Case {
    let form = match random.below(6) {
        0 => random.below(4),
        1 => random.any_word(),
        2 => own_form + (1 << random.pick(&[8, 32, 63])),
        _ => own_form,
    };
    let c = match random.below(8) {
        0 => 0,
        1 => 9 + random.below(14),
        2 => random.any_word(),
        _ => 1 + random.below(8),
    };
    let k = match random.below(6) {
        0 => 0,
        1 => c.wrapping_add(1),
        2 => random.any_word(),
        _ => 1 + random.below(c.clamp(1, 20)),
    };
    let mut multiplier = || if random.one_in(6) { random.any_word() } else { random.word() | 1 };
    let (mul1, mul2) = (multiplier(), multiplier());
    // Right lengths of large tables would cost more than they show.
    let right = table_words(c).filter(|_| c <= 10).unwrap_or(22);
    let length = if random.one_in(5) { nearby_length(random, right) } else { right };
    Case { call: Call::Create { form, c, k, mul1, mul2 }, table: random.words(length), list: vec![] }
}

fn wild_making(random: &mut Random) -> Case {
    let table_length = random.index(60);
    let list_length = random.index(25);
    let table = random.words(table_length);
    let mut list = random.words(list_length);
    let pairs = list_length as u64 / 2;
    let wild_pair = random.below(2 * pairs + 1) as usize;
    for (pair, index) in list.iter_mut().step_by(2).enumerate() {
        // At most one index is wild, so that the others do not hide it.
        *index = match random.below(4) {
            _ if pair != wild_pair => random.below((table_length as u64).max(1)),
            0 => table_length as u64,
            1 => random.below(60) + random.pick(&[1 << 32, 1 << 61, 1 << 63]),
            _ => random.any_word(),
        };
    }
    let n = match random.below(6) {
        0 => random.any_word(),
        1 => pairs + random.below(3),
        2 => random.below(pairs + 1) + random.pick(&[1 << 32, 1 << 60, 1 << 63]),
        _ => random.below(pairs + 1),
    };
    Case { call: Call::Make { n }, table, list }
}

/// Garbage of any length, or of a right length behind a header that is nearly good. In form 2 half of them have right tags, or no key
/// would be found.
pub fn wild_table(random: &mut Random, form: u64) -> Vec<u64> {
    let c = 1 + random.below(5);
    let right = table_words(c).unwrap_or(0);
    let length = if random.one_in(4) { nearby_length(random, right) } else { right };
    let mut table = random.words(length);
    let state = 1 + random.below(c) + 256 * random.below(3);
    let header = [form, c, random.word() | 1, random.word() | 1, state, 0];
    for (table_word, good) in table.iter_mut().zip(header) {
        if !random.one_in(20) {
            *table_word = good;
        }
    }
    if random.one_in(2) {
        mend_tags(&mut table);
    }
    table
}

fn nearby_length(random: &mut Random, right: usize) -> usize {
    match random.below(4) {
        0 => right - 1,
        1 => right + 1,
        2 => random.index(10),
        _ => random.index(right + 14),
    }
}

/// A list of any length from 0 to 24, mostly one that is long enough.
pub fn any_list(random: &mut Random) -> Vec<u64> {
    let words = if random.one_in(6) { random.index(25) } else { LEAST_LIST_WORDS + random.index(5) };
    random.words(words)
}
