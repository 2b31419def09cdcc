//! Where conversions find their tables: sound ones of every load and every past, in both forms, and what the second table holds before.

use ragansils_model::{create, table_words, Event, SUCCESS};

use crate::case::{is_resizing, phase_of};
use crate::converted::NO_PLACE;
use crate::going_on::change_by_model;
use crate::history::{next_event, Keys, Mood, Setting};
use crate::layout::{hash, other_form};
use crate::random::Random;
use ragansils::Phase;

/// Most tables are small: a conversion of a large one costs as much as hundreds of them, and shows the same.
const SMALL_CAPACITY: u64 = 5;
const LARGEST_CAPACITY: u64 = 8;
const LARGE_ONE_IN: u64 = 40;

/// The largest k of a table whose keys are crowded in the other form. In larger ones such keys would take long to find.
const LARGEST_CROWDED_K: u64 = 6;
/// So many slots a bucket and the one below it have, of which a key that has one place in each level finds all taken at last.
const SLOTS_OF_TWO_BUCKETS: u64 = 8;
/// So often a word is tried for each crowded key.
const TRIES_FOR_A_KEY: u64 = 20_000;

/// How full a table is.
#[derive(Clone, Copy)]
enum Load {
    Empty,
    Part,
    /// Up to the first key that finds no place.
    ToTheFirstRefusal,
    /// And on from there, with other keys.
    PastRefusals,
    /// Keys that have few places in the other form, among others that have not.
    CrowdedInOtherForm,
}

const LOADS: [Load; 8] = [
    Load::Empty,
    Load::Part,
    Load::Part,
    Load::ToTheFirstRefusal,
    Load::ToTheFirstRefusal,
    Load::PastRefusals,
    Load::CrowdedInOtherForm,
    Load::CrowdedInOtherForm,
];

/// A sound table of a form: at rest, or one that grows or shrinks.
pub fn sound_table(random: &mut Random, form: u64) -> Vec<u64> {
    let setting = any_setting(random, form);
    sound_table_of(random, setting)
}

pub fn sound_table_of(random: &mut Random, setting: Setting) -> Vec<u64> {
    let mut source = Source { table: created(setting), keys: Keys::random(random, setting), setting };
    source.fill(random);
    if random.one_in(3) {
        source.live(random);
    }
    if random.one_in(6) {
        source.begin(random);
    } else {
        source.settle();
    }
    source.table
}

fn any_setting(random: &mut Random, form: u64) -> Setting {
    let c = match random.one_in(LARGE_ONE_IN) {
        true => SMALL_CAPACITY + 1 + random.below(LARGEST_CAPACITY - SMALL_CAPACITY),
        false => 1 + random.below(SMALL_CAPACITY),
    };
    let k = if random.one_in(3) { 1 + random.below(c) } else { c };
    Setting { k, ..Setting::of_capacity(random, form, c) }
}

fn created(Setting { form, c, k, mul1, mul2 }: Setting) -> Vec<u64> {
    let mut table = vec![0; table_words(c).unwrap_or(0)];
    create(&mut table, form, c, k, mul1, mul2);
    table
}

/// The model makes these tables: it is the conversions that are compared.
struct Source {
    setting: Setting,
    keys: Keys,
    table: Vec<u64>,
}

impl Source {
    fn fill(&mut self, random: &mut Random) {
        let slots = 6 << self.setting.k;
        match random.pick(&LOADS) {
            Load::Empty => {}
            Load::Part => {
                for _ in 0..random.below(slots) {
                    let key = self.keys.pick(random);
                    self.insert(random, key);
                }
            }
            Load::ToTheFirstRefusal => self.fill_up(random, slots, true),
            Load::PastRefusals => self.fill_up(random, slots, false),
            Load::CrowdedInOtherForm => self.crowd(random),
        }
    }

    /// With keys of the history's own first, and then with any words, which come to an end of the room in each table.
    fn fill_up(&mut self, random: &mut Random, slots: u64, stops: bool) {
        for number in 0..4 * slots {
            let key = if number < slots { self.keys.pick(random) } else { random.word() };
            if self.insert(random, key) == NO_PLACE && stops {
                return;
            }
        }
    }

    fn crowd(&mut self, random: &mut Random) {
        let setting = Setting { k: self.setting.k.min(LARGEST_CROWDED_K), ..self.setting };
        let places = 1 + random.below(2);
        let count = SLOTS_OF_TWO_BUCKETS * places + random.below(2 * SLOTS_OF_TWO_BUCKETS);
        let others = random.below(4);
        for _ in 0..count {
            let crowded = crowded_key(random, setting, places).unwrap_or_else(|| random.word());
            self.insert(random, crowded);
            for _ in 0..others {
                let other = random.word();
                self.insert(random, other);
            }
        }
    }

    /// It grows and shrinks, and items come and go.
    fn live(&mut self, random: &mut Random) {
        let mut mood = Mood::random(random);
        let mut last = SUCCESS;
        for _ in 0..10 + random.below(10 << self.setting.c) {
            let event = next_event(random, &self.table, &self.keys, mood, last);
            last = change_by_model(&mut self.table, event);
            if random.one_in(50) {
                mood = Mood::random(random);
            }
        }
    }

    /// A growth or a shrink that has come somewhere; not in a table that can do neither.
    fn begin(&mut self, random: &mut Random) {
        let events = random.pick(&[[Event::Begin, Event::Shrink], [Event::Shrink, Event::Begin]]);
        for event in events {
            change_by_model(&mut self.table, event);
        }
        for _ in 0..random.below(4 << self.setting.k) {
            change_by_model(&mut self.table, Event::Step);
        }
    }

    /// A growth or a shrink comes to its end, as far as there is room; a stuck shrink turns back.
    fn settle(&mut self) {
        while is_resizing(&self.table) {
            let is_shrinking = phase_of(&self.table) == Some(Phase::Shrinking);
            match change_by_model(&mut self.table, Event::Step) {
                SUCCESS => {}
                NO_PLACE if is_shrinking => drop(change_by_model(&mut self.table, Event::Back)),
                NO_PLACE => return,
                _ => drop(change_by_model(&mut self.table, Event::End)),
            }
        }
    }

    fn insert(&mut self, random: &mut Random, key: u64) -> u64 {
        let (function, place) = (random.any_word(), random.any_word());
        change_by_model(&mut self.table, Event::Insert { key, function, place })
    }
}

/// A key whose places in the other form are among the first `places` top buckets, and so among as many of the bottom.
pub fn crowded_key(random: &mut Random, setting: Setting, places: u64) -> Option<u64> {
    let form = other_form(setting.form);
    let is_crowded = |key: &u64| {
        [setting.mul1, setting.mul2]
            .into_iter()
            .all(|multiplier| hash(form, multiplier, *key) % (1 << setting.k) < places)
    };
    (0..TRIES_FOR_A_KEY).map(|_| random.word()).find(is_crowded)
}

/// The words of a second table, as long as the source: nothing of what they hold may be left.
pub fn old_words(random: &mut Random, source: &[u64]) -> Vec<u64> {
    match random.below(5) {
        0 => vec![u64::MAX; source.len()],
        1 => vec![0; source.len()],
        // a table that is full of items, as this one
        2 => source.to_vec(),
        _ => random.words(source.len()),
    }
}

/// The words of a second table of another length.
pub fn words_of_other_length(random: &mut Random, source: &[u64]) -> Vec<u64> {
    let words = source.len();
    let other_capacity = table_words(1 + random.below(LARGEST_CAPACITY)).unwrap_or(0);
    let any_length = random.index(2 * words + 2);
    let length = random.pick(&[0, words.saturating_sub(1), words + 1, other_capacity, any_length]);
    let length = if length == words { words + 1 } else { length };
    let mut second = old_words(random, source);
    second.resize(length, random.any_word());
    second
}

#[cfg(test)]
mod tests {
    use super::*;
    use crate::layout::{check_tokens, FORMS};
    use crate::plain_map;

    #[test]
    fn sources_are_sound_in_every_phase() {
        let mut random = Random::new(1);
        for form in FORMS {
            let tables: Vec<Vec<u64>> = (0..200).map(|_| sound_table(&mut random, form)).collect();
            for table in &tables {
                assert_eq!(check_tokens(table), Ok(()));
                assert!(plain_map::of_table(table).is_some());
            }
            for phase in Phase::ALL {
                assert!(tables.iter().any(|table| phase_of(table) == Some(phase)), "{phase}");
            }
        }
    }

    #[test]
    fn crowded_keys_have_few_places_in_the_other_form() {
        let mut random = Random::new(1);
        let setting = Setting { form: 1, c: 4, k: 4, mul1: random.word() | 1, mul2: random.word() | 1 };
        let places = |form, multiplier, key| hash(form, multiplier, key) % 16;
        let keys: Vec<u64> = (0..50).map(|_| crowded_key(&mut random, setting, 1).unwrap()).collect();
        assert!(keys.iter().all(|&key| places(2, setting.mul1, key) + places(2, setting.mul2, key) == 0));
        assert!(keys.iter().filter(|&&key| places(1, setting.mul1, key) > 0).count() > 30);
    }

    #[test]
    fn no_other_length_is_the_same() {
        let mut random = Random::new(1);
        let table = vec![0; 48];
        let lengths: Vec<usize> =
            (0..200).map(|_| words_of_other_length(&mut random, &table).len()).collect();
        assert!(!lengths.contains(&48));
        assert!([0, 47, 49, 100].into_iter().all(|length| lengths.contains(&length)), "{lengths:?}");
    }
}
