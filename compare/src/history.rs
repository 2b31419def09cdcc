//! What random histories are made of: a table's setting, its keys, and the
//! next event. Word runs and scripts use the same.

use ragansils_model::{Event, Slot, Table};

use crate::random::Random;

/// The multipliers of the marked examples of document 01, the paper that fixes the table.
pub const MARKED_1: u64 = 4294967297;
pub const MARKED_2: u64 = 12884901889;

/// The arguments of a creation.
#[derive(Clone, Copy, Debug)]
pub struct Setting {
    pub form: u64,
    pub c: u64,
    pub k: u64,
    pub mul1: u64,
    pub mul2: u64,
}

impl Setting {
    pub fn random(random: &mut Random, form: u64) -> Setting {
        let c = if random.one_in(40) { 8 } else { 1 + random.below(5) };
        Setting::of_capacity(random, form, c)
    }

    pub fn of_capacity(random: &mut Random, form: u64, c: u64) -> Setting {
        // Histories that start small have room to grow.
        let k = if random.one_in(3) { 1 + random.below(c) } else { 1 };
        let (mul1, mul2) = multipliers(random);
        Setting { form, c, k, mul1, mul2 }
    }

    /// Then every key has one place in each level.
    pub fn has_equal_multipliers(self) -> bool {
        self.mul1 == self.mul2
    }

    /// The slots of top and bottom when the table is as large as it can be.
    pub fn most_items(self) -> u64 {
        6 << self.c
    }
}

fn multipliers(random: &mut Random) -> (u64, u64) {
    match random.below(8) {
        0 | 1 => (MARKED_1, MARKED_2),
        2 => (MARKED_1, MARKED_1),
        3 => (random.below(1000) | 1, random.below(1000) | 1),
        4 => {
            let one = random.word() | 1;
            (one, one)
        }
        _ => (random.word() | 1, random.word() | 1),
    }
}

/// The keys a history takes its keys from, few enough that they come again.
pub struct Keys {
    pool: Vec<u64>,
}

impl Keys {
    pub fn random(random: &mut Random, setting: Setting) -> Keys {
        let most = setting.most_items();
        let count = most / 2 + random.below(most) + 1;
        let style = random.below(5);
        let base = random.word();
        let stride = 1 << random.below(setting.c + 1);
        let key = |index: u64, random: &mut Random| match style {
            0 => index,
            1 => index * stride,
            // A program's addresses, each with some inlining depths.
            2 => ((base >> 24) + 4 * (index / 3)).wrapping_mul(256) + index % 3,
            3 => u64::MAX - index,
            _ => random.word(),
        };
        Keys { pool: (0..count).map(|index| key(index, random)).collect() }
    }

    /// Keys that come as often as each of the others.
    pub fn add(&mut self, keys: impl Iterator<Item = u64>) {
        self.pool.extend(keys);
    }

    pub fn pick(&self, random: &mut Random) -> u64 {
        match random.below(100) {
            0 => random.any_word(),
            _ => random.pick(&self.pool),
        }
    }

    /// A key that stands in the table, or one of the pool.
    pub fn pick_likely(&self, random: &mut Random, words: &[u64]) -> u64 {
        match any_item(random, words) {
            Some(slot) if random.one_in(2) => words[slot.key_word()],
            _ => self.pick(random),
        }
    }
}

/// A taken slot in a level in use.
pub fn any_item(random: &mut Random, words: &[u64]) -> Option<Slot> {
    let table = Table::read(words).ok()?;
    let items = table.taken_slots(&table.levels_in_use());
    (!items.is_empty()).then(|| random.pick(&items))
}

/// Once in so many events stands for never.
const SELDOM: u64 = 1000;

/// What a stretch of a history is bent on.
#[derive(Clone, Copy)]
pub struct Mood {
    /// In parts of a hundred; what is left is deletes.
    inserts: u64,
    updates: u64,
    /// Growth or a shrink under way takes a step once in so many events. A slow growth
    /// lets the table fill up before the interim level is empty.
    step_one_in: u64,
    /// A table at rest begins to shrink once in so many events, however full it is.
    shrink_one_in: u64,
    /// Where something found no place, growth or a shrink turns back once in so many events.
    turn_one_in: u64,
}

impl Mood {
    pub fn filling() -> Mood {
        Mood { inserts: 90, updates: 5, step_one_in: 2, shrink_one_in: SELDOM, turn_one_in: SELDOM }
    }

    pub fn random(random: &mut Random) -> Mood {
        let (inserts, updates) = random.pick(&[(90, 5), (90, 5), (45, 25), (15, 25)]);
        let step_one_in = random.pick(&[1, 2, 20]);
        let (shrink_one_in, turn_one_in) = (random.pick(&[20, 100, SELDOM]), random.pick(&[1, 6, SELDOM]));
        Mood { inserts, updates, step_one_in, shrink_one_in, turn_one_in }
    }
}

/// The next event of a history. `last` is the answer of the event before it.
pub fn next_event(random: &mut Random, words: &[u64], keys: &Keys, mood: Mood, last: u64) -> Event {
    if random.one_in(25) {
        // Also where it does not fit, so that it is refused.
        let events = [Event::Begin, Event::Shrink, Event::Back, Event::Step, Event::End, Event::Recover];
        return random.pick(&events);
    }
    if let Some(event) = resizing_event(random, words, mood, last) {
        return event;
    }
    let (key, function, place) = (keys.pick(random), random.any_word(), random.any_word());
    match random.below(100) {
        part if part < mood.inserts => Event::Insert { key, function, place },
        part if part < mood.inserts + mood.updates => Event::Update { key, function, place },
        _ => Event::Delete { key },
    }
}

/// Growth or a shrink goes on where it is under way.
fn resizing_event(random: &mut Random, words: &[u64], mood: Mood, last: u64) -> Option<Event> {
    let table = Table::read(words).ok()?;
    match table.interim() {
        Some(interim) if table.taken_slots(&[interim]).is_empty() => match random.below(6) {
            0..=2 => Some(Event::End),
            // It finds nothing to move.
            3 => Some(Event::Step),
            _ => None,
        },
        // After a step without a place the table turns back, or other events must make room.
        Some(_) if last == 6 => random.one_in(mood.turn_one_in).then_some(Event::Back),
        Some(_) => random.one_in(mood.step_one_in).then_some(Event::Step),
        None => beginning(random, &table, mood, last),
    }
}

/// Growth begins where an insert found no place, and a shrink at any time.
fn beginning(random: &mut Random, table: &Table, mood: Mood, last: u64) -> Option<Event> {
    let k = table.state.k;
    let wants_room = last == 6 && k < table.capacity();
    if wants_room && !random.one_in(3) {
        return Some(Event::Begin);
    }
    (k > 1 && random.one_in(mood.shrink_one_in)).then_some(Event::Shrink)
}
