//! Random scripts. The model carries the table along, so that the events fit its state.

use ragansils_model::{
    create, make, table_words, Event, LARGEST_PROGRAM_CAPACITY, LEAST_LIST_WORDS, SUCCESS,
};

use crate::case::event_name;
use crate::case_text::event_arguments;
use crate::history::{any_item, next_event, Keys, Mood, Setting};
use crate::random::Random;
use crate::stuck_items::{Kind, KINDS};
use crate::{stuck_shrinks, stuck_tables};

/// "scripts make form 1"
pub const SCRIPT_FORM: u64 = 1;

/// The most stores an event has is 10; a cut is tried just beyond that, too.
const CUTS_TO_TRY: u64 = 12;

pub fn random_script(random: &mut Random) -> Script {
    if random.one_in(12) {
        return refused_creation(random);
    }
    if random.one_in(12) {
        return stuck_growth(random);
    }
    if random.one_in(12) {
        return stuck_shrink(random);
    }
    let grows_large = random.one_in(40);
    let setting = match grows_large {
        true => Setting::of_capacity(random, SCRIPT_FORM, LARGEST_PROGRAM_CAPACITY),
        false => Setting::random(random, SCRIPT_FORM),
    };
    let story = Story {
        events: if grows_large { 1500 + random.below(1500) } else { random.below(200) },
        mood: if grows_large { Mood::filling() } else { Mood::random(random) },
        cut_one_in: random.pick(&[1, 2, 4, 10, 1000]),
        forgets_one_in: random.pick(&[1, 1, 3, 1000]),
        recovers_late_one_in: random.pick(&[5, 15, 50]),
    };
    story.write(random, setting)
}

/// A good script whose creation is refused, with events that are not read.
fn refused_creation(random: &mut Random) -> Script {
    let mut setting = Setting::random(random, SCRIPT_FORM);
    match random.below(5) {
        0 => setting.c = random.pick(&[0, 9, 20, 21, u64::MAX]),
        1 => setting.k = random.pick(&[0, setting.c + 1, 257, u64::MAX]),
        2 => setting.mul1 = random.word() & !1,
        3 => setting.mul2 = 0,
        _ => setting.c = random.any_word(),
    }
    let mut script = Script::default();
    script.header(setting);
    script.text.extend_from_slice(b"op=begin\nnot read");
    script
}

/// Growth goes on as far as it can, past stuck items.
fn stuck_growth(random: &mut Random) -> Script {
    let kind = random.pick(&KINDS);
    let (setting, events) = stuck_tables::history_to(random, SCRIPT_FORM, kind);
    let mut script = Script::of_events(setting, events);
    steps_past_stuck_items(random, &mut script);
    script
}

/// A shrink goes on as far as it can, past stuck items; then it turns back, and that growth goes on as far as it can.
fn stuck_shrink(random: &mut Random) -> Script {
    // Tables for steps past many buckets take long to find; the run over words has them.
    let kinds: Vec<Kind> = KINDS.into_iter().filter(|kind| !kind.passes_many_buckets()).collect();
    let kind = random.pick(&kinds);
    let (setting, events) = stuck_shrinks::history_to(random, SCRIPT_FORM, kind);
    let mut script = Script::of_events(setting, events);
    steps_past_stuck_items(random, &mut script);
    if let Some(slot) = any_item(random, &script.table) {
        // Most buckets are full, and then the flag is left.
        let key = script.table[slot.key_word()];
        let update = Event::Update { key, function: random.any_word(), place: random.any_word() };
        script.event(update, Some(any_cut(random)));
        recover(random, &mut script);
    }
    if random.one_in(3) {
        script.event(Event::Back, Some(random.below(2)));
        recover(random, &mut script);
    }
    script.event(Event::Back, None);
    steps_past_stuck_items(random, &mut script);
    if random.one_in(2) {
        script.event(Event::End, None);
    }
    script
}

fn steps_past_stuck_items(random: &mut Random, script: &mut Script) {
    while script.last_number == SUCCESS {
        if random.one_in(3) {
            script.event(Event::Step, Some(any_cut(random)));
            recover(random, script);
        }
        script.event(Event::Step, None);
    }
}

/// How a script goes.
struct Story {
    events: u64,
    mood: Mood,
    cut_one_in: u64,
    forgets_one_in: u64,
    /// A recovery comes now and then, when several may have been forgotten.
    recovers_late_one_in: u64,
}

impl Story {
    fn write(&self, random: &mut Random, setting: Setting) -> Script {
        let keys = Keys::random(random, setting);
        let mut script = Script::default();
        script.header(setting);
        for _ in 0..self.events {
            if random.one_in(5) {
                let key = keys.pick_likely(random, &script.table);
                script.query(key);
                continue;
            }
            if random.one_in(self.recovers_late_one_in) {
                script.event(Event::Recover, None);
            }
            let event = next_event(random, &script.table, &keys, self.mood, script.last_number);
            if random.one_in(self.cut_one_in) {
                script.event(event, Some(any_cut(random)));
                if !random.one_in(self.forgets_one_in) {
                    recover(random, &mut script);
                }
            } else {
                script.event(event, None);
            }
        }
        script
    }
}

pub fn any_cut(random: &mut Random) -> u64 {
    if random.one_in(20) {
        random.any_word()
    } else {
        random.below(CUTS_TO_TRY)
    }
}

/// A recovery that may be cut itself, and then comes again.
fn recover(random: &mut Random, script: &mut Script) {
    while random.one_in(3) {
        script.event(Event::Recover, Some(random.below(5)));
    }
    script.event(Event::Recover, None);
}

/// A script's text so far, and the table that it leads to.
#[derive(Default)]
pub struct Script {
    pub text: Vec<u8>,
    pub table: Vec<u64>,
    /// The answer of the last event.
    pub last_number: u64,
}

impl Script {
    /// The creation of a table, and events that are not cut.
    fn of_events(setting: Setting, events: Vec<Event>) -> Script {
        let mut script = Script::default();
        script.header(setting);
        for event in events {
            script.event(event, None);
        }
        script
    }

    pub fn line(&mut self, name: &str, value: impl ToString) {
        self.text.extend_from_slice(format!("{name}={}\n", value.to_string()).as_bytes());
    }

    /// The form is not told: a script's table is of form 1.
    pub fn header(&mut self, Setting { c, k, mul1, mul2, .. }: Setting) {
        for (name, value) in [("cap", c), ("top", k), ("mul1", mul1), ("mul2", mul2)] {
            self.line(name, value);
        }
        let words = table_words(c).filter(|_| c <= LARGEST_PROGRAM_CAPACITY);
        self.table = vec![0; words.unwrap_or(0)];
        create(&mut self.table, SCRIPT_FORM, c, k, mul1, mul2);
    }

    fn query(&mut self, key: u64) {
        self.line("op", "query");
        self.line("key", key);
    }

    pub fn event(&mut self, event: Event, cut: Option<u64>) {
        if let Some(after) = cut {
            self.line("op", "cut");
            self.line("after", after);
        }
        self.line("op", event_name(event));
        for (name, value) in event_arguments(event) {
            self.line(name, value);
        }
        let mut list = [0; LEAST_LIST_WORDS];
        let (number, stores) = event.list_stores(&self.table, &mut list);
        make(&mut self.table, &list, cut.unwrap_or(stores).min(stores));
        self.last_number = number;
    }

    /// How many stores an event would list now.
    pub fn stores_of(&self, event: Event) -> u64 {
        event.list_stores(&self.table, &mut [0; LEAST_LIST_WORDS]).1
    }
}
