//! Tables on which a change of each kind comes next, from random histories.

use std::fmt::{self, Display};

use ragansils::{Form, Phase};
use ragansils_compare::case::event_name;
use ragansils_compare::history::{next_event, Keys, Mood, Setting};
use ragansils_compare::plain_map::{self, PlainMap};
use ragansils_compare::random::Random;
use ragansils_model::{create, table_words, word, Event};

use crate::judge::{made, stores_of};
use crate::records::sealed;

/// A kind of change: the form of the table, its phase before the change, the call, and its number of stores.
#[derive(Clone, Copy, Debug, PartialEq, Eq, PartialOrd, Ord)]
pub struct Kind {
    pub form: Form,
    pub phase: Phase,
    pub call: &'static str,
    pub stores: u64,
}

impl Kind {
    pub fn of(words: &[u64], event: Event, stores: u64) -> Result<Kind, String> {
        let form = words.get(word::FORM).and_then(|&form| Form::of_number(form));
        let form = form.ok_or("the table has no form")?;
        let phase = words.get(word::STATE).and_then(|&state| Phase::of_state(state));
        let phase = phase.ok_or("the state has no phase")?;
        Ok(Kind { form, phase, call: event_name(event), stores })
    }
}

impl Display for Kind {
    fn fmt(&self, f: &mut fmt::Formatter) -> fmt::Result {
        f.pad(&format!("{}  {:<9}  {} of {}", self.form, self.phase, self.call, self.stores))
    }
}

/// Those of the table of store lists of document 01, the paper that fixes the table, and of request f) of document 02 that can come in a
/// phase.
fn calls_in(phase: Phase) -> impl Iterator<Item = (&'static str, u64)> {
    let anywhere = [("insert", 4), ("insert", 9), ("update", 4), ("update", 7), ("delete", 1)];
    let own: &[(&str, u64)] = match phase {
        Phase::AtRest => &[("begin", 1), ("shrink", 1)],
        Phase::Growing | Phase::Shrinking => &[("step", 5), ("step", 10), ("end", 1), ("back", 1)],
    };
    anywhere.into_iter().chain(own.iter().copied())
}

fn kinds(form: Form) -> Vec<Kind> {
    let in_phase = |phase| calls_in(phase).map(move |(call, stores)| Kind { form, phase, call, stores });
    Phase::ALL.into_iter().flat_map(in_phase).collect()
}

/// A sound table, and the change that comes next.
pub struct Prepared {
    pub words: Vec<u64>,
    pub event: Event,
    pub kind: Kind,
    pub list: Vec<u64>,
    pub before: PlainMap,
    pub after: PlainMap,
}

/// A small table of random multipliers, where every kind of change comes soon.
pub fn small_setting(random: &mut Random, form: Form) -> Setting {
    let c = 3 + random.below(4);
    Setting::of_capacity(random, form.number(), c)
}

/// Histories are given up after so many events in all; far fewer will do.
const MOST_EVENTS: u64 = 50_000_000;

/// So many tables of each kind, in one form.
pub fn prepare(random: &mut Random, form: Form, of_each: usize) -> Result<Vec<Prepared>, String> {
    let kinds = kinds(form);
    let mut found: Vec<Prepared> = vec![];
    let mut events = 0;
    let wanted = |found: &[Prepared], kind: Kind| {
        kinds.contains(&kind) && found.iter().filter(|one| one.kind == kind).count() < of_each
    };
    while found.len() < of_each * kinds.len() {
        // One of a kind from a history, so that tables differ.
        let mut kinds_of_history = vec![];
        let mut history = History::start(random, form);
        for _ in 0..2000 {
            let next = history.next(random)?;
            events += 1;
            if let Some(next) = next.filter(|next| !kinds_of_history.contains(&next.kind)) {
                if wanted(&found, next.kind) {
                    kinds_of_history.push(next.kind);
                    found.push(next);
                }
            }
        }
        if events > MOST_EVENTS {
            return Err(format!("only {} tables found in {events} events", found.len()));
        }
    }
    Ok(found)
}

struct History {
    words: Vec<u64>,
    map: PlainMap,
    keys: Keys,
    mood: Mood,
    last: u64,
}

impl History {
    fn start(random: &mut Random, form: Form) -> History {
        let setting = small_setting(random, form);
        let Setting { form, c, k, mul1, mul2 } = setting;
        let mut words = vec![0; table_words(c).unwrap_or(0)];
        create(&mut words, form, c, k, mul1, mul2);
        let keys = Keys::random(random, setting);
        History { words, map: PlainMap::new(), keys, mood: Mood::random(random), last: 0 }
    }

    /// Makes the next change, and answers it with the table before; nothing where it was refused.
    fn next(&mut self, random: &mut Random) -> Result<Option<Prepared>, String> {
        let event = next_event(random, &self.words, &self.keys, self.mood, self.last);
        let event = sealed(random, event);
        match stores_of(&self.words, event) {
            Err(refusal) => {
                self.last = refusal;
                Ok(None)
            }
            Ok(list) => {
                self.last = 0;
                let kind = Kind::of(&self.words, event, list.len() as u64 / 2)?;
                let after_words = made(&self.words, &list, list.len() as u64 / 2);
                let after = plain_map::after(&self.map, event);
                let words = std::mem::replace(&mut self.words, after_words);
                let before = std::mem::replace(&mut self.map, after.clone());
                Ok(Some(Prepared { words, event, kind, list, before, after }))
            }
        }
    }
}
