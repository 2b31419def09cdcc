//! Random histories through the proved library and the twin: the same answers, and the same words after each event.

use std::collections::BTreeSet;

use ragansils::Lookup;
use ragansils_compare::damage::damage;
use ragansils_compare::history::{next_event, Keys, Mood, Setting};
use ragansils_compare::random::Random;
use ragansils_compare::starts::{interim_buckets, Start};
use ragansils_compare::stuck_items::{step_by_inserts, Kind, StepTally};
use ragansils_compare::stuck_tables::{history_to, kinds_before};
use ragansils_compare::tags::{self, key_under_wrong_tag, kinds_in};
use ragansils_compare::told_slots::LevelTally;
use ragansils_model::{table_words, Event, SUCCESS};
use ragansils_twin::{ListingTwin, Proved, Side, Twin};

use crate::phases::PhaseTally;
use crate::starts::{answer_after_pass, interim_items, random_start, StartTally};

/// What a run has met.
#[derive(Default)]
pub struct Seen {
    pub calls: u64,
    /// Every answer, 0 among them.
    pub numbers: BTreeSet<u64>,
    /// In which levels queries found their keys.
    pub levels: LevelTally,
    /// How the token words of form 2 were damaged.
    pub damaged_tags: BTreeSet<tags::Kind>,
    /// Recoveries that mended a table: by one store, and by three.
    pub doubled: u64,
    pub flagged: u64,
    /// Steps of sound tables, by the stuck items that they came past.
    pub steps: StepTally,
    /// Steps that go on, by where they start.
    pub starts: StartTally,
    /// What was found and changed in each phase.
    pub phases: PhaseTally,
}

/// Makes at least so many calls of each side, with tables of one form, or says where they differ.
pub fn run(seed: u64, calls: u64, form: u64) -> Result<Seen, String> {
    let mut random = Random::new(seed);
    let mut seen = Seen::default();
    for number in 0.. {
        if seen.calls >= calls {
            break;
        }
        for kind in kinds_before(number) {
            play_past_stuck_items(&mut random, form, kind, &mut seen)?;
        }
        let setting = Setting::random(&mut random, form);
        History::start(&mut random, setting, &mut seen)?.play(&mut seen, calls)?;
    }
    Ok(seen)
}

/// A table made for a kind of step grows as far as it can.
fn play_past_stuck_items(random: &mut Random, form: u64, kind: Kind, seen: &mut Seen) -> Result<(), String> {
    let (setting, events) = history_to(random, form, kind);
    let mut history = History::start(random, setting, seen)?;
    for event in events {
        history.change(seen, event)?;
    }
    one_pass(seen, &history.table)?;
    while history.last_number == SUCCESS {
        history.damaged(seen)?;
        history.change(seen, Event::Step)?;
    }
    Ok(())
}

/// One pass over a table that grows or shrinks, in which each step goes on from the bucket told: it places every item that has a place, whatever stuck
/// items stand before it, and so the step after it is refused.
fn one_pass(seen: &mut Seen, resizing: &[u64]) -> Result<(), String> {
    let items = interim_items(resizing);
    let (mut start, mut from, mut moved, mut table) = (Start::First, 0, 0, resizing.to_vec());
    loop {
        let (number, bucket, after) = both_step_from(seen, &table, start, from)?;
        if number != SUCCESS {
            break;
        }
        if bucket < from {
            return Err(format!("a step from {from} tells bucket {bucket}; table before: {table:?}"));
        }
        (start, from, moved, table) = (Start::Told, bucket, moved + 1, after);
    }
    let left = interim_items(&table);
    let (number, _) = both_change(seen, &table, Event::Step)?;
    seen.starts.count_pass(left);
    if moved + left != items || number != answer_after_pass(left) {
        return Err(format!(
            "a pass moves {moved} of {items} items, leaves {left}, and a step then answers {number}; table before: {resizing:?}"
        ));
    }
    Ok(())
}

/// A sound table in the middle of its life.
struct History {
    random: Random,
    setting: Setting,
    keys: Keys,
    mood: Mood,
    table: Vec<u64>,
    last_number: u64,
}

impl History {
    fn start(random: &mut Random, setting: Setting, seen: &mut Seen) -> Result<History, String> {
        let garbage = random.words(table_words(setting.c).unwrap_or(0));
        let (no_form, form_3) = (Setting { form: 0, ..setting }, Setting { form: 3, ..setting });
        for bad in [Setting { k: setting.c + 1, ..setting }, no_form, form_3] {
            both_create(seen, bad, &garbage)?;
        }
        let table = both_create(seen, setting, &garbage)?;
        let keys = Keys::random(random, setting);
        let mut own_random = Random::new(random.word());
        let mood = Mood::random(&mut own_random);
        Ok(History { random: own_random, setting, keys, mood, table, last_number: 0 })
    }

    fn play(&mut self, seen: &mut Seen, enough_calls: u64) -> Result<(), String> {
        let events = 10 + self.random.below(40 << self.setting.c);
        for _ in 0..events {
            if seen.calls >= enough_calls {
                break;
            }
            let event = next_event(&mut self.random, &self.table, &self.keys, self.mood, self.last_number);
            self.change(seen, event)?;
            if self.random.one_in(4) {
                self.damaged(seen)?;
            }
            if self.random.one_in(50) {
                self.mood = Mood::random(&mut self.random);
            }
        }
        Ok(())
    }

    fn change(&mut self, seen: &mut Seen, event: Event) -> Result<(), String> {
        if event == Event::Step {
            step_by_inserts(&self.table).iter().for_each(|step| seen.steps.count(step));
        }
        self.some_cut(seen, event)?;
        (self.last_number, self.table) = both_change(seen, &self.table, event)?;
        self.some_start(seen)?;
        self.query(seen, &self.table.clone())
    }

    /// A step from some start on a copy of the table, and one that goes on from the bucket told.
    fn some_start(&mut self, seen: &mut Seen) -> Result<(), String> {
        let is_resizing = interim_buckets(&self.table).is_some();
        // At rest there is one answer, and it need not be met often.
        if !is_resizing && !self.random.one_in(20) {
            return Ok(());
        }
        if is_resizing && self.random.one_in(20) {
            one_pass(seen, &self.table)?;
        }
        let (start, from) = random_start(&mut self.random, &self.table);
        let (number, bucket, after) = both_step_from(seen, &self.table, start, from)?;
        if number == SUCCESS {
            both_step_from(seen, &after, Start::Told, bucket)?;
        }
        Ok(())
    }

    fn query(&mut self, seen: &mut Seen, table: &[u64]) -> Result<(), String> {
        let key = self.keys.pick_likely(&mut self.random, table);
        both_query(seen, table, key)
    }

    /// The table that some cut of an event leaves, through both recoveries.
    fn some_cut(&mut self, seen: &mut Seen, event: Event) -> Result<(), String> {
        let mut library = Proved::default();
        if library.list_stores(&self.table, event) != SUCCESS {
            return Ok(());
        }
        let mut cut = self.table.clone();
        library.make(&mut cut, self.random.below(library.stores() + 1));
        both_change(seen, &cut, Event::Recover)?;
        self.query(seen, &cut)
    }

    /// Every call on a damaged copy of the table.
    fn damaged(&mut self, seen: &mut Seen) -> Result<(), String> {
        let mut table = self.table.clone();
        damage(&mut self.random, &mut table);
        seen.damaged_tags.extend(kinds_in(&table));
        let key = self.keys.pick_likely(&mut self.random, &table);
        let (function, place) = (self.random.any_word(), self.random.any_word());
        let events = [
            Event::Recover,
            Event::Insert { key, function, place },
            Event::Insert { key: self.random.word(), function, place },
            Event::Update { key, function, place },
            Event::Delete { key },
            Event::Begin,
            Event::Shrink,
            Event::Back,
            Event::Step,
            Event::End,
        ];
        for event in events {
            both_change(seen, &table, event)?;
        }
        let (start, from) = random_start(&mut self.random, &table);
        both_step_from(seen, &table, start, from)?;
        both_query(seen, &table, key)?;
        let hidden = key_under_wrong_tag(&mut self.random, &table);
        hidden.map_or(Ok(()), |key| both_query(seen, &table, key))
    }
}

fn both_create(seen: &mut Seen, setting: Setting, garbage: &[u64]) -> Result<Vec<u64>, String> {
    let what = || format!("create with {setting:?}");
    let (mut by_library, mut by_twin) = (garbage.to_vec(), garbage.to_vec());
    let number = Proved::default().create(&mut by_library, setting);
    let twin_number = Twin.create(&mut by_twin, setting);
    seen.note(number);
    same(what, garbage, (number, by_library), (twin_number, by_twin)).map(|(_, table)| table)
}

fn both_query(seen: &mut Seen, table: &[u64], key: u64) -> Result<(), String> {
    // No answer has these words, so one that is not written is seen.
    let (mut answer, mut twin_answer) = ([u64::MAX; Lookup::WORDS], [u64::MAX; Lookup::WORDS]);
    let number = Proved::default().query(table, key, &mut answer);
    let twin_number = Twin.query(table, key, &mut twin_answer);
    seen.note(number);
    let what = || format!("query key={key}");
    same(what, table, (number, answer.to_vec()), (twin_number, twin_answer.to_vec()))?;
    if let Ok(Lookup { found: Some(found), .. }) = Lookup::of_words(number, answer) {
        seen.levels.count(found.slot.level);
        seen.phases.count_found(table, found.slot.level);
    }
    Ok(())
}

fn both_change(seen: &mut Seen, table: &[u64], event: Event) -> Result<(u64, Vec<u64>), String> {
    let mut library = Proved::default();
    let by_library = changed(&mut library, table, event);
    seen.note(by_library.0);
    match (event, library.stores()) {
        (Event::Recover, 1) => seen.doubled += 1,
        (Event::Recover, 3) => seen.flagged += 1,
        _ => {}
    }
    if by_library.0 == SUCCESS {
        seen.phases.count_change(table, event, library.stores());
    }
    let what = || format!("{event:?}");
    let by_both = same(what, table, by_library, changed(&mut Twin, table, event))?;
    same(what, table, by_both, changed(&mut ListingTwin::default(), table, event))
}

/// The number, the bucket told and the table after it.
fn both_step_from(
    seen: &mut Seen,
    table: &[u64],
    start: Start,
    from: u64,
) -> Result<(u64, u64, Vec<u64>), String> {
    let what = || format!("step_from {from}");
    let (number, bucket, by_library) = stepped(&mut Proved::default(), table, from);
    let (twin_number, twin_bucket, by_twin) = stepped(&mut Twin, table, from);
    seen.note(number);
    seen.starts.count(start, number);
    let (number, after) = same(what, table, (number, by_library), (twin_number, by_twin))?;
    if bucket != twin_bucket {
        return Err(format!(
            "{}: the library tells bucket {bucket}, the twin {twin_bucket}; table before: {table:?}",
            what()
        ));
    }
    Ok((number, bucket, after))
}

fn stepped(side: &mut impl Side, table: &[u64], from: u64) -> (u64, u64, Vec<u64>) {
    let mut words = table.to_vec();
    let (number, bucket) = side.step_from(&mut words, from);
    (number, bucket, words)
}

/// What a side answers, and the words that it leaves.
fn changed(side: &mut impl Side, table: &[u64], event: Event) -> Answer {
    let mut words = table.to_vec();
    let number = side.change(&mut words, event);
    (number, words)
}

type Answer = (u64, Vec<u64>);

/// The answer that both gave, or what differs.
fn same(call: impl Fn() -> String, before: &[u64], library: Answer, twin: Answer) -> Result<Answer, String> {
    if library.0 != twin.0 {
        return Err(format!(
            "{}: the library answers {}, the twin {}; table before: {before:?}",
            call(),
            library.0,
            twin.0
        ));
    }
    match library.1.iter().zip(&twin.1).position(|(a, b)| a != b) {
        None => Ok(library),
        Some(at) => Err(format!(
            "{}: word {at} is {} by the library, {} by the twin; table before: {before:?}",
            call(),
            library.1[at],
            twin.1[at]
        )),
    }
}

impl Seen {
    fn note(&mut self, number: u64) {
        self.calls += 1;
        self.numbers.insert(number);
    }
}
