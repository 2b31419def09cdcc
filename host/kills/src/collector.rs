//! The process that is killed: a collector on a mapped file. It says what it is about to do and what it has done.

use std::cell::Cell;
use std::path::Path;
use std::rc::Rc;

use ragansils::{MappedFile, Phase, Platform, Record, Refusal, Table};
use ragansils_compare::history::{next_event, Keys, Mood, Setting};
use ragansils_compare::random::Random;
use ragansils_compare::say;
use ragansils_model::{word, Event, PHASE_UNIT};

use crate::records::sealed;
use crate::said::Said;
use crate::wrong::{self, Wrong};

/// What a collector is told to do.
#[derive(Clone, Copy, Debug)]
pub enum Task {
    /// Open the table, which recovers it, and end.
    Open,
    /// Open it, begin this change, and wait to be killed after so many of its stores. The change may be recovery itself.
    Hold { event: Event, after: u64 },
    /// Open it, and make random changes until killed.
    Live { seed: u64, keys_seed: u64 },
}

type Answer = Result<(), String>;

pub fn run(path: &Path, wrong: Option<Wrong>, task: Task) -> Answer {
    match (task, wrong) {
        (Task::Open, Some(Wrong::WithoutRecovery)) => Ok(()),
        (Task::Open, _) => open(path, &Gate::default()).map(drop),
        (Task::Hold { event, after }, None) => hold(path, event, after),
        (Task::Hold { event, after }, Some(wrong)) => hold_wrongly(path, event, after, wrong),
        (Task::Live { seed, keys_seed }, _) => live(path, seed, keys_seed),
    }
}

pub fn say(said: Said) {
    say!("{}", said.line());
}

/// The platform: it counts stores, and stops the process where it is told to.
#[derive(Clone, Default)]
pub struct Gate {
    /// Stores that may still be made; none where nothing is to stop them.
    left: Rc<Cell<Option<u64>>>,
    /// How long a store takes, in turns of a loop: a slow memory is killed in the middle of a change more often.
    slowness: u64,
}

impl Gate {
    /// Waits to be killed after so many stores from now.
    pub fn hold_after(&self, stores: u64) {
        self.left.set(Some(stores));
        self.look();
    }

    fn look(&self) {
        if self.left.get() == Some(0) {
            say(Said::Held);
            // Until killed; the input ends only where the program that should kill this process is gone.
            let _ = std::io::copy(&mut std::io::stdin(), &mut std::io::sink());
            std::process::exit(1);
        }
    }
}

impl Platform for Gate {
    fn stored(&mut self, _: &u64) {
        for _ in 0..self.slowness {
            std::hint::spin_loop();
        }
        self.left.set(self.left.get().map(|left| left - 1));
        self.look();
    }
}

fn open(path: &Path, gate: &Gate) -> Result<Table<MappedFile, Gate>, String> {
    take_up(map(path)?, gate)
}

fn map(path: &Path) -> Result<MappedFile, String> {
    MappedFile::open(path).map_err(|error| error.to_string())
}

fn take_up(file: MappedFile, gate: &Gate) -> Result<Table<MappedFile, Gate>, String> {
    Table::open(file, gate.clone()).map_err(|refusal| refusal.to_string())
}

fn hold(path: &Path, event: Event, after: u64) -> Answer {
    let gate = Gate::default();
    let file = map(path)?;
    say(Said::About(event));
    if event == Event::Recover {
        gate.hold_after(after);
    }
    let mut table = take_up(file, &gate)?;
    if event != Event::Recover {
        gate.hold_after(after);
        let number = change(&mut table, event);
        say(Said::Done(number));
    }
    Ok(())
}

fn hold_wrongly(path: &Path, event: Event, after: u64, wrong: Wrong) -> Answer {
    let mut gate = Gate::default();
    let (mut file, _) = open(path, &gate)?.into_parts();
    say(Said::About(event));
    gate.hold_after(after);
    wrong::change(file.as_mut(), event, wrong, &mut gate);
    say(Said::Done(0));
    Ok(())
}

/// Changes without end; the table grows where there is no place, shrinks and is turned back.
fn live(path: &Path, seed: u64, keys_seed: u64) -> Answer {
    let mut random = Random::new(seed);
    let gate = Gate { slowness: 200 + random.below(2000), ..Gate::default() };
    say(Said::About(Event::Recover));
    let mut table = open(path, &gate)?;
    say(Said::Done(0));

    let header = table.words();
    let (form, c, k) = (header[word::FORM], header[word::CAPACITY], header[word::STATE] % PHASE_UNIT);
    let (mul1, mul2) = (header[word::MULTIPLIER_1], header[word::MULTIPLIER_2]);
    // All collectors of a file have the same keys, so that they find each other's.
    let mut of_keys = Random::new(keys_seed);
    let setting = Setting { k, mul1, mul2, ..Setting::of_capacity(&mut of_keys, form, c) };
    let keys = Keys::random(&mut of_keys, setting);
    let mood = Mood::random(&mut random);
    let mut last = 0;
    loop {
        let event = next_event(&mut random, table.words(), &keys, mood, last);
        let event = sealed(&mut random, event);
        say(Said::About(event));
        last = change(&mut table, event);
        say(Said::Done(last));
    }
}

/// By a part of what is under way, so that kills meet it in the middle of a pass. Where nothing is left to move it comes to its end, which keeps
/// the map as a step does.
fn step(table: &mut Table<MappedFile, Gate>) -> Result<u64, Refusal> {
    match table.phase()? {
        Phase::AtRest => table.step(),
        Phase::Growing => table.grow_on().map(|_| 0),
        Phase::Shrinking => table.shrink_on().map(|_| 0),
    }
}

/// Makes a change through the crate; answers the number of the C interface.
fn change(table: &mut Table<MappedFile, Gate>, event: Event) -> u64 {
    let changed = match event {
        Event::Insert { key, function, place } => table.insert(key.into(), Record { function, place }),
        Event::Update { key, function, place } => table.update(key.into(), Record { function, place }),
        Event::Delete { key } => table.delete(key.into()),
        Event::Begin => table.begin(),
        Event::Shrink => table.begin_shrink(),
        Event::Back => table.back(),
        Event::Step => step(table),
        Event::StepFrom { from } => table.step_from(from).map(|step| step.stores),
        Event::End => table.end(),
        Event::Recover => table.recover(),
    };
    changed.map_or_else(|refusal| refusal.number(), |_| 0)
}
