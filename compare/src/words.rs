//! The run over raw words: histories of sound tables with every cut, damaged
//! tables, and wild arguments.

use ragansils::Phase;
use ragansils_model::{table_words, Event, Table, LEAST_LIST_WORDS, SUCCESS};

use crate::both::{Both, Finding};
use crate::case::{is_resizing, phase_of, Call, Case};
use crate::chain::{key_of, Chain};
use crate::damage;
use crate::going_on::{made_by_model, try_made_tables, try_pass, try_starts, try_starts_after_a_cut, Sound};
use crate::history::{next_event, Keys, Mood, Setting};
use crate::plain_map::{self, PlainMap};
use crate::random::Random;
use crate::random_chains::{chain_near, chains_of_history, lent_words, longest_chain};
use crate::sound_tables::{check_chain, check_change, check_query, Changed, Depth};
use crate::starts::{any_start, count_number};
use crate::stuck_items::{step_by_inserts, Kind, KINDS};
use crate::stuck_shrinks;
use crate::stuck_tables::{self, kinds_before};
use crate::tags::key_under_wrong_tag;
use crate::wild::{any_list, wild_calls};

/// At this capacity a single cut costs as much as a small history.
const LARGE_CAPACITY: u64 = 8;

/// One history in so many, the first among them, has the longest chain there is.
const LONGEST_CHAIN_ONE_IN: u64 = 4;
/// It takes 256 slots: the smaller of these capacities has 384, and half of them before it grows.
const CAPACITIES_OF_LONGEST_CHAIN: [u64; 2] = [6, 7];
const EVENTS_OF_LONGEST_CHAIN: u64 = 20;

/// A run begins with so many tables made for each kind of step: few histories would not meet every kind of start.
const FIRST_TABLES_OF_EACH_KIND: u64 = 10;
/// The same in a shrink, which has more steps.
const FIRST_SHRINKS_OF_EACH_KIND: u64 = 10;

/// One event in so many is followed by steps from every start, or by a pass, of tables that grow or shrink.
const STARTS_ONE_IN: u64 = 8;
const PASS_ONE_IN: u64 = 20;

/// One history in so many, the first among them, comes with shrinks: one for each kind of step, and as many that have room.
const SHRINKS_ONE_IN: u64 = 8;
/// The most events of a table that shrinks to its least size.
const EVENTS_OF_WHOLE_SHRINKS: u64 = 60;

/// So many keys are put in while a stuck shrink is under way, and as many once it has turned back.
const INSERTS_OF_STUCK_SHRINKS: u64 = 6;

/// So many inserts by a move are cut everywhere, and so many tables have a cut update, in each phase.
const MOVES_OF_EACH_PHASE: u64 = 2;
const FLAGGED_TABLES_OF_EACH_PHASE: u64 = 2;
const STORES_OF_MOVING_INSERT: u64 = 9;

/// So often room is made for stuck items.
const ROOM_MADE: u64 = 3;
const EVENTS_OF_STUCK_ITEMS: u64 = 5;

/// Makes at least `calls` more calls of the library, with tables of this form.
pub fn run(seed: u64, calls: u64, form: u64, both: &mut Both) -> Result<(), Finding> {
    let mut random = Random::new(seed);
    let enough = both.tally.total_calls + calls;
    try_made_tables(&mut random, both, form, stuck_tables::history_to, FIRST_TABLES_OF_EACH_KIND)?;
    try_made_tables(&mut random, both, form, stuck_shrinks::history_to, FIRST_SHRINKS_OF_EACH_KIND)?;
    for number in 0.. {
        if both.tally.total_calls >= enough {
            break;
        }
        if number % LONGEST_CHAIN_ONE_IN == 0 {
            history_of_longest_chain(&mut random, both, form, enough)?;
        }
        for kind in kinds_before(number) {
            history_of_stuck_items(&mut random, both, form, kind, enough)?;
        }
        if number % SHRINKS_ONE_IN == 0 {
            for kind in KINDS {
                history_of_stuck_shrink(&mut random, both, form, kind, enough)?;
                history_of_whole_shrinks(&mut random, both, form)?;
            }
            history_of_moves(&mut random, both, form)?;
        }
        let setting = Setting::random(&mut random, form);
        let chains = chains_of_history(&mut random, setting);
        // Long enough to grow to the top and be full there, most times.
        let events = 10 + random.below(40 << setting.c);
        History::start(&mut random, setting, chains, both)?.play(both, events, enough)?;
    }
    Ok(())
}

/// The table grows while the chain is put in, or once it is whole.
fn history_of_longest_chain(
    random: &mut Random,
    both: &mut Both,
    form: u64,
    enough_calls: u64,
) -> Result<(), Finding> {
    let c = random.pick(&CAPACITIES_OF_LONGEST_CHAIN);
    // By the upper bit the depths go through all buckets; else some multipliers would have no room for them.
    let mut multiplier = || random.word() | 1 << 32 | 1;
    let setting = Setting { form, c, k: c - 1, mul1: multiplier(), mul2: multiplier() };
    let chain = longest_chain(random);
    let mut history = History::start(random, setting, vec![chain], both)?;
    history.put_chain(both, chain)?;
    history.change(both, Event::Begin, Depth::WholeOnly)?;
    history.finish_resizing(both)?;
    // So often that it is lent enough words at least once.
    for _ in 0..10 {
        history.ask_for(both, chain)?;
    }
    history.change(both, Event::Shrink, Depth::WholeOnly)?;
    history.finish_resizing(both)?;
    history.ask_for_broken(both, chain)?;
    history.play(both, EVENTS_OF_LONGEST_CHAIN, enough_calls)
}

/// The table grows as far as it can, past its stuck items; then deletes make room for some of them.
fn history_of_stuck_items(
    random: &mut Random,
    both: &mut Both,
    form: u64,
    kind: Kind,
    enough_calls: u64,
) -> Result<(), Finding> {
    let (setting, events) = stuck_tables::history_to(random, form, kind);
    let chains = chains_of_history(random, setting);
    let mut history = History::start(random, setting, chains, both)?;
    for event in events {
        history.change(both, event, Depth::WholeOnly)?;
    }
    history.go_on(both)?;
    history.step_past_stuck_items(both)?;
    for _ in 0..ROOM_MADE {
        history.delete_one_of_top_and_bottom(both)?;
        history.go_on(both)?;
        history.step_past_stuck_items(both)?;
    }
    history.play(both, EVENTS_OF_STUCK_ITEMS, enough_calls)
}

/// The table shrinks as far as it can, past its stuck items, is turned back and grows as far as it can. The model fills it before, so that
/// this costs few calls.
fn history_of_stuck_shrink(
    random: &mut Random,
    both: &mut Both,
    form: u64,
    kind: Kind,
    enough_calls: u64,
) -> Result<(), Finding> {
    let (setting, events) = stuck_shrinks::history_to(random, form, kind);
    let chains = chains_of_history(random, setting);
    let at_rest = events.iter().take_while(|event| **event != Event::Shrink).count();
    let table = made_by_model(setting, &events[..at_rest]);
    let mut history = History::from_table(random, setting, chains, table);
    for &event in &events[at_rest..] {
        history.change(both, event, Depth::WholeOnly)?;
    }
    history.go_on(both)?;
    history.change(both, Event::Step, Depth::EveryCut)?;
    history.insert_and_update(both)?;
    history.step_past_stuck_items(both)?;
    history.change(both, Event::Back, Depth::EveryCut)?;
    history.go_on(both)?;
    history.insert_and_update(both)?;
    history.step_past_stuck_items(both)?;
    history.finish_resizing(both)?;
    history.play(both, EVENTS_OF_STUCK_ITEMS, enough_calls)
}

/// A small table with few items shrinks to its least size, with other events between.
fn history_of_whole_shrinks(random: &mut Random, both: &mut Both, form: u64) -> Result<(), Finding> {
    let c = 2 + random.below(2);
    let setting = Setting { k: c, ..Setting::of_capacity(random, form, c) };
    let chains = chains_of_history(random, setting);
    let mut history = History::start(random, setting, chains, both)?;
    for _ in 0..setting.most_items() / 4 {
        let key = history.keys.pick(&mut history.random);
        let (function, place) = (history.random.any_word(), history.random.any_word());
        history.change(both, Event::Insert { key, function, place }, Depth::WholeOnly)?;
    }
    // It is as large as it can be.
    history.change(both, Event::Begin, Depth::WholeOnly)?;
    for _ in 0..EVENTS_OF_WHOLE_SHRINKS {
        let event = history.next_of_whole_shrink();
        history.change(both, event, Depth::EveryCut)?;
        match (history.last_number, history.random.below(6)) {
            (17, _) => break,
            (11, _) => history.try_starts(both)?,
            (_, 0) => history.one_event(both)?,
            (_, 1) => history.change(both, Event::Begin, Depth::EveryCut)?,
            (_, 2) => history.change(both, Event::Shrink, Depth::EveryCut)?,
            (_, 3 | 4) => history.update_some_item(both)?,
            _ => {}
        }
        history.some_queries(both)?;
    }
    Ok(())
}

/// In each phase, inserts that need a move, with every cut of them; and a table that a cut update leaves.
fn history_of_moves(random: &mut Random, both: &mut Both, form: u64) -> Result<(), Finding> {
    for phase in Phase::ALL {
        let (mul1, mul2) = (random.word() | 1, random.word() | 1);
        let setting = Setting { form, c: 4, k: 3, mul1, mul2 };
        let chains = chains_of_history(random, setting);
        let mut history = History::start(random, setting, chains, both)?;
        history.fill_until_moves(both, phase)?;
        // It has an interim item, or no interim level.
        history.change(both, Event::End, Depth::WholeOnly)?;
        for _ in 0..FLAGGED_TABLES_OF_EACH_PHASE {
            let mut flagged = history.table.clone();
            damage::flagged_item(&mut history.random, &mut flagged);
            history.calls_on(both, flagged)?;
        }
    }
    Ok(())
}

/// A sound table in the middle of its life, with the plain map beside it.
struct History {
    random: Random,
    setting: Setting,
    keys: Keys,
    /// Those that are put in now and then.
    chains: Vec<Chain>,
    mood: Mood,
    table: Vec<u64>,
    map: PlainMap,
    last_number: u64,
    /// By the last step from a start.
    told: u64,
}

impl History {
    fn start(
        random: &mut Random,
        setting: Setting,
        chains: Vec<Chain>,
        both: &mut Both,
    ) -> Result<History, Finding> {
        let Setting { form, c, k, mul1, mul2 } = setting;
        let garbage = random.words(table_words(c).unwrap_or(0));
        let case = Case { call: Call::Create { form, c, k, mul1, mul2 }, table: garbage, list: vec![] };
        let table = both.run(&case)?.table;
        Ok(History::from_table(random, setting, chains, table))
    }

    /// On from a sound table.
    fn from_table(random: &mut Random, setting: Setting, chains: Vec<Chain>, table: Vec<u64>) -> History {
        let mut keys = Keys::random(random, setting);
        keys.add(chains.iter().flat_map(|chain| chain.keys()));
        let mut random = Random::new(random.word());
        let mood = Mood::random(&mut random);
        let map = plain_map::of_table(&table).unwrap_or_default();
        History { random, setting, keys, chains, mood, table, map, last_number: 0, told: 0 }
    }

    fn play(&mut self, both: &mut Both, events: u64, enough_calls: u64) -> Result<(), Finding> {
        for _ in 0..events {
            if both.tally.total_calls >= enough_calls {
                break;
            }
            self.one_event(both)?;
            self.some_queries(both)?;
            self.some_chains(both)?;
            self.some_starts(both)?;
            if self.random.one_in(4) {
                self.damaged_calls(both)?;
                wild_calls(&mut self.random, both, self.setting.form)?;
            }
            if self.random.one_in(50) {
                self.mood = Mood::random(&mut self.random);
            }
        }
        Ok(())
    }

    fn one_event(&mut self, both: &mut Both) -> Result<(), Finding> {
        let event = match self.next_event() {
            Event::Step if self.random.one_in(2) => self.next_step_from(),
            event => event,
        };
        let shallow = self.setting.c >= LARGE_CAPACITY && !self.random.one_in(30);
        let depth = if shallow { Depth::WholeOnly } else { Depth::EveryCut };
        self.change(both, event, depth)
    }

    fn next_event(&mut self) -> Event {
        next_event(&mut self.random, &self.table, &self.keys, self.mood, self.last_number)
    }

    /// At rest some that are refused, too.
    fn next_of_whole_shrink(&mut self) -> Event {
        match (phase_of(&self.table), self.last_number) {
            (Some(Phase::AtRest), _) => {
                let events =
                    [Event::Shrink, Event::Shrink, Event::Shrink, Event::Back, Event::Step, Event::End];
                self.random.pick(&events)
            }
            (_, 11) => Event::End,
            (_, 6) => Event::Back,
            _ => Event::Step,
        }
    }

    /// Some inserts, which need a move where there is little room, and updates.
    fn insert_and_update(&mut self, both: &mut Both) -> Result<(), Finding> {
        for _ in 0..INSERTS_OF_STUCK_SHRINKS {
            let (key, function, place) = (self.random.word(), self.random.any_word(), self.random.any_word());
            self.change(both, Event::Insert { key, function, place }, Depth::WholeOnly)?;
        }
        self.update_some_item(both)?;
        self.update_some_item(both)
    }

    /// Inserts until some of them needed a move. The table is half full when it begins to grow or to shrink.
    fn fill_until_moves(&mut self, both: &mut Both, phase: Phase) -> Result<(), Finding> {
        let mut moves = 0;
        for number in 0..2 * self.setting.most_items() {
            if number == self.setting.most_items() / 4 {
                self.update_some_item(both)?;
                match phase {
                    Phase::AtRest => {}
                    Phase::Growing => self.change(both, Event::Begin, Depth::WholeOnly)?,
                    Phase::Shrinking => self.change(both, Event::Shrink, Depth::WholeOnly)?,
                }
            }
            let (key, function, place) = (self.random.word(), self.random.any_word(), self.random.any_word());
            let insert = Event::Insert { key, function, place };
            let (_, stores) = insert.list_stores(&self.table, &mut [0; LEAST_LIST_WORDS]);
            let needs_move = stores == STORES_OF_MOVING_INSERT;
            let depth = if needs_move { Depth::EveryCut } else { Depth::WholeOnly };
            self.change(both, insert, depth)?;
            moves += u64::from(needs_move);
            if moves == MOVES_OF_EACH_PHASE {
                break;
            }
        }
        Ok(())
    }

    fn update_some_item(&mut self, both: &mut Both) -> Result<(), Finding> {
        let key = self.keys.pick_likely(&mut self.random, &self.table);
        let (function, place) = (self.random.any_word(), self.random.any_word());
        self.change(both, Event::Update { key, function, place }, Depth::EveryCut)
    }

    /// Mostly from the bucket told, as growth and shrinks go on.
    fn next_step_from(&mut self) -> Event {
        let from = if self.random.one_in(4) { any_start(&mut self.random, &self.table) } else { self.told };
        Event::StepFrom { from }
    }

    fn change(&mut self, both: &mut Both, event: Event, depth: Depth) -> Result<(), Finding> {
        let changed = self.changed(both, event, depth)?;
        self.table = changed.table;
        self.map = changed.map;
        self.last_number = changed.number;
        if matches!(event, Event::StepFrom { .. }) {
            self.told = changed.bucket;
        }
        Ok(())
    }

    /// What an event would make of the table.
    fn changed(&mut self, both: &mut Both, event: Event, depth: Depth) -> Result<Changed, Finding> {
        let list_words = LEAST_LIST_WORDS + self.random.index(5);
        let list = self.random.words(list_words);
        let case = Case { call: Call::Change(event), table: self.table.clone(), list };
        check_change(both, &case, event, &self.map, depth)
    }

    fn some_queries(&mut self, both: &mut Both) -> Result<(), Finding> {
        for _ in 0..2 {
            let table = self.table.clone();
            let key = self.keys.pick_likely(&mut self.random, &table);
            let case = Case { call: Call::Query { key }, table, list: vec![] };
            check_query(both, &case, key, &self.map)?;
        }
        Ok(())
    }

    /// Where the table is not at rest: now and then from every start, and on from each bucket told.
    fn some_starts(&mut self, both: &mut Both) -> Result<(), Finding> {
        if self.random.one_in(STARTS_ONE_IN) {
            self.try_starts(both)?;
        }
        if self.random.one_in(PASS_ONE_IN) {
            self.try_pass(both)?;
        }
        Ok(())
    }

    fn go_on(&mut self, both: &mut Both) -> Result<(), Finding> {
        self.try_pass(both)?;
        self.try_starts(both)
    }

    fn try_pass(&mut self, both: &mut Both) -> Result<(), Finding> {
        try_pass(&mut self.random, both, Sound { table: &self.table, map: &self.map }).map(drop)
    }

    fn try_starts(&mut self, both: &mut Both) -> Result<(), Finding> {
        let sound = Sound { table: &self.table, map: &self.map };
        try_starts(&mut self.random, both, sound, self.told)?;
        let event = self.change_to_cut();
        try_starts_after_a_cut(&mut self.random, both, &self.table, event, self.told)
    }

    /// Any change; often a step, or an update, which may leave its flag set.
    fn change_to_cut(&mut self) -> Event {
        let key = self.keys.pick_likely(&mut self.random, &self.table);
        let (function, place) = (self.random.any_word(), self.random.any_word());
        match self.random.below(3) {
            0 => self.next_event(),
            1 => self.next_step_from(),
            _ => Event::Update { key, function, place },
        }
    }

    /// One that may be there, and now and then one that is put in.
    fn some_chains(&mut self, both: &mut Both) -> Result<(), Finding> {
        let table = self.table.clone();
        let likely = self.likely_chain(&table);
        self.ask_for(both, likely)?;
        if self.random.one_in(12) {
            let chain = self.random.pick(&self.chains);
            self.put_chain(both, chain)?;
            self.ask_for_broken(both, chain)?;
        }
        Ok(())
    }

    /// A chain that a table may have, whole or in part.
    fn likely_chain(&mut self, table: &[u64]) -> Chain {
        if self.random.one_in(4) {
            return self.random.pick(&self.chains);
        }
        let key = self.keys.pick_likely(&mut self.random, table);
        chain_near(&mut self.random, table, key)
    }

    fn ask_for(&mut self, both: &mut Both, chain: Chain) -> Result<(), Finding> {
        ask_chain(&mut self.random, both, chain, &self.table, &self.map)
    }

    /// Puts in what a chain lacks, from its last depth up or from its first down, and asks for it on the way. It stays broken
    /// where even growth makes no room.
    fn put_chain(&mut self, both: &mut Both, chain: Chain) -> Result<(), Finding> {
        let mut keys: Vec<u64> = chain.keys().filter(|key| !self.map.contains_key(key)).collect();
        if self.random.one_in(2) {
            keys.reverse();
        }
        for key in keys {
            let (function, place) = (self.random.any_word(), self.random.any_word());
            let insert = Event::Insert { key, function, place };
            self.change(both, insert, Depth::WholeOnly)?;
            if self.last_number == 6 {
                if phase_of(&self.table) == Some(Phase::Shrinking) {
                    self.change(both, Event::Back, Depth::WholeOnly)?;
                }
                self.finish_resizing(both)?;
                self.change(both, Event::Begin, Depth::WholeOnly)?;
                self.change(both, insert, Depth::WholeOnly)?;
            }
            if self.last_number != 0 {
                break;
            }
            if self.random.one_in(6) {
                self.ask_for(both, chain)?;
            }
        }
        self.ask_for(both, chain)
    }

    /// Steps to the end of a growth or a shrink, as far as there is room; a stuck shrink turns back. Chains are asked for on the way.
    fn finish_resizing(&mut self, both: &mut Both) -> Result<(), Finding> {
        while is_resizing(&self.table) {
            self.change(both, Event::Step, Depth::WholeOnly)?;
            let next = match (self.last_number, phase_of(&self.table)) {
                (SUCCESS, _) => None,
                (11, _) => Some(Event::End),
                (_, Some(Phase::Shrinking)) => Some(Event::Back),
                _ => break,
            };
            if let Some(event) = next {
                self.change(both, event, Depth::WholeOnly)?;
            }
            if self.random.one_in(6) {
                let chain = self.random.pick(&self.chains);
                self.ask_for(both, chain)?;
            }
        }
        Ok(())
    }

    /// Steps until one is refused. Each is tried on damaged copies too; the first one and some others are cut.
    fn step_past_stuck_items(&mut self, both: &mut Both) -> Result<(), Finding> {
        let mut depth = Depth::EveryCut;
        loop {
            self.damaged_calls(both)?;
            self.change(both, Event::Step, depth)?;
            if self.last_number != SUCCESS {
                return Ok(());
            }
            self.some_queries(both)?;
            depth = if self.random.one_in(4) { Depth::EveryCut } else { Depth::WholeOnly };
        }
    }

    fn delete_one_of_top_and_bottom(&mut self, both: &mut Both) -> Result<(), Finding> {
        let items = Table::read(&self.table).map_or(vec![], |table| {
            let slots = table.taken_slots(&[table.top(), table.bottom()]);
            slots.into_iter().map(|slot| table.key(slot)).collect()
        });
        let key = self.random.pick(&items);
        self.change(both, Event::Delete { key }, Depth::EveryCut)
    }

    /// Asks for a chain that lacks its first depth, its last one, or any; the table keeps it.
    fn ask_for_broken(&mut self, both: &mut Both, chain: Chain) -> Result<(), Finding> {
        for missing in [chain.depth, 0, self.random.below(chain.depth + 1)] {
            let delete = Event::Delete { key: key_of(chain.address, missing) };
            let changed = self.changed(both, delete, Depth::WholeOnly)?;
            ask_chain(&mut self.random, both, chain, &changed.table, &changed.map)?;
        }
        Ok(())
    }

    /// Every call on a damaged copy of the table.
    fn damaged_calls(&mut self, both: &mut Both) -> Result<(), Finding> {
        let mut table = self.table.clone();
        damage::damage(&mut self.random, &mut table);
        self.calls_on(both, table)
    }

    fn calls_on(&mut self, both: &mut Both, mut table: Vec<u64>) -> Result<(), Finding> {
        for call in self.every_call(&table) {
            let list = match call {
                Call::Chain(chain) => lent_words(&mut self.random, chain),
                _ => any_list(&mut self.random),
            };
            let case = Case { call, table: table.clone(), list };
            let outcome = both.run(&case)?;
            both.tally.chains_of_other_words.count(&case, outcome.number);
            both.tally.phases_of_other_words.count_case(&case, &outcome);
            both.tally.tags.count_case(&case, &outcome);
            if call == Call::Change(Event::Step) && [SUCCESS, 6].contains(&outcome.number) {
                step_by_inserts(&table).iter().for_each(|step| both.tally.steps_of_other_words.count(step));
            }
            if matches!(call, Call::Change(Event::StepFrom { .. })) {
                count_number(&mut both.tally.starts.of_other_words, &table, outcome.number);
            }
            let listed = matches!(call, Call::Change(_)) && outcome.number == 0;
            if listed && self.random.one_in(4) {
                // The damage lives on under the next calls.
                let kept = self.random.below(outcome.stores() + 1);
                table = both.make(&table, &outcome.list, kept)?;
            }
        }
        Ok(())
    }

    fn every_call(&mut self, table: &[u64]) -> Vec<Call> {
        let (absent, also_absent) = (self.random.word(), self.random.word());
        let chains = [self.likely_chain(table), self.likely_chain(table)];
        let under_wrong_tag = key_under_wrong_tag(&mut self.random, table);
        let (from, also_from) = (any_start(&mut self.random, table), any_start(&mut self.random, table));
        let mut key = || self.keys.pick_likely(&mut self.random, table);
        let (function, place) = (key(), key());
        let queried = [key(), key(), under_wrong_tag.unwrap_or_else(&mut key)];
        let mut calls = queried.map(|key| Call::Query { key }).to_vec();
        let events = [
            Event::Recover,
            Event::Insert { key: key(), function, place },
            Event::Insert { key: absent, function, place },
            Event::Insert { key: also_absent, function, place },
            Event::Update { key: key(), function, place },
            Event::Delete { key: key() },
            Event::Begin,
            Event::Shrink,
            Event::Back,
            Event::Step,
            Event::StepFrom { from },
            Event::StepFrom { from: also_from },
            Event::End,
        ];
        calls.extend(events.map(Call::Change));
        calls.extend(chains.map(Call::Chain));
        // No order is the usual one, as some change the table.
        let turns = self.random.index(calls.len());
        calls.rotate_left(turns);
        calls
    }
}

fn ask_chain(
    random: &mut Random,
    both: &mut Both,
    chain: Chain,
    table: &[u64],
    map: &PlainMap,
) -> Result<(), Finding> {
    let case = Case { call: Call::Chain(chain), table: table.to_vec(), list: lent_words(random, chain) };
    check_chain(both, &case, chain, map)
}
