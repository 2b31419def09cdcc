//! What a run has seen.

use std::collections::BTreeMap;
use std::fmt::Display;

use ragansils::Phase;

use crate::case::{Call, Case, Outcome};
use crate::chain_tally::ChainTally;
use crate::conversion_tally::{self, Way, WAYS};
use crate::convert_tally;
use crate::kind_tally::KindTally;
use crate::layout::FORMS;
use crate::ledger_tally;
use crate::overlay_tally;
use crate::phases::PhaseTally;
use crate::say;
use crate::starts::{Numbers, StartTally};
use crate::stuck_items::StepTally;
use crate::tags::{TagTally, KINDS};
use crate::told_slots::LevelTally;

type Counts = BTreeMap<String, u64>;

#[derive(Default)]
pub struct Tally {
    calls: Counts,
    /// Calls by the form of the table that they were made on.
    forms: Counts,
    /// Store lists by call and length.
    lists: Counts,
    refusals: BTreeMap<u64, u64>,
    recoveries: Counts,
    bad_lines: Counts,
    pub levels: LevelTally,
    pub chains_of_sound_tables: ChainTally,
    pub chains_of_other_words: ChainTally,
    /// Those of sound tables.
    pub steps_of_growths: StepTally,
    pub steps_of_shrinks: StepTally,
    pub steps_of_other_words: StepTally,
    /// Of the tables that cuts leave, too.
    pub phases_of_sound_tables: PhaseTally,
    pub phases_of_other_words: PhaseTally,
    pub phases_of_scripts: PhaseTally,
    pub starts: StartTally,
    /// Of damaged token words of form 2.
    pub tags: TagTally,
    pub ledgers: KindTally<ledger_tally::Kind>,
    pub conversions: KindTally<(Way, conversion_tally::Kind)>,
    /// Of two tables that are asked for a key.
    pub overlays: KindTally<overlay_tally::Kind>,
    /// More such, before and after the change of a hidden key.
    pub asks_of_hidden: u64,
    /// Of the program that converts.
    pub converts: KindTally<convert_tally::Kind>,
    pub total_calls: u64,
    pub cuts: u64,
    pub recovery_cuts: u64,
    pub scripts: u64,
    /// Those that were answered to both.
    pub scripts_with_shrink_and_back: u64,
}

impl Tally {
    pub fn count_call(&mut self, case: &Case, outcome: &Outcome) {
        self.total_calls += 1;
        add(&mut self.forms, &form_name(case));
        self.count_answered(case.call.name(), outcome.number, outcome.stores());
    }

    /// Counts a call of the library or an event of a script. `stores` is of no matter for a call that lists none.
    pub fn count_answered(&mut self, name: &str, number: u64, stores: u64) {
        add(&mut self.calls, name);
        self.count_refusal(number);
        match name {
            "recover" => add(&mut self.recoveries, recovery_kind(number, stores)),
            "query" | "chain" | "create" | "make" | "convert" | "ask" | "ask_twice" => {}
            _ if number == 0 => add(&mut self.lists, &format!("{name} of {stores}")),
            _ => {}
        }
    }

    /// The calls on tables of this form, and the creations of them.
    pub fn calls_of_form(&self, form: u64) -> u64 {
        self.forms.get(&form.to_string()).copied().unwrap_or(0)
    }

    pub fn count_refusal(&mut self, number: u64) {
        if number != 0 {
            *self.refusals.entry(number).or_default() += 1;
        }
    }

    pub fn count_bad_line(&mut self, kind: &str) {
        add(&mut self.bad_lines, kind);
    }

    /// The refusal numbers that were never seen, of those that a run can meet.
    pub fn unseen_refusals(&self, possible: impl IntoIterator<Item = u64>) -> Vec<u64> {
        possible.into_iter().filter(|number| !self.refusals.contains_key(number)).collect()
    }

    pub fn print(&self) {
        say!(
            "calls: {}; conversions among them: {}; two tables asked for a key: {}",
            self.total_calls,
            self.conversions.total,
            self.overlays.total
        );
        say!(
            "scripts: {}; ledgers: {}; scripts of tables to convert: {}",
            self.scripts,
            self.ledgers.total,
            self.converts.total
        );
        say!("scripts with a shrink and a turning back: {}", self.scripts_with_shrink_and_back);
        print_counts("calls by the form of their table", &self.forms);
        print_counts("calls and script events by name", &self.calls);
        print_counts("store lists", &self.lists);
        print_counts("refusals", &self.refusals);
        say!("cuts made: {}; recoveries cut: {}", self.cuts, self.recovery_cuts);
        print_counts("recoveries by kind", &self.recoveries);
        print_counts("bad lines by kind", &self.bad_lines);
        print_counts("keys found by queries, by level", &self.levels.found);
        print_phases("met by sound tables", &self.phases_of_sound_tables);
        print_phases("met by other words", &self.phases_of_other_words);
        print_phases("met by scripts", &self.phases_of_scripts);
        print_counts("steps of growths", &self.steps_of_growths.kinds);
        print_counts("steps of shrinks", &self.steps_of_shrinks.kinds);
        print_counts("steps of other words", &self.steps_of_other_words.kinds);
        self.print_starts();
        self.print_chains();
        self.print_tags();
        print_counts("ledgers by what they show", &self.ledgers.kinds);
        self.print_conversions();
        self.print_overlays();
        print_counts("scripts of tables to convert by what they show", &self.converts.kinds);
    }

    fn print_starts(&self) {
        let starts = &self.starts;
        print_counts("steps from a start, of sound tables", &starts.kinds);
        print_counts("their numbers on cut tables", &by_phase(&starts.of_cut_tables));
        print_counts("on recovered tables", &by_phase(&starts.of_recovered_tables));
        print_counts("on other words", &by_phase(&starts.of_other_words));
        if starts.passes > 0 {
            say!(
                "passes that go on from the bucket told: {}, of {} steps; moves by steps from a later start: {}",
                starts.passes, starts.steps_of_passes, starts.moves
            );
        }
    }

    fn print_tags(&self) {
        for kind in KINDS {
            let of_kind = self.tags.met.iter().filter(|((met, _), _)| *met == kind);
            let counts: Counts = of_kind.map(|((_, what), &count)| (what.clone(), count)).collect();
            print_counts(&format!("met with {kind}"), &counts);
        }
        print_counts("slots and bits of damaged token words", &self.tags.effects);
    }

    fn print_conversions(&self) {
        for way in WAYS {
            let of_way = self.conversions.kinds.iter().filter(|((met, _), _)| *met == way);
            let counts: BTreeMap<_, u64> = of_way.map(|(&(_, kind), &count)| (kind, count)).collect();
            print_counts(&format!("conversions, {way}"), &counts);
        }
    }

    /// A line for each group, in which the kinds keep their order.
    fn print_overlays(&self) {
        let mut groups: Vec<(String, Vec<String>)> = vec![];
        for (kind, count) in &self.overlays.kinds {
            if groups.last().map_or(true, |(group, _)| *group != kind.group()) {
                groups.push((kind.group(), vec![]));
            }
            groups
                .iter_mut()
                .last()
                .into_iter()
                .for_each(|(_, kinds)| kinds.push(format!("{kind}: {count}")));
        }
        groups.iter().for_each(|(group, kinds)| say!("{group}: {}", kinds.join(", ")));
        if self.asks_of_hidden > 0 {
            say!("keys asked for before and after the change of a hidden one: {}", self.asks_of_hidden);
        }
    }

    fn print_chains(&self) {
        let (sound, other) = (&self.chains_of_sound_tables, &self.chains_of_other_words);
        print_counts("chains of sound tables", &sound.kinds);
        print_counts("chains of other words", &other.kinds);
        if sound.longest + other.longest > 0 {
            say!(
                "depths of the longest whole chain: {} of sound tables, {} of other words",
                sound.longest,
                other.longest
            );
        }
    }
}

/// One line for each phase.
fn print_phases(title: &str, tally: &PhaseTally) {
    for phase in Phase::ALL {
        let of_phase = tally.met.iter().filter(|((met_in, _), _)| *met_in == phase);
        let counts: Counts = of_phase.map(|((_, what), &count)| (what.clone(), count)).collect();
        print_counts(&format!("{title}, {phase}"), &counts);
    }
}

/// Of a creation, the form that it is asked for.
fn form_name(case: &Case) -> String {
    let form = match case.call {
        Call::Create { form, .. } => Some(form),
        _ => case.table.first().copied(),
    };
    form.filter(|form| FORMS.contains(form)).map_or("none".to_string(), |form| form.to_string())
}

fn by_phase(numbers: &Numbers) -> Counts {
    let name = |phase: &Option<Phase>| phase.map_or("no table".to_string(), |phase| phase.to_string());
    numbers.iter().map(|((phase, number), &count)| (format!("{number} {}", name(phase)), count)).collect()
}

fn recovery_kind(number: u64, stores: u64) -> &'static str {
    match (number, stores) {
        (0, 0) => "sound",
        (0, 1) => "doubled key",
        (0, _) => "flagged update",
        _ => "refused",
    }
}

fn add(counts: &mut Counts, name: &str) {
    match counts.get_mut(name) {
        Some(count) => *count += 1,
        None => {
            counts.insert(name.to_string(), 1);
        }
    }
}

fn print_counts(title: &str, counts: &BTreeMap<impl Display, u64>) {
    if counts.is_empty() {
        return;
    }
    let entries: Vec<String> = counts.iter().map(|(name, count)| format!("{name}: {count}")).collect();
    say!("{title}: {}", entries.join(", "));
}
