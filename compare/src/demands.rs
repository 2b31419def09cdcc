//! What a run must have seen. One that is large enough and saw less fails: it showed too little.

use ragansils::Phase;

use crate::chain::DEPTH_LIMIT;
use crate::chain_tally::{KINDS_OF_SOUND_TABLES, MORE_KINDS_OF_OTHER_WORDS};
use crate::conversion_tally;
use crate::convert_tally;
use crate::layout::TAGGED;
use crate::ledger_tally;
use crate::overlay_tally;
use crate::phases::{possible_in_other_words, possible_in_scripts, possible_in_sound_tables, PhaseTally};
use crate::starts::{rare_numbers, while_resizing};
use crate::stuck_items::Way;
use crate::tags;
use crate::tally::Tally;

type Answer = Result<(), String>;

/// Scripts make good tables, lend good lists, make good stores and ask for no chain: no 1, 2, 14, 15 or 16.
const REFUSALS_OF_SCRIPTS: [u64; 12] = [3, 4, 5, 6, 7, 8, 9, 10, 11, 12, 13, 17];
const REFUSALS_OF_CALLS: std::ops::RangeInclusive<u64> = 1..=17;

/// So often at least each kind of start is met, and each number of a step from a start.
const LEAST_OF_EACH_START: u64 = 3;
const NUMBERS_OF_STARTS_ON_CUT_TABLES: [u64; 4] = [0, 3, 6, 11];
const NUMBERS_OF_STARTS_ON_RECOVERED_TABLES: [u64; 3] = [0, 6, 11];
const NUMBERS_OF_STARTS_ON_OTHER_WORDS: [u64; 5] = [0, 2, 3, 6, 11];
/// And those that only a table at rest gives, and words that are no table.
const MORE_NUMBERS_OF_STARTS_ON_OTHER_WORDS: [(Option<Phase>, u64); 2] =
    [(Some(Phase::AtRest), 8), (None, 1)];

/// So often at least each kind of ledger is met, and each kind of script whose table is converted.
const LEAST_OF_EACH_TEXT: u64 = 3;

/// So often at least each kind of conversion is met, each way, and each kind of damaged token words is refused.
const LEAST_OF_EACH_CONVERSION: u64 = 3;
const REFUSED_WITH_DAMAGED_TAGS: &str = "convert refused with 12";

/// So often at least each kind of two tables is met.
const LEAST_OF_EACH_OVERLAY: u64 = 3;

/// So often at least a query finds its key in each level.
const LEAST_OF_EACH_LEVEL: u64 = 30;

/// So often at least each call is met with each kind of damaged token words, and each effect of theirs.
const LEAST_OF_EACH_WITH_TAGS: u64 = 3;

/// So often at least each phase meets what it can.
const LEAST_OF_EACH_IN_A_PHASE: u64 = 3;

/// Of a run over words with tables of one form.
pub fn demand_calls(tally: &Tally, form: u64) -> Answer {
    demand_refusals(tally, REFUSALS_OF_CALLS)?;
    demand_levels(tally)?;
    demand_phases("sound tables", &tally.phases_of_sound_tables, &possible_in_sound_tables())?;
    demand_phases("other words", &tally.phases_of_other_words, &possible_in_other_words())?;
    demand_chains(tally)?;
    demand_steps(tally)?;
    demand_starts(tally)?;
    if form == TAGGED {
        demand_tags(tally)?;
    }
    Ok(())
}

pub fn demand_scripts(tally: &Tally) -> Answer {
    demand_refusals(tally, REFUSALS_OF_SCRIPTS)?;
    demand_phases("scripts", &tally.phases_of_scripts, &possible_in_scripts())?;
    demand_levels(tally)
}

pub fn demand_ledgers(tally: &Tally) -> Answer {
    let rare = tally.ledgers.rare(ledger_tally::KINDS, LEAST_OF_EACH_TEXT);
    match rare[..] {
        [] => Ok(()),
        _ => Err(format!("ledgers seldom or never seen: {rare:?}")),
    }
}

pub fn demand_convert_scripts(tally: &Tally) -> Answer {
    let rare = tally.converts.rare(convert_tally::KINDS, LEAST_OF_EACH_TEXT);
    match rare[..] {
        [] => Ok(()),
        _ => Err(format!("scripts of tables to convert seldom or never seen: {rare:?}")),
    }
}

/// That one way has met something shows nothing of the other.
pub fn demand_conversions(tally: &Tally) -> Answer {
    let rare = tally.conversions.rare(conversion_tally::possible(), LEAST_OF_EACH_CONVERSION);
    let mut rare: Vec<String> = rare.into_iter().map(|(way, kind)| format!("{way}, {kind}")).collect();
    let refused =
        |kind| tally.tags.met.get(&(kind, REFUSED_WITH_DAMAGED_TAGS.to_string())).copied().unwrap_or(0);
    let unrefused = tags::KINDS.into_iter().filter(|&kind| refused(kind) < LEAST_OF_EACH_CONVERSION);
    rare.extend(unrefused.map(|kind| format!("12 with {kind}")));
    match rare[..] {
        [] => Ok(()),
        _ => Err(format!("conversions seldom or never seen: {rare:?}")),
    }
}

/// Tables that are never asked together show nothing of each other.
pub fn demand_overlays(tally: &Tally) -> Answer {
    let rare = tally.overlays.rare(overlay_tally::possible(), LEAST_OF_EACH_OVERLAY);
    let rare: Vec<String> = rare.into_iter().map(|kind| format!("{}: {kind}", kind.group())).collect();
    match rare[..] {
        [] => demand_some(tally.asks_of_hidden, "keys asked for when a hidden one changed"),
        _ => Err(format!("two tables seldom or never seen: {rare:?}")),
    }
}

/// A run that looked at nothing fails.
pub fn demand_some(seen: u64, what: &str) -> Answer {
    if seen > 0 {
        Ok(())
    } else {
        Err(format!("there were no {what} to look at"))
    }
}

fn demand_refusals(tally: &Tally, possible: impl IntoIterator<Item = u64>) -> Answer {
    let unseen = tally.unseen_refusals(possible);
    if unseen.is_empty() {
        Ok(())
    } else {
        Err(format!("refusal numbers never seen: {unseen:?}"))
    }
}

/// Where all keys stand in one level, a library that always tells that level is right.
fn demand_levels(tally: &Tally) -> Answer {
    let rare = tally.levels.rare(LEAST_OF_EACH_LEVEL);
    match rare[..] {
        [] => Ok(()),
        _ => Err(format!("levels in which queries seldom or never found a key: {rare:?}")),
    }
}

/// That growing tables met something shows nothing of shrinking ones.
fn demand_phases(of_what: &str, tally: &PhaseTally, possible: &[(Phase, &'static str)]) -> Answer {
    let rare = tally.rare(possible, LEAST_OF_EACH_IN_A_PHASE);
    match rare[..] {
        [] => Ok(()),
        _ => Err(format!("seldom or never met by {of_what}: {rare:?}")),
    }
}

/// That some other call met a refusal shows nothing of chains.
fn demand_chains(tally: &Tally) -> Answer {
    let (sound, other) = (&tally.chains_of_sound_tables, &tally.chains_of_other_words);
    let of_sound_tables = sound.unseen(KINDS_OF_SOUND_TABLES);
    let of_other_words = other.unseen(KINDS_OF_SOUND_TABLES.into_iter().chain(MORE_KINDS_OF_OTHER_WORDS));
    if !of_sound_tables.is_empty() || !of_other_words.is_empty() {
        let unseen = format!("{of_sound_tables:?} of sound tables, {of_other_words:?} of other words");
        return Err(format!("chains never seen: {unseen}"));
    }
    if sound.longest < DEPTH_LIMIT {
        return Err(format!("the longest whole chain of a sound table had only {} depths", sound.longest));
    }
    Ok(())
}

/// A run without damaged tags would show nothing of them.
fn demand_tags(tally: &Tally) -> Answer {
    let rare = tally.tags.rare(LEAST_OF_EACH_WITH_TAGS);
    match rare[..] {
        [] => Ok(()),
        _ => Err(format!("seldom or never met with damaged token words: {rare:?}")),
    }
}

/// Steps that take the first item show nothing of those that pass stuck ones.
fn demand_steps(tally: &Tally) -> Answer {
    for (of_what, steps) in [("growths", &tally.steps_of_growths), ("shrinks", &tally.steps_of_shrinks)] {
        let unseen = steps.unseen();
        if !unseen.is_empty() {
            return Err(format!("steps of {of_what} of sound tables never seen: {unseen:?}"));
        }
    }
    // Damage spares the stuck items of a table made for a kind often, but not always.
    let is_unseen = |way: &Way| tally.steps_of_other_words.past_stuck_items(*way) == 0;
    match [Way::FreeSlot, Way::Move].into_iter().find(is_unseen) {
        Some(way) => Err(format!("no step of other words came past stuck items, {way:?}")),
        None => Ok(()),
    }
}

/// A start that is never wrong, or never past a stuck item, would show little.
fn demand_starts(tally: &Tally) -> Answer {
    let starts = &tally.starts;
    let rare = starts.rare(LEAST_OF_EACH_START);
    if !rare.is_empty() {
        return Err(format!("steps from a start seldom or never seen: {rare:?}"));
    }
    let mut of_other_words = while_resizing(&NUMBERS_OF_STARTS_ON_OTHER_WORDS);
    of_other_words.extend(MORE_NUMBERS_OF_STARTS_ON_OTHER_WORDS);
    let by_tables = [
        ("cut tables", &starts.of_cut_tables, while_resizing(&NUMBERS_OF_STARTS_ON_CUT_TABLES)),
        (
            "recovered tables",
            &starts.of_recovered_tables,
            while_resizing(&NUMBERS_OF_STARTS_ON_RECOVERED_TABLES),
        ),
        ("other words", &starts.of_other_words, of_other_words),
    ];
    for (tables, numbers, possible) in by_tables {
        let rare = rare_numbers(numbers, &possible, LEAST_OF_EACH_START);
        if !rare.is_empty() {
            return Err(format!("numbers of steps from a start seldom or never seen on {tables}: {rare:?}"));
        }
    }
    demand_some(starts.moves, "moves by steps from a later start")?;
    demand_some(starts.steps_of_passes, "passes that go on from the bucket told")
}
