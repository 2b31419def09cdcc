//! What is said at the end, in plain words; and where nothing was made, what can be done about it.

use std::io;

use ragansils::program::FAILED;
use ragansils::{calls, FileError, Phase, Unconverted};
use ragansils_model::word;

use crate::facts::Facts;

/// The exit statuses that tell why nothing was made.
const RECOVERY_FIRST: u8 = 3;
const NO_TABLE: u8 = 4;
const RESIZING: u8 = 5;
const NO_PLACE: u8 = 6;

/// Why nothing was made.
#[derive(Debug, PartialEq, Eq)]
pub struct Complaint {
    pub text: String,
    pub status: u8,
}

impl Complaint {
    fn new(text: String, status: u8) -> Complaint {
        Complaint { text: format!("{text}. No file was made."), status }
    }
}

/// The facts are the old table's.
pub fn made(old: &str, new: &str, facts: &Facts, items: u64) -> String {
    let Facts { form, capacity, k, .. } = facts;
    let items = items_words(items);
    format!("{new} was made: {}, {items}, c = {capacity}, k = {k}. {old} is as it was.\n", form.other())
}

pub fn items_words(items: u64) -> String {
    match items {
        1 => "1 item".to_string(),
        _ => format!("{items} items"),
    }
}

/// The old file could not be opened.
pub fn unopened(old: &str, error: &FileError) -> Complaint {
    match error {
        FileError::InUse => Complaint::new(
            format!("{old} is in use. Stop the collector that has it, and convert again"),
            FAILED,
        ),
        FileError::Length(_) => no_table(old, error),
        _ => Complaint::new(format!("{old}: {error}"), FAILED),
    }
}

/// The new file could not be made.
pub fn unmade(new: &str, error: &FileError) -> Complaint {
    let text = match error {
        FileError::System(system) if system.kind() == io::ErrorKind::AlreadyExists => {
            format!("{new} is there already, and is not replaced. Name a file that is not there")
        }
        _ => format!("{new}: {error}"),
    };
    Complaint::new(text, FAILED)
}

/// The table of these words was not converted.
pub fn refused(old: &str, refused: Unconverted, words: &[u64]) -> Complaint {
    let number = refused.refusal().number();
    match refused {
        Unconverted::BadHeader => no_table(old, &refused),
        Unconverted::NotSound => not_sound(old, number, words),
        Unconverted::Resizing => {
            let state = words.get(word::STATE).and_then(|&state| Phase::of_state(state));
            let phase = state.map_or("growing or shrinking".to_string(), |phase| phase.to_string());
            let advice = "Let the collector finish that, and convert again";
            Complaint::new(format!("{old} is {phase} (refusal {number}). {advice}"), RESIZING)
        }
        Unconverted::NoPlace(_) => {
            Complaint::new(format!("{old}: {refused}. {}", way_to_room(words)), NO_PLACE)
        }
        // The new file has the length of the old one, so this does not come.
        Unconverted::OtherLength => Complaint::new(format!("{old}: {refused}"), FAILED),
    }
}

fn no_table(old: &str, why: &dyn std::fmt::Display) -> Complaint {
    Complaint::new(format!("{old} is no table: {why}. {} what is wrong", inspection(old)), NO_TABLE)
}

fn not_sound(old: &str, number: u64, words: &[u64]) -> Complaint {
    let inspection = inspection(old);
    if calls::recover(words).is_ok() {
        let advice = "Let the collector open the table, which recovers it, and close it, and convert again";
        let text = format!(
            "{old} is not sound (refusal {number}), but recovery would mend it. {advice}. {inspection} what recovery would do"
        );
        return Complaint::new(text, RECOVERY_FIRST);
    }
    let text = format!(
        "{old} is damaged (refusal {number}), and recovery would refuse it too. {inspection} what is wrong"
    );
    Complaint::new(text, NO_TABLE)
}

fn inspection(old: &str) -> String {
    format!("'ragansils-inspect {old}' tells")
}

/// How a table comes to have room for all items in the other form.
fn way_to_room(words: &[u64]) -> String {
    match Facts::of(words) {
        Some(Facts { capacity, k, .. }) if k == capacity => format!(
            "The table cannot grow, since k = c = {c}: let the collector delete some keys, and convert again",
            c = capacity
        ),
        _ => "Let the collector grow the table, or delete some keys, and convert again".to_string(),
    }
}
