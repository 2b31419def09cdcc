//! The header: what it says, and what is wrong with it.

use ragansils::Form;
use ragansils_model::{word, PHASE_UNIT};

use crate::file::{table_lengths, Content};

/// The header's words, one to a line; as far as the file has them.
pub fn lines(words: &[u64]) -> Vec<String> {
    let word = |index: usize| words.get(index).map_or("missing".to_string(), u64::to_string);
    vec![
        format!("form         {}{}", word(word::FORM), words.first().map_or("", form_words)),
        format!("capacity     {}", word(word::CAPACITY)),
        format!("multipliers  {}, {}", word(word::MULTIPLIER_1), word(word::MULTIPLIER_2)),
        format!(
            "state        {}{}",
            word(word::STATE),
            words.get(word::STATE).map_or(String::new(), state_words)
        ),
        format!("update flag  {}", word(word::FLAG)),
        format!(
            "update log   target {}, function {}, place {}",
            word(word::UPDATE_TARGET),
            word(word::UPDATE_FUNCTION),
            word(word::UPDATE_PLACE)
        ),
    ]
}

fn form_words(form: &u64) -> &'static str {
    match Form::of_number(*form) {
        Some(Form::Two) => ": keys are mixed before they are hashed, and taken slots have tags",
        // What was told of form 1 before there was another.
        Some(Form::One) | None => "",
    }
}

fn state_words(state: &u64) -> String {
    let k = state % PHASE_UNIT;
    match state / PHASE_UNIT {
        0 => format!(": k = {k}, at rest"),
        1 => format!(": k = {k}, growing"),
        2 => format!(": k = {k}, shrinking"),
        phase => format!(": k = {k}, in phase {phase}"),
    }
}

/// What makes every call refuse with 1; nothing where the header is good.
pub fn faults(content: &Content) -> Vec<String> {
    let words = &content.words;
    let mut faults = vec![];
    faults.extend(length_fault(content.length));
    if words.len() <= word::UPDATE_PLACE {
        faults.push("the file is too short for a header of 9 words".to_string());
        return faults;
    }
    if words.iter().all(|&word| word == 0) {
        faults.push(
            "all words are 0: this table was never created, or its creation was cut; create it again".into(),
        );
        return faults;
    }
    faults.extend(form_fault(words[word::FORM]));
    faults.extend(capacity_fault(words[word::CAPACITY], content.length));
    for (name, index) in [("first", word::MULTIPLIER_1), ("second", word::MULTIPLIER_2)] {
        if words[index] % 2 == 0 {
            faults.push(format!("the {name} multiplier {} is even", words[index]));
        }
    }
    faults.extend(state_fault(words[word::STATE], words[word::CAPACITY]));
    faults
}

fn length_fault(length: u64) -> Option<String> {
    if table_lengths().any(|(_, bytes)| bytes == length) {
        return None;
    }
    let near = table_lengths().min_by_key(|&(_, bytes)| bytes.abs_diff(length));
    let near =
        near.map_or(String::new(), |(capacity, bytes)| format!("; a table of c = {capacity} has {bytes}"));
    Some(format!("the length {length} bytes is no table's length{near}"))
}

fn form_fault(form: u64) -> Option<String> {
    if Form::of_number(form).is_some() {
        return None;
    }
    Some(match Form::of_number(form.swap_bytes()) {
        Some(other) => format!(
            "form {form} is {} in the other byte order: the table was made on another kind of machine",
            other.number()
        ),
        None => format!("form {form} is not known; known are 1 and 2"),
    })
}

fn capacity_fault(capacity: u64, length: u64) -> Option<String> {
    match table_lengths().find(|&(of, _)| of == capacity) {
        None => Some(format!("the capacity exponent {capacity} is not 1 to 20")),
        Some((_, bytes)) if bytes != length => {
            Some(format!("a table of c = {capacity} has {bytes} bytes, and the file has {length}"))
        }
        Some(_) => None,
    }
}

fn state_fault(state: u64, capacity: u64) -> Option<String> {
    let (phase, k) = (state / PHASE_UNIT, state % PHASE_UNIT);
    let (least, most, most_words) = match phase {
        0 => (1, capacity, "c"),
        1 => (2, capacity, "c"),
        // The interim level is twice as large as the top.
        2 => (1, capacity.saturating_sub(1), "c - 1"),
        _ => {
            let known = "known are 0, at rest, 1, growing, and 2, shrinking";
            return Some(format!("the state {state} has phase {phase}; {known}"));
        }
    };
    let bad = k < least || k > most;
    bad.then(|| format!("the state {state} has k = {k}, which is not {least} to {most_words} = {most}"))
}
