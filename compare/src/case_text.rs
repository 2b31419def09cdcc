//! A case as text that can be kept and run again: lines of name=value, where
//! `table` and `list` are words separated by spaces.

use std::collections::HashMap;
use std::fmt::Write;

use ragansils_model::Event;

use crate::both::Check;
use crate::case::{Call, Case};
use crate::chain::Chain;

pub fn write_case(check: Check, case: &Case) -> String {
    let mut text = String::new();
    let check = match check {
        Check::Call => "call",
        Check::SoundTable => "sound_table",
    };
    let mut line = |name: &str, value: &str| writeln!(text, "{name}={value}").unwrap();
    line("check", check);
    line("op", case.call.name());
    for (name, value) in arguments(case.call) {
        line(name, &value.to_string());
    }
    line("list", &words_text(&case.list));
    line("table", &words_text(&case.table));
    text
}

/// The names are those of scripts, where scripts have one.
fn arguments(call: Call) -> Vec<(&'static str, u64)> {
    match call {
        Call::Create { form, c, k, mul1, mul2 } => {
            vec![("form", form), ("cap", c), ("top", k), ("mul1", mul1), ("mul2", mul2)]
        }
        Call::Make { n } => vec![("n", n)],
        Call::Query { key } | Call::Ask { key } | Call::AskTwice { key } => vec![("key", key)],
        Call::Chain(Chain { address, depth }) => vec![("address", address), ("depth", depth)],
        Call::Convert => vec![],
        Call::Change(event) => event_arguments(event),
    }
}

pub fn event_arguments(event: Event) -> Vec<(&'static str, u64)> {
    match event {
        Event::Insert { key, function, place } | Event::Update { key, function, place } => {
            vec![("key", key), ("fn", function), ("at", place)]
        }
        Event::Delete { key } => vec![("key", key)],
        Event::StepFrom { from } => vec![("from", from)],
        Event::Begin | Event::Shrink | Event::Back | Event::Step | Event::End | Event::Recover => vec![],
    }
}

fn words_text(words: &[u64]) -> String {
    words.iter().map(u64::to_string).collect::<Vec<_>>().join(" ")
}

/// Reads what `write_case` wrote; lines without `=` are passed over.
pub fn read_case(text: &str) -> Result<(Check, Case), String> {
    let fields: HashMap<&str, &str> = text.lines().filter_map(|line| line.split_once('=')).collect();
    let field = |name: &str| fields.get(name).copied().ok_or(format!("no {name} line"));
    let words = |name: &str| -> Result<Vec<u64>, String> {
        let numbers = field(name)?.split_whitespace().map(str::parse);
        numbers.collect::<Result<_, _>>().map_err(|error| format!("{name}: {error}"))
    };
    let number = |name: &str| words(name)?.first().copied().ok_or(format!("{name} is empty"));

    let check = match field("check")? {
        "call" => Check::Call,
        "sound_table" => Check::SoundTable,
        other => return Err(format!("unknown check {other}")),
    };
    let call = read_call(field("op")?, number)?;
    Ok((check, Case { call, table: words("table")?, list: words("list")? }))
}

/// The call of a name, with a function from the names of its arguments to their values.
pub fn read_call(op: &str, number: impl Fn(&str) -> Result<u64, String>) -> Result<Call, String> {
    let event = match op {
        "create" => {
            let (form, c, k) = (number("form")?, number("cap")?, number("top")?);
            return Ok(Call::Create { form, c, k, mul1: number("mul1")?, mul2: number("mul2")? });
        }
        "make" => return Ok(Call::Make { n: number("n")? }),
        "convert" => return Ok(Call::Convert),
        "ask" => return Ok(Call::Ask { key: number("key")? }),
        "ask_twice" => return Ok(Call::AskTwice { key: number("key")? }),
        "query" => return Ok(Call::Query { key: number("key")? }),
        "chain" => return Ok(Call::Chain(Chain { address: number("address")?, depth: number("depth")? })),
        "insert" => Event::Insert { key: number("key")?, function: number("fn")?, place: number("at")? },
        "update" => Event::Update { key: number("key")?, function: number("fn")?, place: number("at")? },
        "delete" => Event::Delete { key: number("key")? },
        "begin" => Event::Begin,
        "shrink" => Event::Shrink,
        "back" => Event::Back,
        "step" => Event::Step,
        "step_from" => Event::StepFrom { from: number("from")? },
        "end" => Event::End,
        "recover" => Event::Recover,
        other => return Err(format!("unknown op {other}")),
    };
    Ok(Call::Change(event))
}

#[cfg(test)]
mod tests {
    use super::*;

    #[test]
    fn what_is_written_can_be_read() {
        let insert = Event::Insert { key: u64::MAX, function: 0, place: 7 };
        let calls = [
            Call::Create { form: 9, c: 1, k: 2, mul1: 3, mul2: 4 },
            Call::Make { n: 5 },
            Call::Query { key: 6 },
            Call::Chain(Chain { address: u64::MAX, depth: 7 }),
            Call::Convert,
            Call::Ask { key: 9 },
            Call::AskTwice { key: u64::MAX },
            Call::Change(insert),
            Call::Change(Event::Update { key: 1, function: 2, place: 3 }),
            Call::Change(Event::Delete { key: 1 }),
            Call::Change(Event::Begin),
            Call::Change(Event::Shrink),
            Call::Change(Event::Back),
            Call::Change(Event::Step),
            Call::Change(Event::StepFrom { from: 8 }),
            Call::Change(Event::End),
            Call::Change(Event::Recover),
        ];
        for (check, call) in [Check::Call, Check::SoundTable].into_iter().cycle().zip(calls) {
            let case = Case { call, table: vec![1, u64::MAX], list: vec![] };
            assert_eq!(read_case(&write_case(check, &case)), Ok((check, case)));
        }
    }
}
