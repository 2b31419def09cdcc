//! What a collector says on its standard output, a line before each change and a line after it.

use ragansils_compare::case::{event_name, Call};
use ragansils_compare::case_text::{event_arguments, read_call};
use ragansils_model::Event;

#[derive(Clone, Copy, Debug, PartialEq, Eq)]
pub enum Said {
    /// This change comes now.
    About(Event),
    /// It is made, or refused with this number.
    Done(u64),
    /// So many stores of it are made, and the process waits to be killed.
    Held,
}

impl Said {
    pub fn line(self) -> String {
        match self {
            Said::About(event) => format!("about {}", event_text(event)),
            Said::Done(number) => format!("done {number}"),
            Said::Held => "held".to_string(),
        }
    }

    pub fn read(line: &str) -> Result<Said, String> {
        let (first, rest) = line.split_once(' ').unwrap_or((line, ""));
        match first {
            "about" => read_event(rest).map(Said::About),
            "done" => rest.parse().map(Said::Done).map_err(|error| format!("{line}: {error}")),
            "held" => Ok(Said::Held),
            _ => Err(format!("a collector said: {line}")),
        }
    }
}

/// An event's name and numbers.
pub fn event_text(event: Event) -> String {
    let numbers = event_arguments(event).into_iter().map(|(_, value)| format!(" {value}"));
    event_name(event).to_string() + &numbers.collect::<String>()
}

pub fn read_event(text: &str) -> Result<Event, String> {
    let mut words = text.split(' ');
    let name = words.next().unwrap_or_default();
    let numbers: Vec<&str> = words.collect();
    let argument = |wanted: &str| {
        // No event has a key and a start.
        let index = match wanted {
            "key" | "from" => 0,
            "fn" => 1,
            _ => 2,
        };
        let number = numbers.get(index).and_then(|number| number.parse().ok());
        number.ok_or(format!("no {wanted} in '{text}'"))
    };
    match read_call(name, argument)? {
        Call::Change(event) => Ok(event),
        _ => Err(format!("'{text}' is no change")),
    }
}

#[cfg(test)]
mod tests {
    use super::*;

    #[test]
    fn what_is_said_can_be_read() {
        let insert = Event::Insert { key: u64::MAX, function: 0, place: 7 };
        let update = Event::Update { key: 1, function: 2, place: 3 };
        let (delete, step_from) = (Event::Delete { key: 4 }, Event::StepFrom { from: 5 });
        for event in [
            insert,
            update,
            delete,
            Event::Begin,
            Event::Shrink,
            Event::Back,
            Event::Step,
            step_from,
            Event::End,
            Event::Recover,
        ] {
            assert_eq!(Said::read(&Said::About(event).line()), Ok(Said::About(event)));
        }
        for said in [Said::Done(6), Said::Held] {
            assert_eq!(Said::read(&said.line()), Ok(said));
        }
        assert!(Said::read("about insert 1 2").is_err());
        assert!(Said::read("hello").is_err());
    }
}
