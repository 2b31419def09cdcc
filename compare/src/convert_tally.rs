//! What a script shows whose table a program converts.

use std::fmt::{self, Display};

use ragansils::Phase;
use ragansils_model::{LARGEST_CONVERT_CAPACITY, SUCCESS};

use crate::answered_events::{answered_events, last_phase, numbers_by_name};
use crate::converted::NO_PLACE;
use crate::ledger_lines::HEADER_LINES;
use crate::outputs::script_output;

/// What a script shows. One script may show several.
#[derive(Clone, Copy, Debug, PartialEq, Eq, PartialOrd, Ord)]
pub enum Kind {
    ThereAndBack,
    LargestThereAndBack,
    NoPlaceThere,
    NoPlaceBack,
    NotSound,
    Growing,
    Shrinking,
    RefusedCreation,
    /// A table that the script program would make.
    TooLarge,
    BadHeader,
    BadEvent,
    SampleLine,
    TornEnd,
}

pub const KINDS: [Kind; 13] = [
    Kind::ThereAndBack,
    Kind::LargestThereAndBack,
    Kind::NoPlaceThere,
    Kind::NoPlaceBack,
    Kind::NotSound,
    Kind::Growing,
    Kind::Shrinking,
    Kind::RefusedCreation,
    Kind::TooLarge,
    Kind::BadHeader,
    Kind::BadEvent,
    Kind::SampleLine,
    Kind::TornEnd,
];

impl Display for Kind {
    fn fmt(&self, out: &mut fmt::Formatter) -> fmt::Result {
        out.write_str(match self {
            Kind::ThereAndBack => "there and back",
            Kind::LargestThereAndBack => "there and back with cap=7",
            Kind::NoPlaceThere => "answer=6",
            Kind::NoPlaceBack => "answer=6 on the way back",
            Kind::NotSound => "answer=12",
            Kind::Growing => "answer=7 of a growing table",
            Kind::Shrinking => "answer=7 of a shrinking table",
            Kind::RefusedCreation => "made=13",
            Kind::TooLarge => "made=13 for cap=8 alone",
            Kind::BadHeader => "bad line in the header",
            Kind::BadEvent => "bad line behind it",
            Kind::SampleLine => "sample line",
            Kind::TornEnd => "torn last line",
        })
    }
}

/// The kinds of a script, by its lines and the program's output.
pub fn kinds(lines: &[Vec<u8>], output: &[u8]) -> Vec<Kind> {
    let output = numbers_by_name(output);
    let answers: Vec<(&str, u64)> =
        output.iter().filter(|line| line.0 != "key").map(|(name, number)| (name.as_str(), *number)).collect();
    let cap = |number: u64| lines.first() == Some(&format!("cap={number}\n").into_bytes());
    let seen = match answers[..] {
        [("bad", number)] => return kinds_of_bad_line(lines, number as usize - 1),
        [("made", _)] => {
            let is_made = script_output(&lines.concat()).starts_with(b"made=0\n");
            vec![(Kind::RefusedCreation, true), (Kind::TooLarge, is_made)]
        }
        [("answer", SUCCESS), ("answer", SUCCESS)] => {
            vec![(Kind::ThereAndBack, true), (Kind::LargestThereAndBack, cap(LARGEST_CONVERT_CAPACITY))]
        }
        [("answer", SUCCESS), ("answer", NO_PLACE)] => vec![(Kind::NoPlaceBack, true)],
        [("answer", NO_PLACE)] => vec![(Kind::NoPlaceThere, true)],
        [("answer", 12)] => vec![(Kind::NotSound, true)],
        [("answer", 7)] => {
            let phase = phase_after(lines);
            vec![(Kind::Growing, phase == Phase::Growing), (Kind::Shrinking, phase == Phase::Shrinking)]
        }
        _ => vec![],
    };
    seen.into_iter().filter(|seen| seen.1).map(|seen| seen.0).collect()
}

fn kinds_of_bad_line(lines: &[Vec<u8>], at: usize) -> Vec<Kind> {
    let line = lines.get(at).map_or(&b""[..], Vec::as_slice);
    let seen = [
        (Kind::BadHeader, at < HEADER_LINES),
        (Kind::BadEvent, at >= HEADER_LINES),
        (Kind::SampleLine, line.starts_with(b"sample=")),
        (Kind::TornEnd, at + 1 == lines.len() && !line.ends_with(b"\n")),
    ];
    seen.into_iter().filter(|seen| seen.1).map(|seen| seen.0).collect()
}

/// The phase that the script leaves its table in.
fn phase_after(lines: &[Vec<u8>]) -> Phase {
    last_phase(&answered_events(lines, &numbers_by_name(&script_output(&lines.concat()))))
}

#[cfg(test)]
mod tests {
    use super::*;
    use crate::outputs::convert_output;
    use crate::script_damage::split_lines;

    fn kinds_of(script: &str) -> Vec<Kind> {
        kinds(&split_lines(script.as_bytes()), &convert_output(script.as_bytes()))
    }

    fn with_header(events: &str) -> Vec<Kind> {
        kinds_of(&format!("cap=2\ntop=1\nmul1=1\nmul2=1\n{events}"))
    }

    #[test]
    fn answers_have_their_kinds() {
        let insert = |key: u64| format!("op=insert\nkey={key}\nfn=1\nat=2\n");
        assert_eq!(with_header(&insert(1)), [Kind::ThereAndBack]);
        assert_eq!(with_header("op=begin\n"), [Kind::Growing]);
        assert_eq!(with_header("op=begin\nop=back\n"), [Kind::Shrinking]);
        let full: String = (0..4).map(insert).collect();
        let cut_update = format!("{full}op=cut\nafter=5\nop=update\nkey=1\nfn=3\nat=4\n");
        assert_eq!(with_header(&cut_update), [Kind::NotSound]);
        // With these multipliers the upper half is a key's first place in both forms. It is the second one in form 1 for even lower halves;
        // in form 2 for odd ones, as the upper half is 1.
        let narrowed: String = (0..9).map(|number| insert((1 << 32) + 2 * number + 1)).collect();
        let header = "cap=1\ntop=1\nmul1=1\nmul2=4294967297\n";
        assert_eq!(kinds_of(&format!("{header}{narrowed}")), [Kind::NoPlaceThere]);
    }

    #[test]
    fn what_is_not_converted_has_its_kind() {
        let header = |cap, top| kinds_of(&format!("cap={cap}\ntop={top}\nmul1=1\nmul2=1\n"));
        assert_eq!(header(7, 7), [Kind::ThereAndBack, Kind::LargestThereAndBack]);
        assert_eq!(header(8, 8), [Kind::RefusedCreation, Kind::TooLarge]);
        assert_eq!((header(8, 9), header(9, 1)), (vec![Kind::RefusedCreation], vec![Kind::RefusedCreation]));
        assert_eq!(kinds_of("cap=1\ntop=x\n"), [Kind::BadHeader]);
        assert_eq!(with_header("sample=1\n"), [Kind::BadEvent, Kind::SampleLine]);
        assert_eq!(with_header("op=begin"), [Kind::BadEvent, Kind::TornEnd]);
        assert_eq!(with_header("op=query\n"), [Kind::BadEvent]);
    }
}
