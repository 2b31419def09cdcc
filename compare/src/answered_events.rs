//! The events of a script and the lines that answer them.

use ragansils::Phase;
use ragansils_model::SUCCESS;

/// One event of a script.
pub struct AnsweredEvent<'a> {
    pub op: &'a str,
    lines: &'a [(String, u64)],
}

impl AnsweredEvent<'_> {
    /// The number in a line of its answer.
    pub fn line(&self, name: &str) -> Option<u64> {
        self.lines.iter().find(|line| line.0 == name).map(|line| line.1)
    }

    pub fn number(&self) -> u64 {
        self.line("answer").unwrap_or(SUCCESS)
    }

    /// The phase of the table after it, where it comes in this phase. A cut may have left its one store out.
    pub fn phase_after(&self, phase: Phase) -> Phase {
        let is_made = self.number() == SUCCESS && self.line("kept") != Some(0);
        match (self.op, phase) {
            _ if !is_made => phase,
            ("begin", _) | ("back", Phase::Shrinking) => Phase::Growing,
            ("shrink", _) | ("back", Phase::Growing) => Phase::Shrinking,
            ("end", _) => Phase::AtRest,
            _ => phase,
        }
    }
}

/// The events that an output answers, in their order; a cut is no event.
pub fn answered_events<'a>(script: &'a [Vec<u8>], output: &'a [(String, u64)]) -> Vec<AnsweredEvent<'a>> {
    let ops = script.iter().filter_map(|line| op_of(line)).filter(|&op| op != "cut");
    let begins = |index: &usize| output[*index].0 == "answer";
    let starts: Vec<usize> = (0..output.len()).filter(begins).collect();
    let ends = starts.iter().skip(1).copied().chain([output.len()]);
    let answers = starts.iter().zip(ends).map(|(&start, end)| &output[start..end]);
    ops.zip(answers).map(|(op, lines)| AnsweredEvent { op, lines }).collect()
}

pub fn numbers_by_name(output: &[u8]) -> Vec<(String, u64)> {
    let text = String::from_utf8_lossy(output);
    let fields = text.lines().filter_map(|line| line.split_once('='));
    fields.map(|(name, number)| (name.to_string(), number.parse().unwrap_or(0))).collect()
}

pub fn op_of(line: &[u8]) -> Option<&str> {
    std::str::from_utf8(line).ok()?.strip_prefix("op=")?.strip_suffix('\n')
}

/// The phase of a new table after some events.
pub fn last_phase(events: &[AnsweredEvent]) -> Phase {
    events.iter().fold(Phase::AtRest, |phase, event| event.phase_after(phase))
}

#[cfg(test)]
mod tests {
    use super::*;
    use crate::outputs::script_output;
    use crate::script_damage::split_lines;

    fn phase_after(events: &str) -> Phase {
        let script = format!("cap=3\ntop=2\nmul1=1\nmul2=1\n{events}");
        let output = numbers_by_name(&script_output(script.as_bytes()));
        last_phase(&answered_events(&split_lines(script.as_bytes()), &output))
    }

    #[test]
    fn the_phase_is_that_of_the_events_made() {
        assert_eq!(phase_after("op=end\n"), Phase::AtRest);
        assert_eq!(phase_after("op=shrink\nop=query\nkey=1\n"), Phase::Shrinking);
        assert_eq!(phase_after("op=shrink\nop=back\nop=shrink\n"), Phase::Growing);
        assert_eq!(phase_after("op=begin\nop=cut\nafter=1\nop=back\n"), Phase::Shrinking);
        assert_eq!(phase_after("op=begin\nop=cut\nafter=0\nop=back\n"), Phase::Growing);
        assert_eq!(phase_after("op=begin\nop=back\nop=end\n"), Phase::AtRest);
    }
}
