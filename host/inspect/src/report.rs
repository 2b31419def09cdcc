//! Everything that is told of a file.

use ragansils::{calls, Refusal};
use ragansils_model::Table;

use crate::file::Content;
use crate::text::{with_faults, Text};
use crate::{faults, header, levels, recovery};

/// What recovery would do.
#[derive(Clone, Copy, Debug, PartialEq, Eq)]
pub enum Verdict {
    Sound,
    Mendable,
    Refused,
}

pub fn report(name: &str, content: &Content) -> (String, Verdict) {
    let mut text = Text::of_file(name, content);
    text.part("header", header::lines(&content.words));
    let verdict = match Table::read(&content.words) {
        Ok(table) if header::faults(content).is_empty() => table_parts(&mut text, &table, &content.words),
        _ => no_table(&mut text, content),
    };
    (text.finish(), verdict)
}

fn no_table(text: &mut Text, content: &Content) -> Verdict {
    text.part("soundness", with_faults("this is no table:", header::faults(content)));
    text.part("recovery", vec![refusal_line(Refusal::BadHeader)]);
    Verdict::Refused
}

fn table_parts(text: &mut Text, table: &Table, words: &[u64]) -> Verdict {
    text.part("levels", levels::lines(table));
    match calls::recover(words) {
        Ok(list) if list.count() == 0 => {
            text.part("soundness", vec!["sound".to_string()]);
            text.part("recovery", recovery::lines(table, &list));
            Verdict::Sound
        }
        Ok(list) => {
            text.part("soundness", with_faults("sound but for what a cut left:", faults::lines(table)));
            text.part("recovery", recovery::lines(table, &list));
            Verdict::Mendable
        }
        Err(refusal) => {
            text.part("soundness", with_faults("damaged, and not by a cut alone:", faults::lines(table)));
            text.part("recovery", vec![refusal_line(refusal)]);
            Verdict::Refused
        }
    }
}

fn refusal_line(refusal: Refusal) -> String {
    format!("would refuse and change nothing: {refusal}")
}
