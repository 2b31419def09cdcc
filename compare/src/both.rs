//! Runs each case through the library and the model, side by side.

use std::path::Path;

use crate::case::{difference, run_model, Call, Case, Outcome};
use crate::case_text::write_case;
use crate::conversion_tally::ways_and_kinds;
use crate::converted;
use crate::library;
use crate::overlaid;
use crate::overlay_tally;
use crate::program;
use crate::tally::Tally;
use crate::told_slots;

/// What a case is checked for.
#[derive(Clone, Copy, Debug, PartialEq, Eq)]
pub enum Check {
    /// The library answers as the model does; a query tells a slot that holds its key and record, a conversion leaves the source's items
    /// in its second table, and two tables tell what their words and queries of them do.
    Call,
    /// The table is sound: a query or a chain answers as the plain map does, each cut of a change leaves the map before or after it, and
    /// a conversion, there and back, leaves the map. Two sound tables answer as their maps do, also where a hidden key changes.
    SoundTable,
}

/// Something that should not be.
#[derive(Debug)]
pub struct Finding {
    pub check: Check,
    /// In a box, since errors are handed on through many calls.
    pub case: Box<Case>,
    pub what: String,
}

impl Finding {
    pub fn of_sound_table(case: &Case, what: String) -> Finding {
        Finding { check: Check::SoundTable, case: Box::new(case.clone()), what }
    }
}

pub struct Both<'t> {
    pub tally: &'t mut Tally,
    /// Where each case is kept before the library sees it; a crash leaves its case there.
    trace: Option<&'t Path>,
}

impl<'t> Both<'t> {
    pub fn new(tally: &'t mut Tally) -> Both<'t> {
        Both { tally, trace: None }
    }

    pub fn traced(tally: &'t mut Tally, trace: Option<&'t Path>) -> Both<'t> {
        Both { tally, trace }
    }

    pub fn run(&mut self, case: &Case) -> Result<Outcome, Finding> {
        let finding = |what| Finding { check: Check::Call, case: Box::new(case.clone()), what };
        let model = run_model(case);
        if let Some(file) = self.trace {
            let written = std::fs::write(file, write_case(Check::Call, case));
            written.unwrap_or_else(|error| program::stop(format_args!("{}: {error}", file.display())));
        }
        let library = library::run(case).map_err(finding)?;
        self.tally.count_call(case, &model);
        if let Some(what) = difference(&library, &model) {
            return Err(finding(what));
        }
        if let Call::Query { key } = case.call {
            let level =
                told_slots::check(&case.table, key, library.number, &library.answer).map_err(finding)?;
            level.into_iter().for_each(|level| self.tally.levels.count(level));
        }
        if case.call == Call::Convert {
            converted::check(case, &library).map_err(finding)?;
            self.tally.conversions.count(ways_and_kinds(case, library.number));
        }
        if matches!(case.call, Call::Ask { .. } | Call::AskTwice { .. }) {
            let level = overlaid::check(case, &library).map_err(finding)?;
            self.tally.overlays.count(overlay_tally::kinds(case, &library, level));
        }
        self.tally.tags.look_at(case, &library).map_err(finding)?;
        Ok(model)
    }

    /// The table after the first `n` stores of a list that fits it.
    pub fn make(&mut self, table: &[u64], list: &[u64], n: u64) -> Result<Vec<u64>, Finding> {
        let case = Case { call: Call::Make { n }, table: table.to_vec(), list: list.to_vec() };
        let outcome = self.run(&case)?;
        if outcome.number != 0 {
            let what = format!("making listed stores is refused with {}", outcome.number);
            return Err(Finding { check: Check::Call, case: Box::new(case), what });
        }
        Ok(outcome.table)
    }
}
