//! That a wrong collector is caught.

use std::path::Path;

use ragansils::Form;
use ragansils_compare::random::Random;
use ragansils_compare::say;

use crate::exact::{Exact, Kills};
use crate::tables::prepare;
use crate::wrong::Wrong;

/// Runs every wrong collector as the right one is run, in each form, and fails where one of them passes.
pub fn run(random: &mut Random, path: &Path) -> Result<(), String> {
    Form::ALL.into_iter().try_for_each(|form| run_form(random, path, form))
}

fn run_form(random: &mut Random, path: &Path, form: Form) -> Result<(), String> {
    let tables = prepare(random, form, 1)?;
    for wrong in Wrong::ALL.into_iter().filter(|wrong| wrong.is_wrong_in(form)) {
        let mut kills = Kills::default();
        let mut exact = Exact { path, random, kills: &mut kills, wrong: Some(wrong) };
        let caught = tables.iter().find_map(|prepared| exact.every_store(prepared).err());
        match caught {
            Some(what) if what.contains(wrong.sign()) => say!("caught, {form}, {}: {what}", wrong.name()),
            Some(what) => {
                return Err(format!("'{}' should be caught as '{}': {what}", wrong.name(), wrong.sign()))
            }
            None => {
                return Err(format!("{form}: a collector with the mistake '{}' was not caught", wrong.name()))
            }
        }
    }
    Ok(())
}
