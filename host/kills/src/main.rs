//! Kills a collector process on a mapped file, at every store of every kind of change and at random moments, and checks that a fresh
//! process finds everything that was acknowledged.
//!
//! From the bottom up:
//! - `records`: records that show whether both halves are of one version;
//! - `said`: what a collector says before and after each change;
//! - `collector`: the process that is killed;
//! - `wrong`: collectors with a mistake, which must be caught;
//! - `process`: starting and killing it;
//! - `judge`: what a file should hold;
//! - `tables`: tables on which a change of each kind comes next;
//! - `exact`: kills at every store;
//! - `moments`: kills at random moments;
//! - `self_test`: that a wrong collector is caught;
//! - `commands`: what the command line asks for.

mod collector;
mod commands;
mod exact;
mod judge;
mod moments;
mod process;
mod records;
mod said;
mod self_test;
mod tables;
mod wrong;

use std::process::ExitCode;

use ragansils_compare::program;

fn main() -> ExitCode {
    program::run(commands::run)
}
