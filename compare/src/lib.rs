//! Compares the proved library, the script program, the ledger program and the program that converts with the model. What is public makes
//! random histories and damage for other tests too.
//!
//! From the bottom up:
//! - `random`: numbers from a seed;
//! - `layout`: where words stand and what keys hash to, without the model;
//! - `chain`: the chain of an address;
//! - `case`, `case_text`: one call over given words, and its text form;
//! - `two_tables`: the calls that ask a newer table and an older one; `library`: the proved library behind its C interface;
//! - `told_slots`: where a query tells that its key stands; `converted`: what a conversion leaves; `overlaid`: what
//!   two tables tell;
//! - `stuck_items`: which interim item a step takes; `starts`: where a step that goes on starts;
//! - `tags`: what calls do with damaged token words of form 2;
//! - `kind_tally`: how often each kind was seen; `tally`: what a run has seen; `chain_tally`: of chains; `conversion_tally`: of
//!   conversions; `overlay_tally`: of two tables; `phases`: in each phase;
//! - `both`: a case through library and model;
//! - `plain_map`, `sound_tables`: sound tables against a plain map, with every cut; `there_and_back`: and converted;
//!   `hidden_keys`: and two of them, over each other;
//! - `history`, `damage`, `tag_damage`: where tables come from; `random_chains`: which chains are put in and asked for;
//! - `stuck_tables`, `stuck_shrinks`: growing and shrinking tables whose first interim items have no place; `going_on`: steps from every
//!   start, and whole passes;
//! - `wild`: cases over words that no history made;
//! - `words`: the run over raw words;
//! - `conversion_sources`, `conversions`: the run of conversions;
//! - `overlay_sources`, `overlays`: the run of two tables that are asked together;
//! - `outputs`: a program's output beside the model's; `bad_lines`: what is wrong with a line; `answered_events`: a script's events, by
//!   its output;
//! - `script_text`, `script_damage`, `scripts`: the run of scripts;
//! - `ledger_lines`, `ledger_text`, `ledger_damage`, `ledger_tally`, `ledgers`: the run of ledgers; `long_ledger`: a long one, with its
//!   time and memory;
//! - `convert_text`, `convert_tally`, `convert_scripts`: the run of scripts whose tables a program converts;
//! - `corners`: the model's answers to the input of the proved program `corners`;
//! - `smallest`: smaller failures;
//! - `demands`: what a run must have seen;
//! - `commands`: what the command line asks for; `program`: what programs share; `runner`: how they start others.

mod answered_events;
mod bad_lines;
mod both;
pub mod case;
pub mod case_text;
pub mod chain;
mod chain_tally;
pub mod commands;
mod conversion_sources;
mod conversion_tally;
mod conversions;
mod convert_scripts;
mod convert_tally;
mod convert_text;
mod converted;
mod corners;
pub mod damage;
mod demands;
mod going_on;
mod hidden_keys;
pub mod history;
mod kind_tally;
pub mod layout;
mod ledger_damage;
mod ledger_lines;
mod ledger_tally;
mod ledger_text;
mod ledgers;
pub mod library;
mod long_ledger;
mod outputs;
mod overlaid;
mod overlay_sources;
mod overlay_tally;
mod overlays;
mod phases;
pub mod plain_map;
pub mod program;
pub mod random;
mod random_chains;
pub mod runner;
mod script_damage;
mod script_text;
mod scripts;
mod smallest;
mod sound_tables;
pub mod starts;
pub mod stuck_items;
pub mod stuck_shrinks;
pub mod stuck_tables;
mod tag_damage;
pub mod tags;
mod tally;
#[cfg(test)]
mod test_table;
mod there_and_back;
pub mod told_slots;
mod two_tables;
mod wild;
mod words;
