//! Random scripts for the program that converts. The model's table tells what a script leads to.

use ragansils_model::{Event, LARGEST_CONVERT_CAPACITY, SUCCESS};

use crate::case::is_resizing;
use crate::conversion_sources::crowded_key;
use crate::converted::NO_PLACE;
use crate::history::Setting;
use crate::ledger_text::forget_recovery;
use crate::random::Random;
use crate::script_text::{random_script, Script, SCRIPT_FORM};

/// One table in so many is a large one: of the largest capacity, of the one below it, or of the first that is too large.
const LARGE_ONE_IN: u64 = 8;
/// The others are so small that they are full after some lines.
const SMALL_CAPACITY: u64 = 4;

pub fn random_convert_script(random: &mut Random) -> Script {
    let mut script = if random.one_in(2) { filled_table(random) } else { random_script(random) };
    match random.below(6) {
        0 => forget_recovery(random, &mut script),
        1 => begin(random, &mut script),
        2 => {}
        _ => settle(&mut script),
    }
    script
}

/// A table with as many items as it takes, or with fewer, or with keys that have few places in form 2.
fn filled_table(random: &mut Random) -> Script {
    let is_large = random.one_in(LARGE_ONE_IN);
    let c = match is_large {
        true => LARGEST_CONVERT_CAPACITY - 1 + random.below(3),
        false => 1 + random.below(SMALL_CAPACITY),
    };
    let k = if random.one_in(4) { 1 + random.below(c) } else { c };
    let setting = Setting { k, ..Setting::of_capacity(random, SCRIPT_FORM, c) };
    let is_crowded = !is_large && random.one_in(4);
    let most = if is_large { random.below(6 << k) } else { 12 << k };
    let mut script = Script::default();
    script.header(setting);
    for _ in 0..most {
        let crowded = if is_crowded && random.one_in(2) { crowded_key(random, setting, 1) } else { None };
        let key = crowded.unwrap_or_else(|| random.word());
        let insert = Event::Insert { key, function: random.any_word(), place: random.any_word() };
        script.event(insert, None);
        if script.last_number == NO_PLACE {
            break;
        }
    }
    script
}

/// A growth or a shrink that is not at its end.
fn begin(random: &mut Random, script: &mut Script) {
    script.event(random.pick(&[Event::Begin, Event::Shrink]), None);
    for _ in 0..random.below(4) {
        script.event(Event::Step, None);
    }
}

/// What a cut left is recovered, and what is under way comes to its end, as far as there is room.
fn settle(script: &mut Script) {
    script.event(Event::Recover, None);
    while is_resizing(&script.table) && script.last_number == SUCCESS {
        script.event(Event::Step, None);
    }
    if is_resizing(&script.table) {
        script.event(Event::End, None);
    }
}
