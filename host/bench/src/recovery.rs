//! The recovery of a whole table, by the library and by the twin: of a sound one, of one with a key that stands twice, and
//! of one with a cut update.

use ragansils_compare::history::Setting;
use ragansils_compare::random::Random;
use ragansils_counts::{items_at, Keys, Kind};
use ragansils_model::{word, Slot, Table};

use crate::clock::timed;
use crate::operations::Filled;
use crate::peers::{swap_words, two_sides, Peer};
use crate::rounds::{Measured, Rounds};

/// Stores that bring a sound table to one that recovery mends.
type Damage = Vec<(usize, u64)>;

/// So many items at least are looked at in a round, by several recoveries of a small table.
const ITEMS_IN_A_ROUND: usize = 100_000;

/// The name of a table that needs no mending.
pub const SOUND: &str = "sound";

/// The name of a measurement.
pub fn operation(table: &str, load: f64) -> String {
    format!("recovery, {table}, load {load}")
}

/// Nanoseconds for one whole table.
pub fn measure(
    random: &mut Random,
    setting: Setting,
    load: f64,
    rounds: usize,
    kinds: Kinds,
) -> Result<Vec<Measured>, String> {
    let items = items_at(setting, load);
    let keys = Keys::new(random, Kind::Random, items, 0);
    let peers = two_sides(setting);
    let mut filled = Filled { c: setting.c, peers, keys: &keys, items: 0, when: String::new() };
    filled.fill(items)?;
    let words = filled.peers[0].words().ok_or("the library's table has words")?.clone();
    let damages = match kinds {
        Kinds::Sound => vec![(SOUND, vec![])],
        Kinds::All => {
            vec![(SOUND, vec![]), ("doubled key", doubled(&words)?), ("cut update", flagged(&words)?)]
        }
    };
    let mut measured = vec![];
    for (name, damage) in damages {
        let all = recoveries(&mut filled.peers, &damage, rounds, items)?;
        measured.extend(all.finish(setting.c, [operation(name, load)]));
    }
    Ok(measured)
}

/// Which tables are recovered.
#[derive(Clone, Copy)]
pub enum Kinds {
    Sound,
    All,
}

fn recoveries(
    peers: &mut [Box<dyn Peer>],
    damage: &Damage,
    rounds: usize,
    items: usize,
) -> Result<Rounds<1>, String> {
    let repeats = (ITEMS_IN_A_ROUND / items).max(1);
    let mut all = Rounds::<1>::new(peers);
    for number in 0..=rounds {
        all.round(number, peers, |peer| {
            let (time, accepted) = timed(|| {
                let mut accepted = 0;
                for _ in 0..repeats {
                    spoil(peer, damage);
                    accepted += u64::from(peer.recover());
                }
                accepted
            });
            ([time / repeats as f64], accepted)
        })?;
        swap_words(peers)?;
    }
    Ok(all)
}

fn spoil(peer: &mut dyn Peer, damage: &Damage) {
    if let Some(words) = peer.words() {
        for &(index, new_word) in damage {
            words[index] = new_word;
        }
    }
}

/// An item's copy in a free slot that comes later: recovery clears it.
fn doubled(words: &[u64]) -> Result<Damage, String> {
    let table = Table::read(words).map_err(|refusal| format!("{refusal:?}"))?;
    let copy_of = |item: Slot| {
        let [key, function, place] = table.record(item);
        let copy = table
            .places(key, table.bottom())
            .into_iter()
            .find_map(|bucket| table.lowest_free_slot(bucket))?;
        let token = table.token(copy.bucket) | copy.token_bit();
        Some(vec![
            (copy.key_word(), key),
            (copy.function_word(), function),
            (copy.place_word(), place),
            (copy.token_word(), token),
        ])
    };
    let mut top_items = table.top().buckets().flat_map(Slot::all_of).filter(|&slot| table.is_taken(slot));
    top_items.find_map(copy_of).ok_or_else(|| "no free slot in the bottom".to_string())
}

/// An update of some item, cut after its flag was set.
fn flagged(words: &[u64]) -> Result<Damage, String> {
    let table = Table::read(words).map_err(|refusal| format!("{refusal:?}"))?;
    let mut items = table.top().buckets().flat_map(Slot::all_of).filter(|&slot| table.is_taken(slot));
    let item = items.next().ok_or("no item")?;
    let [_, function, place] = table.record(item);
    Ok(vec![
        (word::UPDATE_TARGET, item.key_word() as u64),
        (word::UPDATE_FUNCTION, function),
        (word::UPDATE_PLACE, place),
        (word::FLAG, 1),
    ])
}
