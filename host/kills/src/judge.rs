//! What a file should hold. Stores, recovery and maps here are the independent model's, and not those of the library that wrote the
//! file.

use std::fs::OpenOptions;
use std::io::Write;
use std::path::Path;

use ragansils::{bytes_of, words_of};
use ragansils_compare::plain_map::{self, PlainMap};
use ragansils_model::{make, Event, LEAST_LIST_WORDS, SUCCESS};

use crate::records::half_new;
use crate::said::Said;

pub fn read_words(path: &Path) -> Result<Vec<u64>, String> {
    let bytes = std::fs::read(path).map_err(|error| error.to_string())?;
    Ok(words_of(&bytes))
}

/// Writes over what the file has: a file that is cut to nothing first is flushed to the disk by some file systems, which takes long.
pub fn write_words(path: &Path, words: &[u64]) -> Result<(), String> {
    let bytes = bytes_of(words);
    let written =
        OpenOptions::new().write(true).create(true).truncate(false).open(path).and_then(|mut file| {
            file.write_all(&bytes)?;
            file.set_len(bytes.len() as u64)
        });
    written.map_err(|error| error.to_string())
}

/// The stores of an event, as a list's words.
pub fn stores_of(words: &[u64], event: Event) -> Result<Vec<u64>, u64> {
    let mut list = [0; LEAST_LIST_WORDS];
    match event.list_stores(words, &mut list) {
        (SUCCESS, stores) => Ok(list[..2 * stores as usize].to_vec()),
        (refusal, _) => Err(refusal),
    }
}

/// The words after the first `n` stores of a list.
pub fn made(words: &[u64], list: &[u64], n: u64) -> Vec<u64> {
    let mut words = words.to_vec();
    make(&mut words, list, n);
    words
}

pub fn recovered(words: &[u64]) -> Result<Vec<u64>, String> {
    let list =
        stores_of(words, Event::Recover).map_err(|refusal| format!("recovery refuses with {refusal}"))?;
    Ok(made(words, &list, list.len() as u64 / 2))
}

/// Whether these words are a sound table with one of the maps that may be; answers which.
pub fn which_map(words: &[u64], maps: &[PlainMap]) -> Result<usize, String> {
    match stores_of(words, Event::Recover) {
        Ok(list) if list.is_empty() => {}
        Ok(_) => return Err("the table is not sound: recovery has something to mend".to_string()),
        Err(refusal) => return Err(format!("the table is not sound: recovery refuses with {refusal}")),
    }
    let map = plain_map::of_table(words).ok_or("a key stands twice")?;
    if let Some(key) = half_new(&map) {
        return Err(format!("the record of key {key} is half new"));
    }
    maps.iter().position(|expected| *expected == map).ok_or_else(|| difference(&map, maps))
}

fn difference(map: &PlainMap, maps: &[PlainMap]) -> String {
    let lost =
        |expected: &PlainMap| expected.iter().filter(|(key, record)| map.get(key) != Some(record)).count();
    let lost: Vec<usize> = maps.iter().map(lost).collect();
    format!("neither map: of the acknowledged records {lost:?} are lost or other (one number for each map that may be)")
}

/// The maps that may be while a change is under way: before it, and after it where it would be accepted.
fn maps_around(map: &PlainMap, event: Event) -> Vec<PlainMap> {
    if plain_map::answer_fits(map, event, SUCCESS) {
        vec![map.clone(), plain_map::after(map, event)]
    } else {
        vec![map.clone()]
    }
}

/// What a collector's words tell: the maps that its file may have now.
pub fn maps_after(map: &PlainMap, said: &[Said]) -> Result<Vec<PlainMap>, String> {
    let mut maps = vec![map.clone()];
    let mut under_way = None;
    for &one in said {
        match (one, under_way.take()) {
            (Said::About(event), None) => {
                maps = maps_around(&maps[0], event);
                under_way = Some(event);
            }
            (Said::Done(number), Some(event)) => {
                if !plain_map::answer_fits(&maps[0], event, number) {
                    return Err(format!("{event:?} was answered with {number}"));
                }
                let chosen = if number == SUCCESS { maps.len() - 1 } else { 0 };
                maps = vec![maps.swap_remove(chosen)];
            }
            (Said::Held, event) => under_way = event,
            (other, _) => return Err(format!("a collector said {other:?} out of turn")),
        }
    }
    Ok(maps)
}
