//! What is told of a key: the answer of a query, and every bucket where the key may stand.

use ragansils::{calls, Key, Lookup, Refusal};
use ragansils_model::{Slot, Table};

use crate::buckets::{picture, slot_lines, token_words, MARKED};
use crate::faults::slot_words;
use crate::file::{Content, BYTES_PER_WORD};
use crate::header;
use crate::places::{places, Place};
use crate::tags;
use crate::text::{with_faults, Text};

/// What a query of the key answers.
#[derive(Clone, Copy, Debug, PartialEq, Eq)]
pub enum Verdict {
    Found,
    Absent,
    RecoveryFirst,
    NoTable,
}

pub fn report(name: &str, content: &Content, key: Key) -> (String, Verdict) {
    let mut text = Text::of_file(name, content);
    let table = Table::read(&content.words).ok().filter(|_| header::faults(content).is_empty());
    let tag = table.filter(tags::are_kept).map(|table| tag_line(table.tag_of(key.word())));
    text.part("key", std::iter::once(key.to_string()).chain(tag).collect());
    let verdict = match table {
        Some(table) => search_parts(&mut text, &table, content, key),
        None => no_table(&mut text, content),
    };
    (text.finish(), verdict)
}

fn tag_line(tag: u64) -> String {
    format!("its tag is {}: a query reads only the slots that have it", tags::hexadecimal(tag))
}

fn no_table(text: &mut Text, content: &Content) -> Verdict {
    let mut lines = vec![refusal_line(Refusal::BadHeader)];
    lines.extend(with_faults("this is no table:", header::faults(content)));
    text.part("answer", lines);
    Verdict::NoTable
}

/// The slot that is marked is the one that the query tells: nothing is looked for a second time.
fn search_parts(text: &mut Text, table: &Table, content: &Content, key: Key) -> Verdict {
    let places = places(table, key);
    let answer = calls::query(&content.words, key);
    let looked_at = answer.map_or(0, |lookup| lookup.buckets as usize);
    let marked = answer.ok().and_then(|lookup| lookup.found).map(|found| found.slot.word);

    let (mut lines, verdict) = answer_lines(answer, hidden_by_tag(table, &places, key));
    lines.push(format!("buckets looked at: {looked_at} of {}", places.len()));
    lines.extend(unsound_line(&content.words));
    text.part("answer", lines);
    let drawn =
        places.iter().enumerate().flat_map(|(at, place)| place_lines(table, *place, at, looked_at, marked));
    text.part("places, in the order in which they are looked at", drawn.collect());
    verdict
}

/// Where the key stands in one of its places, with a tag that is not its own: in words.
fn hidden_by_tag(table: &Table, places: &[Place], key: Key) -> Option<String> {
    let mut slots = places.iter().flat_map(|place| Slot::all_of(place.bucket));
    let hidden = slots.find(|&slot| table.key(slot) == key.word() && tags::is_wrong(table, slot))?;
    let tag = tags::hexadecimal(table.tag_in(hidden));
    Some(format!("absent: the key stands in {}, but its tag there is {tag}", slot_words(table, hidden)))
}

fn answer_lines(answer: Result<Lookup, Refusal>, hidden: Option<String>) -> (Vec<String>, Verdict) {
    let found = match answer {
        Ok(Lookup { found: Some(found), .. }) => found,
        Ok(Lookup { found: None, .. }) => {
            let nowhere = || "absent: the key stands in none of its places".to_string();
            return (vec![hidden.unwrap_or_else(nowhere)], Verdict::Absent);
        }
        Err(refusal) => return (vec![refusal_line(refusal)], Verdict::RecoveryFirst),
    };
    let (record, slot) = (found.record, found.slot);
    let byte = BYTES_PER_WORD * slot.word as u64;
    let lines = vec![
        format!("found: function {}, place {}", record.function, record.place),
        format!(
            "where: word {}, byte {byte} of the file, in the {} level; marked {MARKED} below",
            slot.word, slot.level
        ),
    ];
    (lines, Verdict::Found)
}

/// A query does not judge the table: a key may stand twice, or be absent since it stands in a wrong place.
fn unsound_line(words: &[u64]) -> Option<String> {
    let is_sound = calls::recover(words).map_or(false, |list| list.count() == 0);
    let hint = "the table is not sound: without --key this program tells why, and what recovery would do";
    (!is_sound).then(|| hint.to_string())
}

fn refusal_line(refusal: Refusal) -> String {
    format!("refused: {refusal}")
}

fn place_lines(
    table: &Table,
    place: Place,
    at: usize,
    looked_at: usize,
    marked: Option<usize>,
) -> Vec<String> {
    let Place { level, bucket } = place;
    let not = if at < looked_at { "" } else { "not " };
    let (picture, token) = (picture(table, bucket, marked), token_words(table, bucket));
    let title = format!("{}. {level} bucket {bucket} {picture}, {not}looked at; {token}", at + 1);
    let slots = slot_lines(table, bucket, marked).map(|line| format!("   {line}"));
    std::iter::once(title).chain(slots).collect()
}
