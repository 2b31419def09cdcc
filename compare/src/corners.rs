//! The answers of the model to the input of the proved program `corners`, in that program's text: `crates/corners/src/main.rt` tells what
//! each line asks for.

use std::fmt::{Display, Write};
use std::str::FromStr;

use ragansils_model::{Event, Slot, Table};

use crate::case::{run_model, Call, Case, Outcome};

/// What lent words hold before a call, so that a word which the call has written is seen.
const UNWRITTEN: u64 = 77;
/// The words that can be lent; a line that asks for more is passed over.
const TABLE_ROOM: u64 = 413;
const LIST_ROOM: u64 = 24;

/// A line that is not understood, by its number from 1.
#[derive(Debug, PartialEq, Eq)]
pub struct BadLine(usize);

impl Display for BadLine {
    fn fmt(&self, out: &mut std::fmt::Formatter) -> std::fmt::Result {
        write!(out, "line {} of the input is not understood", self.0)
    }
}

/// Each line of the input as it stands, with the model's answers after it.
pub fn answers(input: &str) -> Result<String, BadLine> {
    let mut lent = Lent { table: vec![], list: vec![] };
    let mut text = String::new();
    for (index, line) in input.lines().enumerate() {
        if let Some(answer) = lent.answer_to(line).ok_or(BadLine(index + 1))? {
            text.extend([line, &answer, "\n"]);
        }
    }
    Ok(text)
}

struct Lent {
    table: Vec<u64>,
    list: Vec<u64>,
}

impl Lent {
    /// What is written after a line; nothing where the line is passed over, and none where it is not understood.
    fn answer_to(&mut self, line: &str) -> Option<Option<String>> {
        let mut parts = line.split(' ');
        let word = parts.next()?;
        if word.is_empty() || word.starts_with('#') {
            return Some(Some(String::new()));
        }
        let numbers = parts.map(|part| u64::from_str(part).ok()).collect::<Option<Vec<u64>>>()?;
        match (word, &numbers[..]) {
            ("Table", &[words]) => return Some(lend(&mut self.table, words, TABLE_ROOM)),
            ("List", &[words]) => return Some(lend(&mut self.list, words, LIST_ROOM)),
            ("Word", &[index, value]) => put(&mut self.table, index, value),
            ("Give", &[index, value]) => put(&mut self.list, index, value),
            _ => return self.told(word, &numbers).map(Some),
        }
        Some(Some(String::new()))
    }

    fn told(&mut self, word: &str, numbers: &[u64]) -> Option<String> {
        Some(match (word, numbers) {
            ("view", &[from, to]) => words_text(in_range(&self.table, from, to)),
            ("pairs", []) => words_text(&self.list),
            ("create", &[form, c, k, mul1, mul2]) => self.made(Call::Create { form, c, k, mul1, mul2 }),
            ("make", &[n]) => self.made(Call::Make { n }),
            ("query", &[key]) => self.queried(key),
            ("all", &[key, function, place]) => self.every(key, function, place),
            ("insert", &[key, function, place]) => self.listed(Event::Insert { key, function, place }),
            ("update", &[key, function, place]) => self.listed(Event::Update { key, function, place }),
            ("delete", &[key]) => self.listed(Event::Delete { key }),
            ("begin", []) => self.listed(Event::Begin),
            ("halve", []) => self.listed(Event::Shrink),
            ("turn", []) => self.listed(Event::Back),
            ("step", []) => self.listed(Event::Step),
            ("end", []) => self.listed(Event::End),
            ("recover", []) => self.listed(Event::Recover),
            _ => return None,
        })
    }

    fn run(&self, call: Call) -> Outcome {
        run_model(&Case { call, table: self.table.clone(), list: self.list.clone() })
    }

    /// Create and make: the answer is a number, and the table is another afterwards.
    fn made(&mut self, call: Call) -> String {
        let outcome = self.run(call);
        self.table = outcome.table;
        format!(": {}", outcome.number)
    }

    /// The number, function and place, the buckets looked at, and the slot's word and level.
    fn queried(&self, key: u64) -> String {
        let outcome = self.run(Call::Query { key });
        words_text(&[&[outcome.number], &outcome.answer[..]].concat())
    }

    /// A call that lists stores: its number, how many they are, and every word of the list that is theirs or was written.
    fn listed(&mut self, event: Event) -> String {
        self.list.fill(UNWRITTEN);
        let outcome = self.run(Call::Change(event));
        let stores = outcome.stores();
        let is_told = |&(index, &word): &(usize, &u64)| index as u64 / 2 < stores || word != UNWRITTEN;
        let written = outcome.list.iter().enumerate().filter(is_told).map(|(_, &word)| word);
        let words: Vec<u64> = [outcome.number, stores].into_iter().chain(written).collect();
        let placing = if event == Event::Step { self.placing(&outcome) } else { String::new() };
        self.list = outcome.list;
        words_text(&words) + &placing
    }

    /// Query, and then each call that lists stores, all on the same table.
    fn every(&mut self, key: u64, function: u64, place: u64) -> String {
        let events = [
            Event::Insert { key, function, place },
            Event::Update { key, function, place },
            Event::Delete { key },
            Event::Begin,
            Event::Shrink,
            Event::Back,
            Event::Step,
            Event::End,
            Event::Recover,
        ];
        let queried = self.queried(key);
        events.into_iter().fold(queried, |text, event| text + &self.listed(event))
    }

    /// A step's placing, read off its stores. Those of a put begin with a slot's key word; where an item moves, its five stores come
    /// before the put.
    fn placing(&self, step: &Outcome) -> String {
        let slot = |store: usize| self.slot_text(step.list[2 * store]);
        match step.stores() {
            0 => " nowhere".to_string(),
            5 => format!(" free{}", slot(0)),
            _ => format!(" move{}{}", slot(5), slot(0)),
        }
    }

    /// The slot with this key word: level, bucket and slot, by their numbers. A placing uses top and bottom only.
    fn slot_text(&self, key_word: u64) -> String {
        let table = Table::read(&self.table).expect("a table that was stepped has a good header");
        let levels = [table.top(), table.bottom()];
        let slots = levels.iter().enumerate().flat_map(|(number, level)| {
            level.buckets().flat_map(Slot::all_of).map(move |slot| (number, slot))
        });
        let mut found = slots.filter(|(_, slot)| slot.key_word() as u64 == key_word);
        let (level, slot) = found.next().expect("a put begins with the key word of a slot");
        format!(" {level} {} {}", slot.bucket, slot.number)
    }
}

/// Lends so many fresh words; nothing where there are not so many.
fn lend(words: &mut Vec<u64>, count: u64, room: u64) -> Option<String> {
    if count > room {
        return None;
    }
    *words = vec![UNWRITTEN; count as usize];
    Some(String::new())
}

/// Outside the words nothing is put.
fn put(words: &mut [u64], index: u64, value: u64) {
    if let Some(word) = usize::try_from(index).ok().and_then(|index| words.get_mut(index)) {
        *word = value;
    }
}

/// The words of a range, as far as they are there.
fn in_range(words: &[u64], from: u64, to: u64) -> &[u64] {
    let to = to.min(words.len() as u64) as usize;
    &words[to.min(from.min(to as u64) as usize)..to]
}

fn words_text(words: &[u64]) -> String {
    words.iter().fold(":".to_string(), |mut text, word| {
        write!(text, " {word}").expect("a string takes all text");
        text
    })
}

#[cfg(test)]
mod tests {
    use super::*;

    #[test]
    fn a_step_tells_its_placing() {
        let lines = "Table 100\nList 20\ncreate 1 2 1 1 1\nbegin\nmake 1\nstep\nquery 1\n";
        let told = "Table 100\nList 20\ncreate 1 2 1 1 1: 0\nbegin: 0 1 4 258\nmake 1: 0\nstep: 11 0 nowhere\nquery 1: 5 0 0 3 0 0\n";
        assert_eq!(answers(lines).as_deref(), Ok(told));
    }

    #[test]
    fn a_shrink_is_told_by_words_of_their_own() {
        let lines = "Table 100\nList 20\ncreate 1 2 2 1 1\nhalve\nmake 1\nhalve\nturn\nall 1 2 3\n";
        let told = answers(lines).unwrap();
        let last: Vec<&str> = told.lines().skip(3).collect();
        let every = "all 1 2 3: 5 0 0 3 0 0: 0 4 23 1 24 2 25 3 22 1: 5 0: 5 0: 7 0: 7 0: 0 1 4 258: 11 0 nowhere: 0 1 4 1: 0 0";
        assert_eq!(last, ["halve: 0 1 4 513", "make 1: 0", "halve: 7 0", "turn: 0 1 4 258", every]);
    }

    #[test]
    fn a_query_tells_where_its_key_stands() {
        let lines = "Table 48\nList 20\ncreate 1 1 1 4294967297 4294967297\ninsert 3 7 8\nmake 4\nquery 3\n";
        let told = answers(lines).unwrap();
        assert_eq!(told.lines().last(), Some("query 3: 0 7 8 1 36 0"));
    }

    #[test]
    fn a_creation_names_its_form() {
        let told = |create: &str| answers(&format!("Table 48\nList 20\n{create}\nview 0 1\n"));
        let ends_with = |create: &str, end: &str| assert!(told(create).unwrap().ends_with(end), "{create}");
        ends_with("create 1 1 1 1 1", "view 0 1: 1\n");
        ends_with("create 2 1 1 1 1", "view 0 1: 2\n");
        ends_with("create 3 1 1 1 1", "create 3 1 1 1 1: 13\nview 0 1: 77\n");
        assert_eq!(told("create 1 1 1 1"), Err(BadLine(3)));
        assert_eq!(told("create 1 1 1 1 1 1"), Err(BadLine(3)));
    }

    #[test]
    fn a_line_that_asks_for_too_many_words_is_passed_over() {
        assert_eq!(answers("Table 414\nList 25\n# more\n\npairs\n").as_deref(), Ok("# more\n\npairs:\n"));
    }

    #[test]
    fn an_unknown_line_is_told() {
        assert_eq!(answers("Table 48\nnothing 1\n"), Err(BadLine(2)));
        assert_eq!(answers("Table 18446744073709551616\n"), Err(BadLine(1)));
        assert_eq!(answers("query 1 2\n"), Err(BadLine(1)));
    }
}
