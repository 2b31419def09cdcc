//! The proved library behind its C interface. Every buffer stands between
//! guard words, which are checked after each call.

use ragansils::raw;
use ragansils_model::Event;

use crate::case::{Call, Case, Outcome};
use crate::chain::{Chain, DEPTH_LIMIT};
use crate::two_tables::TwoTables;

const GUARD_WORDS: usize = 16;

/// As many as the longest chain takes.
const GUARD_WORDS_OF_CHAINS: usize = 2 * DEPTH_LIMIT as usize;

/// What answer buffers hold before a call, to see that each word is written.
pub const UNWRITTEN: u64 = 0x5a5a_0bad_0bad_a5a5;

/// Words lent to the library, with guard words on both sides.
pub struct Guarded {
    words: Vec<u64>,
    /// How many guard words stand on each side.
    guard: usize,
}

impl Guarded {
    pub fn new(content: &[u64]) -> Guarded {
        Guarded::between(GUARD_WORDS, content)
    }

    fn between(guard: usize, content: &[u64]) -> Guarded {
        let mut words: Vec<u64> = (0..guard).map(guard_word).collect();
        words.extend_from_slice(content);
        words.extend((0..guard).map(guard_word));
        Guarded { words, guard }
    }

    pub fn length(&self) -> usize {
        self.words.len() - 2 * self.guard
    }

    /// Both kinds of pointer come from the one writable buffer, so that even a
    /// library that breaks its promise to only read is seen, not undefined.
    pub fn pointer(&mut self) -> *mut u64 {
        self.words[self.guard..].as_mut_ptr()
    }

    pub fn content(&self) -> &[u64] {
        &self.words[self.guard..][..self.length()]
    }

    /// As many words as there are.
    pub fn fill(&mut self, content: &[u64]) {
        let length = self.length();
        self.words[self.guard..][..length].copy_from_slice(content);
    }

    pub fn intact(&self) -> bool {
        let before = &self.words[..self.guard];
        let after = &self.words[self.guard + self.length()..];
        [before, after].iter().all(|side| side.iter().enumerate().all(|(i, &w)| w == guard_word(i)))
    }
}

fn guard_word(index: usize) -> u64 {
    0xc0de_c0de_0000_0000 + index as u64
}

struct Lent {
    table: Guarded,
    list: Guarded,
    /// The query's answer, the chain's count of buckets, the conversion's key, or the number of stores, with the bucket told by a step from
    /// a start.
    answer: Guarded,
}

/// Runs a case through the library; an error says which guard words were touched.
pub fn run(case: &Case) -> Result<Outcome, String> {
    match case.call {
        Call::Ask { key } => run_two_tables(TwoTables::apart(&case.table, &case.list), key),
        Call::AskTwice { key } => run_two_tables(TwoTables::twice(&case.table), key)
            .map(|outcome| Outcome { list: case.list.clone(), ..outcome }),
        _ => run_one_table(case),
    }
}

fn run_two_tables(mut tables: TwoTables, key: u64) -> Result<Outcome, String> {
    let told = tables.ask(key);
    tables.check_guards()?;
    let (table, list) = (tables.newer().to_vec(), tables.older().to_vec());
    Ok(Outcome { number: told.number, answer: told.words().to_vec(), table, list })
}

fn run_one_table(case: &Case) -> Result<Outcome, String> {
    let answer_words = case.call.answer_words();
    let mut lent = Lent {
        table: Guarded::new(&case.table),
        list: Guarded::between(list_guard(case), &case.list),
        answer: Guarded::new(&vec![UNWRITTEN; answer_words]),
    };
    let number = call_library(case.call, &mut lent);
    for (name, buffer) in [("table", &lent.table), ("list", &lent.list), ("answer", &lent.answer)] {
        if !buffer.intact() {
            return Err(format!("the library wrote outside the {name}"));
        }
    }
    Ok(Outcome {
        number,
        answer: lent.answer.content().to_vec(),
        table: lent.table.content().to_vec(),
        list: lent.list.content().to_vec(),
    })
}

/// Where as much is written to fewer words as a call may ever write, the guard words are what is hit, so that no crash hides it.
fn list_guard(case: &Case) -> usize {
    match case.call {
        Call::Chain(_) => GUARD_WORDS_OF_CHAINS,
        Call::Convert => GUARD_WORDS + case.table.len().saturating_sub(case.list.len()),
        _ => GUARD_WORDS,
    }
}

fn call_library(call: Call, lent: &mut Lent) -> u64 {
    let (table, words) = (lent.table.pointer(), lent.table.length());
    let (list, list_words) = (lent.list.pointer(), lent.list.length());
    let answer = lent.answer.pointer();
    // SAFETY: each pointer is valid for the length handed over with it, the answer buffer has
    // the words the call writes, and no two of them overlap.
    unsafe {
        match call {
            Call::Create { form, c, k, mul1, mul2 } => {
                raw::ragansils_create(table, words, form, c, k, mul1, mul2)
            }
            Call::Query { key } => raw::ragansils_query(table, words, key, answer.cast()),
            Call::Chain(Chain { address, depth }) => {
                raw::ragansils_chain(table, words, address, depth, list, list_words, answer)
            }
            Call::Make { n } => raw::ragansils_make(table, words, list, list_words, n),
            Call::Convert => raw::ragansils_convert(table, words, list, list_words, answer),
            Call::Change(Event::StepFrom { from }) => {
                raw::ragansils_step_from(table, words, from, list, list_words, answer.cast())
            }
            Call::Change(event) => list_event(event, table, words, list, list_words, answer),
            Call::Ask { .. } | Call::AskTwice { .. } => unreachable!("two tables have buffers of their own"),
        }
    }
}

/// The call of an event, which lists its stores. The bucket that a step from a start tells is left out.
///
/// # Safety
/// As for the functions of [`raw`]: pointers are aligned and valid for the lengths beside them, and the buffers do not overlap.
#[inline(always)]
pub unsafe fn list_event(
    event: Event,
    table: *const u64,
    words: usize,
    list: *mut u64,
    list_words: usize,
    stores: *mut u64,
) -> u64 {
    match event {
        Event::Insert { key, function, place } => {
            raw::ragansils_insert(table, words, key, function, place, list, list_words, stores)
        }
        Event::Update { key, function, place } => {
            raw::ragansils_update(table, words, key, function, place, list, list_words, stores)
        }
        Event::Delete { key } => raw::ragansils_delete(table, words, key, list, list_words, stores),
        Event::Begin => raw::ragansils_begin(table, words, list, list_words, stores),
        Event::Shrink => raw::ragansils_shrink(table, words, list, list_words, stores),
        Event::Back => raw::ragansils_back(table, words, list, list_words, stores),
        Event::Step => raw::ragansils_step(table, words, list, list_words, stores),
        Event::StepFrom { from } => {
            let mut answer = [0; 2];
            let number = raw::ragansils_step_from(table, words, from, list, list_words, &mut answer);
            *stores = answer[0];
            number
        }
        Event::End => raw::ragansils_end(table, words, list, list_words, stores),
        Event::Recover => raw::ragansils_recover(table, words, list, list_words, stores),
    }
}
