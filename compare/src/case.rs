//! One call over given words, and what it answers in the model.

use ragansils::{Lookup, Phase};
use ragansils_model as model;
use ragansils_model::{word, Event, Table};

use crate::chain::Chain;
use crate::two_tables::Told;

#[derive(Clone, Copy, Debug, PartialEq, Eq)]
pub enum Call {
    Create {
        form: u64,
        c: u64,
        k: u64,
        mul1: u64,
        mul2: u64,
    },
    Query {
        key: u64,
    },
    Chain(Chain),
    Change(Event),
    Make {
        n: u64,
    },
    /// To the other form, in a second table.
    Convert,
    /// Two calls: what is asked of the table and of an older one, and the part.
    Ask {
        key: u64,
    },
    /// The same of the table and of itself.
    AskTwice {
        key: u64,
    },
}

#[derive(Clone, Debug, PartialEq, Eq)]
pub struct Case {
    pub call: Call,
    pub table: Vec<u64>,
    /// The words lent beside the table: a list of stores, those for the records of a chain, the second table of a conversion, or
    /// the older of two tables that are asked.
    pub list: Vec<u64>,
}

/// A call's answer and what its buffers hold after it.
#[derive(Clone, Debug, PartialEq, Eq)]
pub struct Outcome {
    pub number: u64,
    /// The query's five words, the chain's count of buckets, the conversion's key, what two tables tell, a changing call's number of
    /// stores and, of a step from a start, the bucket told; else nothing.
    pub answer: Vec<u64>,
    pub table: Vec<u64>,
    pub list: Vec<u64>,
}

impl Call {
    pub fn name(self) -> &'static str {
        match self {
            Call::Create { .. } => "create",
            Call::Query { .. } => "query",
            Call::Chain(_) => "chain",
            Call::Make { .. } => "make",
            Call::Convert => "convert",
            Call::Ask { .. } => "ask",
            Call::AskTwice { .. } => "ask_twice",
            Call::Change(event) => event_name(event),
        }
    }

    pub fn answer_words(self) -> usize {
        match self {
            Call::Create { .. } | Call::Make { .. } => 0,
            Call::Query { .. } => Lookup::WORDS,
            Call::Change(Event::StepFrom { .. }) => 2,
            Call::Chain(_) | Call::Change(_) | Call::Convert => 1,
            Call::Ask { .. } | Call::AskTwice { .. } => Told::WORDS,
        }
    }
}

/// The phase of a table; none where the words are no table with a good header.
pub fn phase_of(table: &[u64]) -> Option<Phase> {
    Table::read(table).ok()?;
    Phase::of_state(table[word::STATE])
}

/// Whether words are those of a table that grows or shrinks.
pub fn is_resizing(table: &[u64]) -> bool {
    matches!(phase_of(table), Some(Phase::Growing | Phase::Shrinking))
}

/// The name scripts and counts use.
pub fn event_name(event: Event) -> &'static str {
    match event {
        Event::Insert { .. } => "insert",
        Event::Update { .. } => "update",
        Event::Delete { .. } => "delete",
        Event::Begin => "begin",
        Event::Shrink => "shrink",
        Event::Back => "back",
        Event::Step => "step",
        Event::StepFrom { .. } => "step_from",
        Event::End => "end",
        Event::Recover => "recover",
    }
}

impl Outcome {
    /// The number of stores a changing call or recovery reports.
    pub fn stores(&self) -> u64 {
        self.answer.first().copied().unwrap_or(0)
    }

    /// The bucket that a step from a start tells; 0 for other calls.
    pub fn bucket(&self) -> u64 {
        self.answer.get(1).copied().unwrap_or(0)
    }
}

pub fn run_model(case: &Case) -> Outcome {
    let (mut table, mut list) = (case.table.clone(), case.list.clone());
    let (number, answer) = match case.call {
        Call::Create { form, c, k, mul1, mul2 } => {
            (model::create(&mut table, form, c, k, mul1, mul2), vec![])
        }
        Call::Make { n } => (model::make(&mut table, &list, n), vec![]),
        Call::Query { key } => {
            let (number, answer) = model::query(&table, key);
            (number, answer.to_vec())
        }
        Call::Chain(Chain { address, depth }) => {
            let (number, buckets) = model::chain(&table, address, depth, &mut list);
            (number, vec![buckets])
        }
        Call::Convert => {
            let (number, key) = model::convert(&table, &mut list);
            (number, vec![key])
        }
        Call::Ask { key } => two_tables_answer(&table, &list, key),
        Call::AskTwice { key } => two_tables_answer(&table, &table, key),
        Call::Change(Event::StepFrom { from }) => {
            let (number, answer) = model::step_from(&table, from, &mut list);
            (number, answer.to_vec())
        }
        Call::Change(event) => {
            let (number, stores) = event.list_stores(&table, &mut list);
            (number, vec![stores])
        }
    };
    Outcome { number, answer, table, list }
}

fn two_tables_answer(newer: &[u64], older: &[u64], key: u64) -> (u64, Vec<u64>) {
    let told = Told::by_model(newer, older, key);
    (told.number, told.words().to_vec())
}

/// Says what differs between the library's outcome and the model's.
pub fn difference(library: &Outcome, model: &Outcome) -> Option<String> {
    if library.number != model.number {
        return Some(format!("answer: library {}, model {}", library.number, model.number));
    }
    let parts = [
        ("answer", &library.answer, &model.answer),
        ("table", &library.table, &model.table),
        ("list", &library.list, &model.list),
    ];
    parts.iter().find_map(|(name, library, model)| {
        let index = (0..library.len()).find(|&index| library[index] != model[index])?;
        Some(format!("{name} word {index}: library {}, model {}", library[index], model[index]))
    })
}
