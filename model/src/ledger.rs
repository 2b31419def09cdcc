//! The sample ledger of document 02, request d): who is credited with how many samples.

use std::collections::HashMap;
use std::io::{self, BufRead, Write};

use crate::calls;
use crate::event::Event;
use crate::refusal::SUCCESS;
use crate::script_events::{op_of, perform, read_made_table, read_request, Op, LARGEST_PROGRAM_CAPACITY};
use crate::script_lines::{number_of, Lines, LONGEST_LEDGER_LINE};
use crate::script_stop::{end_output, Stop};

/// "The first 512 different functions in input order are counted".
pub const MOST_COUNTED_FUNCTIONS: usize = 512;

/// Reads a script and its samples and writes the report. Nothing is written before the whole input was read, as a
/// bad line anywhere leaves nothing else to tell.
pub fn run(input: impl BufRead, mut output: impl Write) -> io::Result<()> {
    let mut lines = Lines::new(input, LONGEST_LEDGER_LINE);
    let outcome = read_report(&mut lines).and_then(|report| Ok(write_report(&report, &mut output)?));
    end_output(outcome, output)
}

enum Report {
    /// Recovery refused the table, with this number.
    NotRecovered(u64),
    Counted(Counts),
}

#[derive(Default)]
struct Counts {
    samples: u64,
    /// The samples whose key has no record.
    none: u64,
    /// Never more than the most that are counted, so that the memory stays bounded.
    by_function: HashMap<u64, u64>,
    /// The samples of functions that came too late to be counted.
    other: u64,
    buckets: u64,
}

/// How a line begins that stands where an event line could.
enum Opening {
    Event(Op),
    Sample { key: u64 },
}

fn read_report(lines: &mut Lines<impl BufRead>) -> Result<Report, Stop> {
    let mut table = read_made_table(lines, LARGEST_PROGRAM_CAPACITY)?;
    let first_key = run_events(lines, &mut table)?;
    let recovered = Event::Recover.perform_whole(&mut table);
    if recovered != SUCCESS {
        return Ok(Report::NotRecovered(recovered));
    }
    count_samples(first_key, lines, &table).map(Report::Counted)
}

/// Runs the script's events up to the first sample, whose key it answers; none where the input ends without one.
fn run_events(lines: &mut Lines<impl BufRead>, table: &mut [u64]) -> Result<Option<u64>, Stop> {
    while let Some(opening) = lines.parsed_unless_over(opening_of)? {
        match opening {
            Opening::Event(op) => {
                // "Script answers are not printed."
                let _answer = perform(read_request(op, lines)?, table);
            }
            Opening::Sample { key } => return Ok(Some(key)),
        }
    }
    Ok(None)
}

/// None for a bad line. A line that starts with `sample=` and has no good number is bad, wherever it stands.
fn opening_of(line: &[u8]) -> Option<Opening> {
    match number_of(line, "sample") {
        Some(key) => Some(Opening::Sample { key }),
        None => op_of(line).map(Opening::Event),
    }
}

/// "from there on every line is a sample line, and any other is bad".
fn count_samples(first: Option<u64>, lines: &mut Lines<impl BufRead>, table: &[u64]) -> Result<Counts, Stop> {
    let mut counts = Counts::default();
    let mut next = first;
    while let Some(key) = next {
        counts.add_sample(table, key);
        next = lines.number_unless_over("sample")?;
    }
    Ok(counts)
}

impl Counts {
    fn add_sample(&mut self, table: &[u64], key: u64) {
        let (number, [function, _place, probes, ..]) = calls::query(table, key);
        self.samples += 1;
        self.buckets += probes;
        // A recovered table refuses a query for one reason only: the key has no record.
        if number == SUCCESS {
            self.credit(function);
        } else {
            self.none += 1;
        }
    }

    fn credit(&mut self, function: u64) {
        if let Some(count) = self.by_function.get_mut(&function) {
            *count += 1;
        } else if self.by_function.len() < MOST_COUNTED_FUNCTIONS {
            self.by_function.insert(function, 1);
        } else {
            self.other += 1;
        }
    }
}

fn write_report(report: &Report, output: &mut impl Write) -> io::Result<()> {
    match report {
        Report::NotRecovered(number) => writeln!(output, "answer={number}"),
        Report::Counted(counts) => write_counts(counts, output),
    }
}

fn write_counts(counts: &Counts, output: &mut impl Write) -> io::Result<()> {
    write!(output, "samples={}\nnone={}\n", counts.samples, counts.none)?;
    let mut by_function: Vec<_> = counts.by_function.iter().collect();
    by_function.sort_unstable();
    for (function, count) in by_function {
        writeln!(output, "fn{function}={count}")?;
    }
    write!(output, "other={}\nbuckets={}\n", counts.other, counts.buckets)
}
