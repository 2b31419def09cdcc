//! The script program of document 01.

use std::io::{self, BufRead, Write};

use crate::refusal::SUCCESS;
use crate::script_events::{next_request, perform, read_table, Answer, LARGEST_PROGRAM_CAPACITY};
use crate::script_lines::{Lines, LONGEST_LINE};
use crate::script_stop::{end_output, Stop};

/// What the words of a query are called, in the order in which the call answers them.
const QUERY_NAMES: [&str; 5] = ["fn", "at", "probes", "word", "level"];

/// Runs a script. Answers are written as they come, so they stay when a bad line stops the run.
pub fn run<R: BufRead, W: Write>(input: R, mut output: W) -> io::Result<()> {
    let mut lines = Lines::new(input, LONGEST_LINE);
    let outcome = run_lines(&mut lines, &mut output);
    end_output(outcome, output)
}

fn run_lines(lines: &mut Lines<impl BufRead>, output: &mut impl Write) -> Result<(), Stop> {
    let (made, mut table) = read_table(lines, LARGEST_PROGRAM_CAPACITY)?;
    writeln!(output, "made={made}")?;
    let mut events = 0u64;
    if made == SUCCESS {
        while let Some(request) = next_request(lines)? {
            write_answer(perform(request, &mut table), output)?;
            events += 1;
        }
    }
    writeln!(output, "events={events}")?;
    Ok(())
}

fn write_answer(answer: Answer, output: &mut impl Write) -> io::Result<()> {
    match answer {
        Answer::Query { number, words } => {
            writeln!(output, "answer={number}")?;
            QUERY_NAMES.iter().zip(words).try_for_each(|(name, word)| writeln!(output, "{name}={word}"))
        }
        Answer::Change { number, stores, kept } => {
            write!(output, "answer={number}\nstores={stores}\n")?;
            match kept {
                Some(kept) => writeln!(output, "kept={kept}"),
                None => Ok(()),
            }
        }
    }
}
