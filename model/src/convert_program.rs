//! The program over request h) of document 02: whether the table of a script can be moved to form 2, and back.

use std::io::{self, BufRead, Write};

use crate::converting::convert;
use crate::refusal::SUCCESS;
use crate::script_events::{next_request, perform, read_made_table};
use crate::script_lines::{Lines, LONGEST_LINE};
use crate::script_stop::{end_output, Stop};

/// "A program over this is limited to cap 7 so that both fit."
pub const LARGEST_CONVERT_CAPACITY: u64 = 7;

/// Reads a script to its end and converts the table that it leaves. Nothing is written before that, as a bad line
/// anywhere leaves nothing else to tell.
pub fn run(input: impl BufRead, mut output: impl Write) -> io::Result<()> {
    let mut lines = Lines::new(input, LONGEST_LINE);
    let outcome = read_script(&mut lines).and_then(|table| Ok(write_both_ways(&table, &mut output)?));
    end_output(outcome, output)
}

/// The table that the script leaves. It is not recovered.
fn read_script(lines: &mut Lines<impl BufRead>) -> Result<Vec<u64>, Stop> {
    let mut table = read_made_table(lines, LARGEST_CONVERT_CAPACITY)?;
    while let Some(request) = next_request(lines)? {
        // Script answers are not printed.
        let _answer = perform(request, &mut table);
    }
    Ok(table)
}

/// The way to form 2, and where that is accepted the way back.
fn write_both_ways(table: &[u64], output: &mut impl Write) -> io::Result<()> {
    let (number, converted) = write_way(table, output)?;
    if number == SUCCESS {
        write_way(&converted, output)?;
    }
    Ok(())
}

/// Writes what the conversion answers; gives the number and the new table.
fn write_way(table: &[u64], output: &mut impl Write) -> io::Result<(u64, Vec<u64>)> {
    let mut second = vec![0; table.len()];
    let (number, key) = convert(table, &mut second);
    write!(output, "answer={number}\nkey={key}\n")?;
    Ok((number, second))
}
