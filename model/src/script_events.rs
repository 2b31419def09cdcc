//! The header and the events of a script: read from its lines and performed on its table. The script program prints
//! their answers; the ledger and the convert program only want the table that they leave.

use std::io::BufRead;

use crate::calls;
use crate::event::Event;
use crate::form::Form;
use crate::layout::table_words;
use crate::refusal::{Refusal, SUCCESS};
use crate::script_lines::{value_of, Line, Lines};
use crate::script_stop::Stop;

/// The limit of the script program and the ledger; it keeps their memory small.
pub const LARGEST_PROGRAM_CAPACITY: u64 = 8;

/// What an `op=` line names.
#[derive(Clone, Copy)]
pub enum Op {
    Query,
    Cut,
    Change(Change),
}

/// The events that a cut line may stand before: "a changing event or recover".
#[derive(Clone, Copy)]
pub enum Change {
    Insert,
    Update,
    Delete,
    Begin,
    Shrink,
    Back,
    Step,
    End,
    Recover,
}

/// One whole event of a script.
pub enum Request {
    Query { key: u64 },
    Change { event: Event, cut: Option<u64> },
}

/// What an event answers.
pub enum Answer {
    /// The words are those of the call, in its order.
    Query { number: u64, words: [u64; 5] },
    /// `kept` is there only under a cut line.
    Change { number: u64, stores: u64, kept: Option<u64> },
}

/// Reads the header and makes its table; answers the number of the making too. A `cap` above the largest is refused
/// like one that no table has.
pub fn read_table(lines: &mut Lines<impl BufRead>, largest_cap: u64) -> Result<(u64, Vec<u64>), Stop> {
    // All four lines are read before any of them is judged as a table's.
    let cap = lines.number("cap")?;
    let top = lines.number("top")?;
    let mul1 = lines.number("mul1")?;
    let mul2 = lines.number("mul2")?;
    if cap > largest_cap {
        return Ok((Refusal::BadCreation.number(), vec![]));
    }
    Ok(make_table(cap, top, mul1, mul2))
}

/// The same for the programs that a refused header ends. They tell its number and nothing else.
pub fn read_made_table(lines: &mut Lines<impl BufRead>, largest_cap: u64) -> Result<Vec<u64>, Stop> {
    match read_table(lines, largest_cap)? {
        (SUCCESS, table) => Ok(table),
        (refused, _) => Err(Stop::NotMade(refused)),
    }
}

fn make_table(cap: u64, top: u64, mul1: u64, mul2: u64) -> (u64, Vec<u64>) {
    let mut table = vec![0; table_words(cap).unwrap_or(0)];
    // "scripts make form 1".
    (calls::create(&mut table, Form::One.word(), cap, top, mul1, mul2), table)
}

/// What a line that begins an event names; none for any other line.
pub fn op_of(line: &[u8]) -> Option<Op> {
    Some(match value_of(line, "op")? {
        b"query" => Op::Query,
        b"cut" => Op::Cut,
        b"insert" => Op::Change(Change::Insert),
        b"update" => Op::Change(Change::Update),
        b"delete" => Op::Change(Change::Delete),
        b"begin" => Op::Change(Change::Begin),
        b"shrink" => Op::Change(Change::Shrink),
        b"back" => Op::Change(Change::Back),
        b"step" => Op::Change(Change::Step),
        b"end" => Op::Change(Change::End),
        b"recover" => Op::Change(Change::Recover),
        _ => return None,
    })
}

/// The next event with all its lines; none where the input ends after whole events.
pub fn next_request(lines: &mut Lines<impl BufRead>) -> Result<Option<Request>, Stop> {
    match lines.parsed_unless_over(op_of)? {
        Some(op) => read_request(op, lines).map(Some),
        None => Ok(None),
    }
}

/// Reads the lines that follow an `op=` line.
pub fn read_request(op: Op, lines: &mut Lines<impl BufRead>) -> Result<Request, Stop> {
    match op {
        Op::Query => Ok(Request::Query { key: lines.number("key")? }),
        Op::Cut => read_cut_request(lines),
        Op::Change(change) => Ok(Request::Change { event: read_change(change, lines)?, cut: None }),
    }
}

/// What follows an `op=cut` line: `after=`, then a changing event or recover.
fn read_cut_request(lines: &mut Lines<impl BufRead>) -> Result<Request, Stop> {
    let cut_line = lines.line_number();
    let after = lines.number("after")?;
    let op = match lines.next_line()? {
        Line::Ended(line) => op_of(line),
        Line::Unfit | Line::Missing => None,
    };
    match op {
        Some(Op::Change(change)) => {
            Ok(Request::Change { event: read_change(change, lines)?, cut: Some(after) })
        }
        _ => Err(Stop::BadLine(cut_line)),
    }
}

fn read_change(change: Change, lines: &mut Lines<impl BufRead>) -> Result<Event, Stop> {
    Ok(match change {
        Change::Insert => {
            let [key, function, place] = read_item(lines)?;
            Event::Insert { key, function, place }
        }
        Change::Update => {
            let [key, function, place] = read_item(lines)?;
            Event::Update { key, function, place }
        }
        Change::Delete => Event::Delete { key: lines.number("key")? },
        Change::Begin => Event::Begin,
        Change::Shrink => Event::Shrink,
        Change::Back => Event::Back,
        Change::Step => Event::Step,
        Change::End => Event::End,
        Change::Recover => Event::Recover,
    })
}

fn read_item(lines: &mut Lines<impl BufRead>) -> Result<[u64; 3], Stop> {
    Ok([lines.number("key")?, lines.number("fn")?, lines.number("at")?])
}

/// Performs one event on the table.
pub fn perform(request: Request, table: &mut [u64]) -> Answer {
    match request {
        Request::Query { key } => {
            let (number, words) = calls::query(table, key);
            Answer::Query { number, words }
        }
        Request::Change { event, cut } => {
            let (number, [stores, kept]) = event.perform(cut.unwrap_or(u64::MAX), table);
            Answer::Change { number, stores, kept: cut.map(|_| kept) }
        }
    }
}
