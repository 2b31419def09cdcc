//! Reading the lines of a script, and of a ledger's samples, in constant memory.

use std::io::{BufRead, Read};

use crate::script_stop::Stop;

/// The bytes of the longest good line of a script: `after=`, twenty digits, a newline.
pub const LONGEST_LINE: usize = 27;

/// The bytes of the longest good line of a ledger: `sample=`, twenty digits, a newline.
pub const LONGEST_LEDGER_LINE: usize = 28;

pub enum Line<'a> {
    /// An ended line, without its newline.
    Ended(&'a [u8]),
    /// Bytes that no newline ends, or more of them than a good line has.
    Unfit,
    /// The input is over.
    Missing,
}

pub struct Lines<R> {
    input: R,
    /// No line with more bytes than this is good, so that no more are kept of any line.
    longest_line: usize,
    /// The line read last; kept to be used again for the next one.
    bytes: Vec<u8>,
    lines_read: u64,
}

impl<R: BufRead> Lines<R> {
    pub fn new(input: R, longest_line: usize) -> Lines<R> {
        Lines { input, longest_line, bytes: Vec::with_capacity(longest_line), lines_read: 0 }
    }

    pub fn next_line(&mut self) -> Result<Line<'_>, Stop> {
        self.lines_read += 1;
        self.bytes.clear();
        (&mut self.input).take(self.longest_line as u64).read_until(b'\n', &mut self.bytes)?;
        Ok(match self.bytes.split_last() {
            None => Line::Missing,
            Some((b'\n', line)) => Line::Ended(line),
            Some(_) => Line::Unfit,
        })
    }

    /// The next line must be `name=` and a number.
    pub fn number(&mut self, name: &str) -> Result<u64, Stop> {
        match self.number_unless_over(name)? {
            Some(number) => Ok(number),
            None => Err(self.bad_line()),
        }
    }

    /// The next line must be `name=` and a number; none where the input is over.
    pub fn number_unless_over(&mut self, name: &str) -> Result<Option<u64>, Stop> {
        self.parsed_unless_over(|line| number_of(line, name))
    }

    /// What `parse` makes of the next line, which is bad where it makes nothing; none where the input is over.
    pub fn parsed_unless_over<T>(
        &mut self,
        parse: impl FnOnce(&[u8]) -> Option<T>,
    ) -> Result<Option<T>, Stop> {
        let parsed = match self.next_line()? {
            Line::Missing => return Ok(None),
            Line::Ended(line) => parse(line),
            Line::Unfit => None,
        };
        match parsed {
            Some(parsed) => Ok(Some(parsed)),
            None => Err(self.bad_line()),
        }
    }

    /// The number of the line read last (or missed last).
    pub fn line_number(&self) -> u64 {
        self.lines_read
    }

    /// The line read last is the bad one.
    fn bad_line(&self) -> Stop {
        Stop::BadLine(self.lines_read)
    }
}

/// What stands after `name=`.
pub fn value_of<'a>(line: &'a [u8], name: &str) -> Option<&'a [u8]> {
    line.strip_prefix(name.as_bytes())?.strip_prefix(b"=")
}

/// The number that stands after `name=`.
pub fn number_of(line: &[u8], name: &str) -> Option<u64> {
    value_of(line, name).and_then(parse_number)
}

/// Decimal digits only, no leading zero, below 2^64.
fn parse_number(digits: &[u8]) -> Option<u64> {
    if digits.is_empty() || (digits.len() > 1 && digits[0] == b'0') {
        return None;
    }
    digits.iter().try_fold(0u64, |number, &byte| {
        if !byte.is_ascii_digit() {
            return None;
        }
        number.checked_mul(10)?.checked_add(u64::from(byte - b'0'))
    })
}
