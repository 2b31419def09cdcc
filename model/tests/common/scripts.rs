//! Scripts and the programs that read them. Lines are joined by commas in most tests, as in document 01.

use ragansils_model::{run_convert, run_ledger, run_script};
use std::io::{self, BufRead, Read, Write};

/// The table of the marked examples, four lines: a key has one place in the top, its last bit, and one in the bottom.
pub const HEADER: &str = "cap=2\ntop=1\nmul1=4294967297\nmul2=12884901889\n";

/// With these multipliers a key's first place is its upper half, and its second place the sum of its halves, so that
/// a test may choose both. `key_with_halves` makes such a key.
pub const CHOSEN_PLACES: &str = "mul1=1,mul2=4294967297,";

/// Lines behind the header that every program finds bad, and the number of the bad one.
pub const BAD_BEHIND_HEADER: [(&str, u64); 20] = [
    ("op=nonsense,", 5),
    ("op=begin\r,", 5),
    ("key=1,", 5),
    (",", 5),
    ("cap=2,", 5),
    ("op=", 5),
    ("op=begin", 5),
    ("s,", 5),
    ("samples=1,", 5),
    ("Sample=1,", 5),
    ("op=query,", 6),
    ("op=query,key=1", 6),
    ("op=insert,key=1,fn=2,", 8),
    ("op=insert,key=1,fn=2,at=3", 8),
    ("op=insert,key=1,fn=18446744073709551616,at=3,op=begin,", 7),
    ("op=cut,", 6),
    ("op=cut,after=01,op=begin,", 6),
    ("op=begin,op=cut,after=1,", 6),
    ("op=begin,op=cut,after=1,op=begin", 6),
    ("op=begin,op=cut,after=1,op=query,key=1,", 6),
];

/// A program that reads a script.
pub struct Program(pub fn(&mut dyn BufRead, &mut dyn Write) -> io::Result<()>);

pub const SCRIPT: Program = Program(|input, output| run_script(input, output));
pub const LEDGER: Program = Program(|input, output| run_ledger(input, output));
pub const CONVERT: Program = Program(|input, output| run_convert(input, output));

impl Program {
    /// Whether it ended without an error, and what it wrote.
    pub fn read(&self, mut input: impl BufRead) -> (bool, String) {
        let Program(program) = self;
        let mut output = Vec::new();
        let answer = program(&mut input, &mut output);
        (answer.is_ok(), String::from_utf8(output).unwrap())
    }

    pub fn run(&self, input: impl AsRef<[u8]>) -> String {
        let (ended_well, output) = self.read(input.as_ref());
        assert!(ended_well);
        output
    }

    /// Takes and gives lines joined by commas.
    pub fn commas(&self, input: &str) -> String {
        self.run(input.replace(',', "\n")).replace('\n', ",")
    }

    pub fn after_header(&self, lines: &str) -> String {
        self.commas(&format!("{HEADER}{lines}"))
    }

    /// Takes lines joined by commas, and fails where it reads on behind them.
    pub fn read_before_unreadable(&self, input: &str) -> (bool, String) {
        self.read(input.replace(',', "\n").as_bytes().chain(Unreadable))
    }
}

/// Four lines.
pub fn insert_lines(key: u64, function: u64) -> String {
    format!("op=insert,key={key},fn={function},at=0,")
}

/// The header with these four numbers, which are joined by commas too.
pub fn header_lines(numbers: &str) -> String {
    let names = ["cap", "top", "mul1", "mul2"].into_iter();
    names.zip(numbers.split(',')).map(|(name, number)| format!("{name}={number},")).collect()
}

/// Headers that every program finds bad, and the number of the bad line. Their lines are joined by newlines.
pub fn bad_headers() -> Vec<(String, usize)> {
    let good = ["cap=2", "top=1", "mul1=1", "mul2=1"];
    let mut headers = vec![];
    for number in 1..=4 {
        let before: String = good[..number - 1].iter().map(|line| format!("{line}\n")).collect();
        let name = good[number - 1].split_once('=').unwrap().0;
        // Missing, torn twice, wrong, a sample, an event, an empty line.
        for bad in ["", name, good[number - 1], "cup=1\n", "sample=1\n", "op=begin\n", "\n"] {
            headers.push((format!("{before}{bad}"), number));
        }
        // A bad number, and behind it nothing is looked at.
        headers.push((format!("{before}{name}=01\nsample=1\nnonsense\n"), number));
    }
    headers
}

/// Any reading of it fails.
struct Unreadable;

impl Read for Unreadable {
    fn read(&mut self, _buffer: &mut [u8]) -> io::Result<usize> {
        Err(io::Error::new(io::ErrorKind::Other, "read too far"))
    }
}

impl BufRead for Unreadable {
    fn fill_buf(&mut self) -> io::Result<&[u8]> {
        Err(io::Error::new(io::ErrorKind::Other, "read too far"))
    }

    fn consume(&mut self, _bytes: usize) {}
}
