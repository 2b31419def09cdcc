//! One long ledger through the ledger program and the model's, by turns: the same report, both times, and memory that stays the same.

use std::fmt::Display;
use std::fs::{self, File};
use std::io::{self, BufRead, BufReader, BufWriter, Write};
use std::path::{Path, PathBuf};
use std::process::{Child, Stdio};
use std::thread::sleep;
use std::time::{Duration, Instant};

use ragansils_model::{Event, LARGEST_PROGRAM_CAPACITY};

use crate::history::Setting;
use crate::ledger_text::{keys_after_recovery, often_the_first, MOST_COUNTED};
use crate::outputs::difference;
use crate::random::Random;
use crate::runner::{built, is_emulated};
use crate::say;
use crate::script_text::{Script, SCRIPT_FORM};

/// Runs of each program; the middle one counts.
const RUNS: usize = 3;

const FUNCTIONS: u64 = MOST_COUNTED as u64 + 188;
const KEYS: u64 = 1_000;
/// One sample in so many has no record.
const ABSENT_ONE_IN: u64 = 50;

/// With a long ledger the program may take so much more memory than with a short one, in KiB, and no more.
const SHORT_LEDGER: u64 = 1_000;
const MOST_GROWTH: u64 = 256;

/// For so long at most a program is waited for once it has its whole input.
const LONGEST_WAIT: Duration = Duration::from_secs(60);

pub struct LongLedger<'a> {
    pub samples: u64,
    pub seed: u64,
    pub program: &'a Path,
    pub model: &'a Path,
    /// Where the ledger is kept as long as this runs.
    pub folder: &'a Path,
}

/// What a program wrote, and how long it took, in seconds.
struct Run {
    report: Vec<u8>,
    time: f64,
}

impl LongLedger<'_> {
    /// Compares the reports and judges the memory; and the time where `most` says how often the model's it may be.
    pub fn run(&self, most: Option<f64>) -> Result<(), String> {
        let file = TemporaryFile(self.folder.join(format!("long-{}.ledger", std::process::id())));
        write_ledger(&file.0, self.samples, self.seed)
            .map_err(|error| format!("{}: {error}", file.0.display()))?;
        let bytes = fs::metadata(&file.0).map_or(0, |data| data.len());
        say!("long ledger: seed {}, {} samples, {bytes} bytes", self.seed, self.samples);
        let ratio = self.compare_times(&file.0)?;
        if is_emulated() {
            say!("memory is not measured: it is the emulator's");
        } else {
            self.judge_memory(&file)?;
        }
        match most {
            Some(most) if ratio > most => Err(format!(
                "the program takes {ratio:.2} times as long as the model, and not {most} at most"
            )),
            _ => Ok(()),
        }
    }

    fn program(&self) -> Reader<'_> {
        Reader { program: self.program, words: &[] }
    }

    fn model(&self) -> Reader<'_> {
        Reader { program: self.model, words: &["ledger"] }
    }

    /// Runs both by turns, and answers how often the model's time the program takes.
    fn compare_times(&self, file: &Path) -> Result<f64, String> {
        let (mut program_times, mut model_times) = (vec![], vec![]);
        for _ in 0..RUNS {
            let program = self.program().timed(file)?;
            let model = self.model().timed(file)?;
            if let Some(what) = difference(("program", &program.report), ("model", &model.report)) {
                return Err(what);
            }
            demand_sum(&program.report, self.samples)?;
            program_times.push(program.time);
            model_times.push(model.time);
        }
        let (program, model) = (median(program_times), median(model_times));
        let ratio = program / model;
        say!("seconds, the middle of {RUNS} runs: program {program:.2}, model {model:.2}; ratio {ratio:.2}");
        Ok(ratio)
    }

    fn judge_memory(&self, long: &TemporaryFile) -> Result<(), String> {
        let short = TemporaryFile(long.0.with_extension("short"));
        write_ledger(&short.0, SHORT_LEDGER, self.seed)
            .map_err(|error| format!("{}: {error}", short.0.display()))?;
        let of_short = self.program().peak_memory(&short.0)?;
        let of_long = self.program().peak_memory(&long.0)?;
        let of_model = self.model().peak_memory(&long.0)?;
        say!("peak memory in KiB: program {of_long}, and {of_short} with {SHORT_LEDGER} samples; model {of_model}");
        if of_long > of_short + MOST_GROWTH {
            return Err(format!(
                "the program's memory grows with its input: {of_short} KiB, then {of_long} KiB"
            ));
        }
        Ok(())
    }
}

/// Removed when it is no longer needed, also where something failed.
struct TemporaryFile(PathBuf);

impl Drop for TemporaryFile {
    fn drop(&mut self) {
        let _ = fs::remove_file(&self.0);
    }
}

/// A full table of more functions than are counted, then samples, most of them of few keys.
fn write_ledger(file: &Path, samples: u64, seed: u64) -> io::Result<()> {
    let mut random = Random::new(seed);
    let mut script = Script::default();
    let c = LARGEST_PROGRAM_CAPACITY;
    script.header(Setting { form: SCRIPT_FORM, c, k: c, mul1: random.word() | 1, mul2: random.word() | 1 });
    for index in 0..KEYS {
        let event = Event::Insert { key: position(&mut random), function: index % FUNCTIONS, place: index };
        script.event(event, None);
    }
    let keys = keys_after_recovery(&script.table).unwrap_or_default();
    let mut output = BufWriter::new(File::create(file)?);
    output.write_all(&script.text)?;
    for _ in 0..samples {
        let is_absent = random.one_in(ABSENT_ONE_IN);
        let key = if is_absent { position(&mut random) } else { often_the_first(&mut random, &keys) };
        writeln!(output, "sample={key}")?;
    }
    output.flush()
}

/// A key as a collector has it: an address of a program, and a small inlining depth.
fn position(random: &mut Random) -> u64 {
    (0x5555_0000_0000 + random.below(1 << 32)) * 256 + random.below(4)
}

fn median(mut times: Vec<f64>) -> f64 {
    times.sort_by(f64::total_cmp);
    times[times.len() / 2]
}

/// The report counts every sample, once.
fn demand_sum(report: &[u8], samples: u64) -> Result<(), String> {
    let text = String::from_utf8_lossy(report);
    let mut sum = 0;
    for (name, number) in text.lines().filter_map(|line| line.split_once('=')) {
        match (name, number.parse::<u64>()) {
            ("samples", Ok(number)) if number != samples => {
                return Err(format!("{number} samples, and not {samples}"))
            }
            ("samples" | "buckets", Ok(_)) => {}
            (_, Ok(number)) => sum += number,
            (_, Err(error)) => return Err(format!("{name}={number}: {error}")),
        }
    }
    match sum == samples {
        true => Ok(()),
        false => Err(format!("the counts add up to {sum}, and not to {samples}")),
    }
}

/// A program that reads ledgers, and the words behind its name.
struct Reader<'a> {
    program: &'a Path,
    words: &'static [&'static str],
}

impl Reader<'_> {
    fn timed(&self, file: &Path) -> Result<Run, String> {
        let input = File::open(file).map_err(|error| self.failed(error))?;
        let begun = Instant::now();
        let started = built(self.program).args(self.words).stdin(input).stderr(Stdio::inherit()).output();
        let time = begun.elapsed().as_secs_f64();
        let output = started.map_err(|error| self.failed(error))?;
        match output.status.success() {
            true => Ok(Run { report: output.stdout, time }),
            false => Err(self.failed(output.status)),
        }
    }

    /// The most memory that the program has taken up to the end of its input, in KiB. It is looked at while the program waits for more:
    /// once it has ended, nobody can tell.
    fn peak_memory(&self, file: &Path) -> Result<u64, String> {
        let started =
            built(self.program).args(self.words).stdin(Stdio::piped()).stdout(Stdio::piped()).spawn();
        let mut child = started.map_err(|error| self.failed(error))?;
        let measured = feed_and_measure(&mut child, file);
        // It closes the input, and takes the report, which nobody needs here.
        let ended = child.wait_with_output();
        measured.and_then(|memory| ended.map(|_| memory)).map_err(|error| self.failed(error))
    }

    fn failed(&self, what: impl Display) -> String {
        format!("{}: {what}", self.program.display())
    }
}

fn feed_and_measure(child: &mut Child, file: &Path) -> io::Result<u64> {
    let mut input = child.stdin.as_ref().expect("stdin is piped");
    io::copy(&mut File::open(file)?, &mut input)?;
    let process = PathBuf::from(format!("/proc/{}", child.id()));
    let begun = Instant::now();
    // It sleeps once it has read all that was in the pipe.
    while field(&process.join("status"), "State:")?.as_deref() != Some("S") {
        if begun.elapsed() > LONGEST_WAIT {
            return Err(io::Error::new(io::ErrorKind::TimedOut, "does not come to the end of its input"));
        }
        sleep(Duration::from_millis(1));
    }
    // The kernel's own mark may lag behind by some pages; what is taken now it counts exactly.
    let mark = number(&process.join("status"), "VmHWM:")?;
    Ok(mark.max(number(&process.join("smaps_rollup"), "Rss:").unwrap_or(0)))
}

fn number(file: &Path, name: &str) -> io::Result<u64> {
    let missing = || io::Error::new(io::ErrorKind::InvalidData, format!("{} has no {name}", file.display()));
    field(file, name)?.and_then(|text| text.parse().ok()).ok_or_else(missing)
}

/// The word behind a name, of a file of `/proc`.
fn field(file: &Path, name: &str) -> io::Result<Option<String>> {
    for line in BufReader::new(File::open(file)?).lines() {
        let line = line?;
        if let Some(rest) = line.strip_prefix(name) {
            return Ok(rest.split_whitespace().next().map(str::to_string));
        }
    }
    Ok(None)
}

#[cfg(test)]
mod tests {
    use super::*;
    use crate::outputs::ledger_output;

    #[test]
    fn the_long_ledger_has_more_functions_than_are_counted() {
        let file =
            TemporaryFile(std::env::temp_dir().join(format!("ragansils-{}.ledger", std::process::id())));
        write_ledger(&file.0, 20_000, 1).unwrap();
        let report = ledger_output(&fs::read(&file.0).unwrap());
        demand_sum(&report, 20_000).unwrap();
        let text = String::from_utf8(report).unwrap();
        let count = |name: &str| text.lines().filter(|line| line.starts_with(name)).count();
        assert_eq!((count("fn"), count("none=0"), count("other=0")), (MOST_COUNTED, 0, 0));
    }

    #[test]
    fn a_report_that_loses_a_sample_is_told() {
        assert!(demand_sum(b"samples=3\nnone=1\nfn7=2\nother=0\nbuckets=9\n", 3).is_ok());
        assert!(demand_sum(b"samples=3\nnone=1\nfn7=1\nother=0\nbuckets=9\n", 3).is_err());
        assert!(demand_sum(b"samples=2\nnone=1\nfn7=1\nother=0\nbuckets=9\n", 3).is_err());
        assert!(demand_sum(b"bad=7\n", 3).is_err());
    }

    #[test]
    fn the_middle_time_counts() {
        assert_eq!(median(vec![3.0, 1.0, 2.0]), 2.0);
    }

    #[test]
    fn memory_is_told_of_a_program_that_takes_some() {
        // The shell is no built program, so that no emulator can start it.
        if is_emulated() {
            return;
        }
        let file =
            TemporaryFile(std::env::temp_dir().join(format!("ragansils-{}.input", std::process::id())));
        fs::write(&file.0, "a line\n".repeat(1000)).unwrap();
        let shell = Reader { program: Path::new("sh"), words: &["-c", "while read line; do :; done"] };
        assert!(shell.peak_memory(&file.0).unwrap() > 100);
    }
}
