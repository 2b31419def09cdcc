//! What the command line asks for.

use std::fmt::Display;
use std::io::Read;
use std::path::Path;
use std::str::FromStr;
use std::time::{Duration, Instant, SystemTime, UNIX_EPOCH};

use crate::both::{Both, Check, Finding};
use crate::case::Case;
use crate::case_text::{read_case, write_case};
use crate::conversions;
use crate::convert_scripts;
use crate::corners;
use crate::demands::{
    demand_calls, demand_conversions, demand_convert_scripts, demand_ledgers, demand_overlays,
    demand_scripts, demand_some,
};
use crate::layout::FORMS;
use crate::ledgers;
use crate::long_ledger::LongLedger;
use crate::outputs::{self, Disagreement};
use crate::overlays;
use crate::program;
use crate::random::Random;
use crate::say;
use crate::scripts;
use crate::smallest::smallest_case;
use crate::sound_tables::check_alone;
use crate::tally::Tally;
use crate::words;

const USAGE: &str = "\
compare words --seed S --calls N [--form F] [--trace FILE]
compare conversions --seed S --conversions N [--trace FILE]
compare overlays --seed S --overlays N [--trace FILE]
compare scripts --seed S --scripts N --program PATH
compare ledgers --seed S --ledgers N --program PATH
compare convert-scripts --seed S --scripts N --program PATH
compare long MINUTES [--seed S] [--form F] [--program PATH] [--ledger-program PATH] [--convert-program PATH]
compare long-ledger --samples N --seed S --program PATH --model PATH [--folder DIR] [--most RATIO]
compare case FILE
compare script FILE --program PATH
compare ledger FILE --program PATH
compare convert-script FILE --program PATH
compare corners <INPUT
(F is 1 or 2: tables of that form only, and without it half of the calls for each form;
 FILE after --trace keeps the case the library was given last, for when it crashes;
 a long run without --program makes no scripts, and so on for the other programs;
 RATIO is the most that the ledger program's time may be of the model's)";

/// From this size on, a run fails where it has not seen what it must have seen, in each form.
const FULL_SIZE_CALLS: u64 = 150_000;
const FULL_SIZE_CONVERSIONS: u64 = 20_000;
const FULL_SIZE_OVERLAYS: u64 = 20_000;
const FULL_SIZE_TEXTS: u64 = 1_000;

/// One round of a long run.
const ROUND_CALLS: u64 = 1_000_000;
const ROUND_CONVERSIONS: u64 = 50_000;
const ROUND_OVERLAYS: u64 = 200_000;

/// What a program is given and compared on, byte by byte: scripts, or ledgers.
struct Texts {
    /// One of them, and several.
    name: &'static str,
    names: &'static str,
    /// The options that tell how many, and which program a long run compares.
    amount: &'static str,
    program: &'static str,
    in_a_round: u64,
    run: fn(u64, u64, &Path, &mut Tally) -> Result<(), Disagreement>,
    compare: fn(&Path, &[u8]) -> Result<Vec<u8>, String>,
    count: fn(&Tally) -> u64,
    demand: fn(&Tally) -> Answer,
}

const SCRIPTS: Texts = Texts {
    name: "script",
    names: "scripts",
    amount: "--scripts",
    program: "--program",
    in_a_round: 1_500,
    run: scripts::run,
    compare: scripts::compare,
    count: |tally| tally.scripts,
    demand: demand_scripts,
};

const LEDGERS: Texts = Texts {
    name: "ledger",
    names: "ledgers",
    amount: "--ledgers",
    program: "--ledger-program",
    in_a_round: 1_500,
    run: ledgers::run,
    compare: ledgers::compare,
    count: |tally| tally.ledgers.total,
    demand: demand_ledgers,
};

const CONVERT_SCRIPTS: Texts = Texts {
    name: "convert-script",
    names: "convert-scripts",
    amount: "--scripts",
    program: "--convert-program",
    in_a_round: 1_500,
    run: convert_scripts::run,
    compare: convert_scripts::compare,
    count: |tally| tally.converts.total,
    demand: demand_convert_scripts,
};

const TEXTS: [&Texts; 3] = [&SCRIPTS, &LEDGERS, &CONVERT_SCRIPTS];

type Answer = Result<(), String>;

pub fn run(arguments: &[String]) -> Answer {
    let words: Vec<&str> = arguments.iter().map(String::as_str).collect();
    let options = Options { words: &words };
    let trace = options.value("--trace").map(Path::new);
    match words[..] {
        ["words", ..] => {
            words_run(options.number("--seed")?, options.number("--calls")?, &options.forms()?, trace)
        }
        ["conversions", ..] => {
            conversions_run(options.number("--seed")?, options.number("--conversions")?, trace)
        }
        ["overlays", ..] => overlays_run(options.number("--seed")?, options.number("--overlays")?, trace),
        ["long", minutes, ..] => {
            let minutes = minutes.parse().map_err(|error| format!("{minutes}: {error}"))?;
            let seed = match options.value("--seed") {
                Some(_) => options.number("--seed")?,
                None => clock_seed(),
            };
            let programs = TEXTS.map(|texts| options.path(texts.program).ok());
            long_run(minutes, seed, &options.forms()?, programs)
        }
        ["long-ledger", ..] => long_ledger_run(&options),
        ["case", file] => one_case(file),
        ["corners"] => corners_run(),
        _ => texts_command(&words, &options),
    }
}

/// A run of texts, or one text that a file has.
fn texts_command(words: &[&str], options: &Options) -> Answer {
    for texts in TEXTS {
        match *words {
            [names, ..] if names == texts.names => {
                let (seed, count) = (options.number("--seed")?, options.number(texts.amount)?);
                return texts_run(texts, seed, count, options.program()?);
            }
            [name, file, ..] if name == texts.name => return one_text(texts, file, options.program()?),
            _ => {}
        }
    }
    Err(format!("usage:\n{USAGE}"))
}

struct Options<'a> {
    words: &'a [&'a str],
}

impl Options<'_> {
    fn value(&self, name: &str) -> Option<&str> {
        let at = self.words.iter().position(|&word| word == name)?;
        self.words.get(at + 1).copied()
    }

    fn needed(&self, name: &str) -> Result<&str, String> {
        self.value(name).ok_or(format!("{name} is missing\n{USAGE}"))
    }

    fn number<T: FromStr>(&self, name: &str) -> Result<T, String>
    where
        T::Err: Display,
    {
        let text = self.needed(name)?;
        text.parse().map_err(|error| format!("{name} {text}: {error}"))
    }

    fn path(&self, name: &str) -> Result<&Path, String> {
        self.needed(name).map(Path::new)
    }

    /// The one that is named, or both.
    fn forms(&self) -> Result<Vec<u64>, String> {
        if self.value("--form").is_none() {
            return Ok(FORMS.to_vec());
        }
        let form = self.number("--form")?;
        FORMS.contains(&form).then(|| vec![form]).ok_or(format!("there is no form {form}\n{USAGE}"))
    }

    fn program(&self) -> Result<&Path, String> {
        self.path("--program")
    }
}

fn clock_seed() -> u64 {
    SystemTime::now().duration_since(UNIX_EPOCH).map_or(0, |time| time.as_nanos() as u64)
}

/// The calls are shared out evenly to the forms. What one form has met shows nothing of the other, so each has its own tally.
fn words_run(seed: u64, calls: u64, forms: &[u64], trace: Option<&Path>) -> Answer {
    let calls = (calls + forms.len() as u64 - 1) / forms.len() as u64;
    for &form in forms {
        say!("words: form {form}, seed {seed}, at least {calls} calls");
        let mut tally = Tally::default();
        let result = words::run(seed, calls, form, &mut Both::traced(&mut tally, trace));
        tally.print();
        result.map_err(|finding| report_finding(seed, finding))?;
        demand_some(tally.calls_of_form(form), &format!("calls on tables of form {form}"))?;
        if calls >= FULL_SIZE_CALLS {
            demand_calls(&tally, form)?;
        }
    }
    say_alike();
    Ok(())
}

fn conversions_run(seed: u64, conversions: u64, trace: Option<&Path>) -> Answer {
    say!("conversions: seed {seed}, at least {conversions} of them");
    let mut tally = Tally::default();
    let result = conversions::run(seed, conversions, &mut Both::traced(&mut tally, trace));
    tally.print();
    result.map_err(|finding| report_finding(seed, finding))?;
    demand_some(tally.conversions.total, "conversions")?;
    if conversions >= FULL_SIZE_CONVERSIONS {
        demand_conversions(&tally)?;
    }
    say_alike();
    Ok(())
}

fn overlays_run(seed: u64, overlays: u64, trace: Option<&Path>) -> Answer {
    say!("overlays: seed {seed}, at least {overlays} of them");
    let mut tally = Tally::default();
    let result = overlays::run(seed, overlays, &mut Both::traced(&mut tally, trace));
    tally.print();
    result.map_err(|finding| report_finding(seed, finding))?;
    demand_some(tally.overlays.total, "overlays")?;
    if overlays >= FULL_SIZE_OVERLAYS {
        demand_overlays(&tally)?;
    }
    say_alike();
    Ok(())
}

fn texts_run(texts: &Texts, seed: u64, count: u64, program: &Path) -> Answer {
    say!("{}: seed {seed}, {count} of them through {}", texts.names, program.display());
    let mut tally = Tally::default();
    let result = (texts.run)(seed, count, program, &mut tally);
    tally.print();
    result.map_err(|disagreement| report_disagreement(texts, seed, program, disagreement))?;
    demand_some((texts.count)(&tally), texts.names)?;
    if count >= FULL_SIZE_TEXTS {
        (texts.demand)(&tally)?;
    }
    say_alike();
    Ok(())
}

/// A program for each kind of text, where one is named.
type Programs<'a> = [Option<&'a Path>; TEXTS.len()];

/// Round after round, each from its own seed, until the time is over.
fn long_run(minutes: u32, seed: u64, forms: &[u64], programs: Programs) -> Answer {
    say!("long: seed {seed}, {minutes} minutes");
    let end = Instant::now() + Duration::from_secs(60 * u64::from(minutes));
    let mut seeds = Random::new(seed);
    let mut seen = Seen::of_nothing(forms);
    let mut rounds = 0;
    while Instant::now() < end {
        rounds += 1;
        seen.round_of_words(rounds, &mut seeds)?;
        seen.round_of_conversions(rounds, &mut seeds)?;
        seen.round_of_texts(rounds, &mut seeds, programs)?;
        seen.round_of_overlays(rounds, &mut seeds)?;
    }
    say!("rounds: {rounds}");
    seen.print_and_demand(programs)?;
    say_alike();
    Ok(())
}

/// What a long run has seen: of words in each form, of conversions, of two tables, and of texts.
struct Seen {
    by_form: Vec<(u64, Tally)>,
    of_conversions: Tally,
    of_overlays: Tally,
    of_texts: Tally,
}

impl Seen {
    fn of_nothing(forms: &[u64]) -> Seen {
        let by_form = forms.iter().map(|&form| (form, Tally::default())).collect();
        let [of_conversions, of_overlays, of_texts] = [(); 3].map(|()| Tally::default());
        Seen { by_form, of_conversions, of_overlays, of_texts }
    }

    fn round_of_words(&mut self, round: u64, seeds: &mut Random) -> Answer {
        let (seed, calls) = (seeds.word(), ROUND_CALLS / self.by_form.len() as u64);
        for (form, tally) in &mut self.by_form {
            say!("round {round}: words of form {form}, seed {seed}");
            words::run(seed, calls, *form, &mut Both::new(tally))
                .map_err(|finding| report_finding(seed, finding))?;
        }
        Ok(())
    }

    fn round_of_conversions(&mut self, round: u64, seeds: &mut Random) -> Answer {
        let seed = seeds.word();
        say!("round {round}: conversions, seed {seed}");
        conversions::run(seed, ROUND_CONVERSIONS, &mut Both::new(&mut self.of_conversions))
            .map_err(|finding| report_finding(seed, finding))
    }

    fn round_of_overlays(&mut self, round: u64, seeds: &mut Random) -> Answer {
        let seed = seeds.word();
        say!("round {round}: overlays, seed {seed}");
        overlays::run(seed, ROUND_OVERLAYS, &mut Both::new(&mut self.of_overlays))
            .map_err(|finding| report_finding(seed, finding))
    }

    fn round_of_texts(&mut self, round: u64, seeds: &mut Random, programs: Programs) -> Answer {
        for (texts, program) in TEXTS.into_iter().zip(programs) {
            // drawn where there is no program too, so that the other rounds stay the same
            let seed = seeds.word();
            if let Some(program) = program {
                say!("round {round}: {} seed {seed}", texts.names);
                (texts.run)(seed, texts.in_a_round, program, &mut self.of_texts)
                    .map_err(|disagreement| report_disagreement(texts, seed, program, disagreement))?;
            }
        }
        Ok(())
    }

    fn print_and_demand(&self, programs: Programs) -> Answer {
        for (form, tally) in &self.by_form {
            say!("form {form}:");
            tally.print();
            demand_calls(tally, *form)?;
        }
        say!("conversions:");
        self.of_conversions.print();
        demand_conversions(&self.of_conversions)?;
        say!("overlays:");
        self.of_overlays.print();
        demand_overlays(&self.of_overlays)?;
        self.of_texts.print();
        let compared = TEXTS.into_iter().zip(programs).filter(|(_, program)| program.is_some());
        compared.into_iter().try_for_each(|(texts, _)| (texts.demand)(&self.of_texts))
    }
}

fn long_ledger_run(options: &Options) -> Answer {
    let ledger = LongLedger {
        samples: options.number("--samples")?,
        seed: options.number("--seed")?,
        program: options.program()?,
        model: options.path("--model")?,
        folder: options.path("--folder").unwrap_or(Path::new(".")),
    };
    let most = options.value("--most").map(|_| options.number("--most")).transpose()?;
    ledger.run(most)?;
    say_alike();
    Ok(())
}

/// The last line of a run that found nothing.
fn say_alike() {
    say!("no difference");
}

fn check_case(check: Check, case: &Case) -> Result<(), Finding> {
    let mut tally = Tally::default();
    let mut both = Both::new(&mut tally);
    match check {
        Check::Call => both.run(case).map(|_| ()),
        Check::SoundTable => check_alone(&mut both, case),
    }
}

fn one_case(file: &str) -> Answer {
    let text = std::fs::read_to_string(file).map_err(|error| format!("{file}: {error}"))?;
    let (check, case) = read_case(&text)?;
    check_case(check, &case).map_err(|finding| finding.what)?;
    say_alike();
    Ok(())
}

fn one_text(texts: &Texts, file: &str, program: &Path) -> Answer {
    let input = std::fs::read(file).map_err(|error| format!("{file}: {error}"))?;
    let output = (texts.compare)(program, &input)?;
    program::say(String::from_utf8_lossy(&output));
    say_alike();
    Ok(())
}

/// Nothing is compared here: `tests/corners` holds what the proved program is expected to write to what this writes.
fn corners_run() -> Answer {
    let mut input = String::new();
    std::io::stdin().read_to_string(&mut input).map_err(|error| format!("standard input: {error}"))?;
    let answers = corners::answers(&input).map_err(|bad| bad.to_string())?;
    demand_some(answers.len() as u64, "lines")?;
    program::say(answers);
    Ok(())
}

fn report_finding(seed: u64, finding: Finding) -> String {
    say!("seed {seed}: {}", finding.what);
    // Made smaller by the check that can be run again; a failure only the history sees stays as it is.
    let fails = |case: &Case| check_case(finding.check, case).is_err();
    let smallest = smallest_case(*finding.case, fails);
    let what = check_case(finding.check, &smallest).map_or_else(|smaller| smaller.what, |()| finding.what);
    let text = write_case(finding.check, &smallest);
    say!("the smallest case found: {what}\n{text}");
    save(&format!("failure-{seed}.case"), text.as_bytes(), |file| format!("case {file}"));
    what
}

fn report_disagreement(texts: &Texts, seed: u64, program: &Path, disagreement: Disagreement) -> String {
    let name = texts.name;
    say!("seed {seed}: {}", disagreement.what);
    let smallest = outputs::smallest(disagreement.input, |input| (texts.compare)(program, input).is_err());
    let what = (texts.compare)(program, &smallest).err().unwrap_or(disagreement.what);
    say!("the smallest {name} found: {what}\n{}", String::from_utf8_lossy(&smallest));
    save(&format!("failure-{seed}.{name}"), &smallest, |file| {
        format!("{name} {file} --program {}", program.display())
    });
    what
}

/// Keeps a failure as a file, so that bytes no terminal shows are kept too, and says how to run it again.
fn save(name: &str, content: &[u8], arguments: impl Fn(&str) -> String) {
    let file = std::env::current_dir().unwrap_or_default().join(name);
    match std::fs::write(&file, content) {
        Ok(()) => say!("run again with: compare {}", arguments(&file.to_string_lossy())),
        Err(error) => say!("{} could not be written: {error}", file.display()),
    }
}

#[cfg(test)]
mod tests {
    use super::*;

    #[test]
    fn a_run_makes_both_forms_or_the_one_that_is_named() {
        let forms = |words: &[&str]| Options { words }.forms();
        assert_eq!(forms(&["words", "--seed", "1"]), Ok(vec![1, 2]));
        assert_eq!(forms(&["words", "--form", "2", "--seed", "1"]), Ok(vec![2]));
        for other in ["0", "3", "two"] {
            assert!(forms(&["words", "--form", other]).is_err(), "{other}");
        }
    }
}
