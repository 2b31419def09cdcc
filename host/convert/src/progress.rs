//! Tells how far a conversion is, from a thread of its own.
//!
//! The conversion is one call of the library and tells nothing while it runs. So it is looked at from outside: now and then the thread reads
//! a few words of the new file.

use std::fs::File;
use std::io::Write;
use std::os::raw::c_int;
use std::sync::mpsc::{self, Receiver, RecvTimeoutError};
use std::thread;
use std::time::{Duration, Instant};

use crate::facts::Facts;
use crate::sample::Sample;
use crate::sentences::items_words;

/// Of a conversion that ends sooner nothing is told.
const PATIENCE: Duration = Duration::from_millis(500);
/// The time between two looks.
const INTERVAL: Duration = Duration::from_millis(500);

/// How it is shown.
#[derive(Clone, Copy, Debug, PartialEq, Eq)]
pub enum Display {
    Nothing,
    /// In one line of a terminal, which is cleared at the end.
    OneLine,
    /// In lines that stay, and without patience.
    Lines,
}

impl Display {
    /// A line, where standard error is a terminal.
    pub fn of_standard_error() -> Display {
        const STANDARD_ERROR: c_int = 2;
        extern "C" {
            fn isatty(file: c_int) -> c_int;
        }
        // SAFETY: any number may be asked about.
        match unsafe { isatty(STANDARD_ERROR) } {
            1 => Display::OneLine,
            _ => Display::Nothing,
        }
    }

    fn patience(self) -> Duration {
        match self {
            Display::Lines => Duration::ZERO,
            Display::OneLine | Display::Nothing => PATIENCE,
        }
    }
}

/// The parts of a conversion.
#[derive(Clone, Copy, Debug, PartialEq, Eq)]
pub enum Stage {
    Reading,
    /// The one call, which checks the old table before it converts so many items.
    Converting {
        items: u64,
    },
    /// To the disk.
    Writing,
}

pub struct Progress<'a> {
    pub display: Display,
    /// The names of both files.
    pub old: &'a str,
    pub new: &'a str,
    /// Of the old table; where there are none, the conversion is refused at once.
    pub facts: Option<&'a Facts>,
}

impl Progress<'_> {
    /// Does the work, which says when a stage begins, and tells meanwhile how far the new file is.
    pub fn tell_while<T>(&self, file: File, work: impl FnOnce(&dyn Fn(Stage)) -> T) -> T {
        let sample = match self.facts {
            Some(facts) if self.display != Display::Nothing => Sample::of(facts),
            _ => return work(&|_| ()),
        };
        let (says, hears) = mpsc::channel();
        thread::scope(move |scope| {
            let mut shown = Shown::new(std::io::stderr(), self.display);
            scope.spawn(move || tell(&mut shown, &hears, |stage| self.look(stage, &sample, &file)));
            let answer = work(&|stage| {
                // The thread hears as long as this side speaks.
                let _ = says.send(stage);
            });
            // Now it ends, and is waited for.
            drop(says);
            answer
        })
    }

    fn look(&self, stage: Stage, sample: &Sample, file: &File) -> String {
        let (percent, items) = match stage {
            Stage::Reading => (None, 0),
            // Progress is not worth a failure: what cannot be read was not seen.
            Stage::Converting { items } => (sample.percent(file, items).unwrap_or(None), items),
            Stage::Writing => return format!("writing {} to the disk", self.new),
        };
        match percent {
            None => format!("checking {}", self.old),
            Some(percent) => format!("converted about {percent} % of {}", items_words(items)),
        }
    }
}

/// Shows what is seen of the stages that come over the channel, until its other side is gone.
fn tell(shown: &mut Shown<impl Write>, stages: &Receiver<Stage>, look: impl Fn(Stage) -> String) {
    let begun = Instant::now();
    let patience = shown.display.patience();
    let (mut due, mut stage) = (begun + patience, Stage::Reading);
    loop {
        match stages.recv_timeout(due.saturating_duration_since(Instant::now())) {
            Ok(next) => stage = next,
            Err(RecvTimeoutError::Timeout) => due = Instant::now() + INTERVAL,
            Err(RecvTimeoutError::Disconnected) => return shown.clear(),
        }
        if begun.elapsed() >= patience {
            shown.show(look(stage));
        }
    }
}

/// What is shown now.
struct Shown<W> {
    output: W,
    display: Display,
    text: String,
}

impl<W: Write> Shown<W> {
    fn new(output: W, display: Display) -> Shown<W> {
        Shown { output, display, text: String::new() }
    }

    fn show(&mut self, text: String) {
        if text == self.text {
            return;
        }
        match self.display {
            Display::Nothing => (),
            // The rest of a longer text before it is overwritten.
            Display::OneLine => self.write(&format!("\r{text:<width$}", width = self.text.chars().count())),
            Display::Lines => self.write(&format!("{text}\n")),
        }
        self.text = text;
    }

    fn clear(&mut self) {
        if self.display == Display::OneLine && !self.text.is_empty() {
            self.write(&format!("\r{:width$}\r", "", width = self.text.chars().count()));
        }
    }

    fn write(&mut self, text: &str) {
        // Progress is not worth a failure.
        let _ = self.output.write_all(text.as_bytes()).and_then(|()| self.output.flush());
    }
}

#[cfg(test)]
mod tests {
    use super::*;
    use std::cell::Cell;
    use std::fs;

    use ragansils::{bytes_of, Form};

    fn shown(display: Display, texts: &[&str]) -> String {
        let mut shown = Shown::new(vec![], display);
        texts.iter().for_each(|text| shown.show(text.to_string()));
        shown.clear();
        String::from_utf8(shown.output).unwrap()
    }

    #[test]
    fn a_line_of_a_terminal_changes_and_goes() {
        let texts = ["checking", "checking", "about 5 %", "99 %"];
        assert_eq!(shown(Display::OneLine, &texts), "\rchecking\rabout 5 %\r99 %     \r    \r");
        assert_eq!(shown(Display::OneLine, &[]), "");
        assert_eq!(shown(Display::Lines, &texts), "checking\nabout 5 %\n99 %\n");
        assert_eq!(shown(Display::Nothing, &texts), "");
    }

    /// What is told where the work begins these stages at once, and then ends; and how often it was looked at.
    fn told(display: Display, begun: &[Stage]) -> (String, usize) {
        let (says, hears) = mpsc::channel();
        begun.iter().for_each(|&stage| says.send(stage).unwrap());
        drop(says);
        let mut shown = Shown::new(vec![], display);
        let looks = Cell::new(0);
        tell(&mut shown, &hears, |stage| {
            looks.set(looks.get() + 1);
            format!("{stage:?}")
        });
        (String::from_utf8(shown.output).unwrap(), looks.get())
    }

    #[test]
    fn of_a_short_conversion_nothing_is_told_on_a_terminal() {
        let stages = [Stage::Reading, Stage::Writing];
        assert_eq!(told(Display::OneLine, &stages), (String::new(), 0));
        assert_eq!(told(Display::Lines, &stages), ("Reading\nWriting\n".to_string(), 2));
        assert_eq!(told(Display::Lines, &[]), (String::new(), 0));
    }

    #[test]
    fn a_long_conversion_is_looked_at_from_time_to_time() {
        let (says, hears) = mpsc::channel();
        let shown = thread::scope(move |scope| {
            let teller = scope.spawn(move || {
                let mut shown = Shown::new(vec![], Display::OneLine);
                tell(&mut shown, &hears, |stage| format!("{stage:?}"));
                String::from_utf8(shown.output).unwrap()
            });
            thread::sleep(PATIENCE * 3);
            says.send(Stage::Writing).unwrap();
            drop(says);
            teller.join().unwrap()
        });
        // On a busy machine the first look may come too late.
        assert!(shown == "\rReading\rWriting\r       \r" || shown == "\rWriting\r       \r", "{shown:?}");
    }

    const FACTS: Facts = Facts { form: Form::One, capacity: 1, k: 1, buckets: 0..3 };

    fn progress(facts: Option<&Facts>, display: Display) -> Progress<'_> {
        Progress { display, old: "old", new: "new", facts }
    }

    #[test]
    fn what_is_seen_is_told_in_words() {
        let file = std::env::temp_dir().join(format!("ragansils-progress-{}", std::process::id()));
        let look = |stage, words: &[u64]| {
            fs::write(&file, bytes_of(words)).unwrap();
            let opened = File::open(&file).unwrap();
            progress(Some(&FACTS), Display::Lines).look(stage, &Sample::of(&FACTS), &opened)
        };
        let converting = Stage::Converting { items: 8 };
        let mut words = [0; 48];
        words[0] = 2;
        assert_eq!(look(Stage::Reading, &words), "checking old");
        assert_eq!(look(converting, &words), "checking old");
        // Three slots of the second bucket.
        words[22] = 7;
        assert_eq!(look(converting, &words), "converted about 37 % of 8 items");
        assert_eq!(look(converting, &words[..10]), "checking old", "what cannot be read was not seen");
        assert_eq!(look(Stage::Writing, &words), "writing new to the disk");
        fs::remove_file(&file).unwrap();
    }

    /// Whether something is told or not, the work is done once, and its answer handed on.
    #[test]
    fn the_work_is_done_in_any_case() {
        for (facts, display) in [(None, Display::Lines), (Some(&FACTS), Display::Nothing)] {
            let file = File::open("/dev/null").unwrap();
            let answer = progress(facts, display).tell_while(file, |begin| {
                begin(Stage::Writing);
                7
            });
            assert_eq!(answer, 7);
        }
    }
}
