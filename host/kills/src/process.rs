//! Starting a collector, hearing it, and killing it.

use std::io::{BufRead, BufReader, Lines};
use std::os::unix::process::ExitStatusExt;
use std::path::Path;
use std::process::{Child, ChildStdout, ExitStatus, Stdio};

use ragansils_compare::runner::built;

use crate::collector::Task;
use crate::commands::number;
use crate::said::{event_text, read_event, Said};
use crate::wrong::Wrong;

const SIGKILL: i32 = 9;

pub struct Collector {
    child: Child,
    lines: Lines<BufReader<ChildStdout>>,
}

impl Collector {
    pub fn start(path: &Path, wrong: Option<Wrong>, task: Task) -> Result<Collector, String> {
        let program = std::env::current_exe().map_err(|error| error.to_string())?;
        let mut command = built(program);
        command.arg("collect").arg(path).arg(wrong.map_or("right", Wrong::name)).args(task_words(task));
        // What a wrong one complains of is no finding.
        let complaints = if wrong.is_some() { Stdio::null() } else { Stdio::inherit() };
        let child = command.stdin(Stdio::piped()).stdout(Stdio::piped()).stderr(complaints).spawn();
        let mut child = child.map_err(|error| error.to_string())?;
        let output = child.stdout.take().ok_or("no output of a collector")?;
        Ok(Collector { child, lines: BufReader::new(output).lines() })
    }

    /// What it says next; nothing where it has ended.
    pub fn hear(&mut self) -> Result<Option<Said>, String> {
        let line = self.lines.next().transpose().map_err(|error| error.to_string())?;
        line.map(|line| Said::read(&line)).transpose()
    }

    /// Kills it, and answers what it said that was not heard yet.
    pub fn kill(mut self) -> Result<Vec<Said>, String> {
        self.child.kill().map_err(|error| error.to_string())?;
        let said = self.hear_rest()?;
        let status = self.child.wait().map_err(|error| error.to_string())?;
        match status.signal() {
            Some(SIGKILL) => Ok(said),
            _ => Err(format!("a collector ended by itself: {status}")),
        }
    }

    /// Waits for its end.
    pub fn finish(mut self) -> Result<ExitStatus, String> {
        self.hear_rest()?;
        self.child.wait().map_err(|error| error.to_string())
    }

    fn hear_rest(&mut self) -> Result<Vec<Said>, String> {
        let mut said = vec![];
        while let Some(one) = self.hear()? {
            said.push(one);
        }
        Ok(said)
    }
}

/// Where something failed, no process is left behind.
impl Drop for Collector {
    fn drop(&mut self) {
        // It has ended already where all went well.
        let _ = self.child.kill();
        let _ = self.child.wait();
    }
}

/// A task as words of a command line; `read_task` reads them.
fn task_words(task: Task) -> Vec<String> {
    match task {
        Task::Open => vec!["open".into()],
        Task::Hold { event, after } => vec!["hold".into(), after.to_string(), event_text(event)],
        Task::Live { seed, keys_seed } => vec!["live".into(), seed.to_string(), keys_seed.to_string()],
    }
}

pub fn read_task(words: &[&str]) -> Result<Task, String> {
    match words {
        ["open"] => Ok(Task::Open),
        ["hold", after, event] => Ok(Task::Hold { event: read_event(event)?, after: number(after)? }),
        ["live", seed, keys_seed] => Ok(Task::Live { seed: number(seed)?, keys_seed: number(keys_seed)? }),
        _ => Err(format!("no task of a collector: {words:?}")),
    }
}
