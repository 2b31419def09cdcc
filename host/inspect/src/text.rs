//! The text of a report, part by part.

use crate::file::{Content, BYTES_PER_WORD};

pub struct Text {
    text: String,
}

impl Text {
    /// Begins a report, as every report begins.
    pub fn of_file(name: &str, content: &Content) -> Text {
        let words = content.length / BYTES_PER_WORD;
        let mut text = Text { text: String::new() };
        text.part(&format!("{name}: {} bytes, {words} words", content.length), vec![]);
        if content.changing {
            let warning =
                "it changes while it is read: a collector is at work, and what follows may be of several moments";
            text.part(&format!("  {warning}"), vec![]);
        }
        text
    }

    pub fn part(&mut self, title: &str, lines: Vec<String>) {
        self.text.push_str(title);
        self.text.push('\n');
        for line in lines {
            self.text.push_str(&format!("  {line}\n"));
        }
    }

    pub fn finish(self) -> String {
        self.text
    }
}

/// What is wrong with something, under a title.
pub fn with_faults(title: &str, faults: Vec<String>) -> Vec<String> {
    let faults = faults.into_iter().map(|fault| format!("- {fault}"));
    std::iter::once(title.to_string()).chain(faults).collect()
}
