//! Damage to ledgers as text: sample lines where they may not stand, other lines among them, and samples that are none.

use crate::ledger_lines::{first_sample, HEADER_LINES};
use crate::random::Random;
use crate::script_damage::{damage, split_lines};

/// A ledger as its lines, each with its newline, and the index of its first sample; that of the end where there is none.
struct Ledger {
    lines: Vec<Vec<u8>>,
    first_sample: usize,
}

type Kind = fn(&mut Random, &mut Ledger);

const KINDS: [Kind; 7] = [
    spoil_sample,
    tear_last_line,
    event_among_samples,
    sample_among_events,
    sample_behind_cut,
    sample_where_number_is_due,
    sample_in_header,
];

const BAD_SAMPLES: [&[u8]; 18] = [
    b"\n",
    b"sample\n",
    b"sample=\n",
    b"sample=00\n",
    b"sample=01\n",
    b"sample=+1\n",
    b"sample=-1\n",
    b"sample= 1\n",
    b"sample=1 \n",
    b"sample=1\r\n",
    b"sample=1,2\n",
    b"sample==1\n",
    b" sample=1\n",
    b"Sample=1\n",
    b"samples=1\n",
    b"sample=18446744073709551616\n",
    b"sample=99999999999999999999\n",
    b"sample=100000000000000000000\n",
];

/// One event each, of lines that are good among events.
const EVENTS: [&[&[u8]]; 8] = [
    &[b"op=begin\n"],
    &[b"op=shrink\n"],
    &[b"op=back\n"],
    &[b"op=recover\n"],
    &[b"op=query\n", b"key=1\n"],
    &[b"op=insert\n", b"key=1\n", b"fn=2\n", b"at=3\n"],
    &[b"op=cut\n", b"after=1\n", b"op=begin\n"],
    &[b"key=1\n"],
];

/// Damages a ledger as a script is damaged, or where its samples are.
pub fn damage_ledger(random: &mut Random, ledger: &[u8]) -> Vec<u8> {
    if random.one_in(3) {
        return damage(random, ledger);
    }
    let lines = split_lines(ledger);
    let mut ledger = Ledger { first_sample: first_sample(&lines), lines };
    random.pick(&KINDS)(random, &mut ledger);
    ledger.lines.concat()
}

impl Ledger {
    /// An index from a first one on, up to the end.
    fn index_from(&self, random: &mut Random, first: usize) -> usize {
        let first = first.min(self.lines.len());
        first + random.index(self.lines.len() - first + 1)
    }

    fn insert(&mut self, index: usize, lines: &[&[u8]]) {
        let index = index.min(self.lines.len());
        self.lines.splice(index..index, lines.iter().map(|line| line.to_vec()));
    }
}

fn any_sample(random: &mut Random) -> Vec<u8> {
    format!("sample={}\n", random.any_word()).into_bytes()
}

/// In the place of a sample, or behind all of them.
fn spoil_sample(random: &mut Random, ledger: &mut Ledger) {
    let at = ledger.index_from(random, ledger.first_sample);
    let bad = random.pick(&BAD_SAMPLES).to_vec();
    match ledger.lines.get_mut(at) {
        Some(line) => *line = bad,
        None => ledger.lines.push(bad),
    }
}

fn tear_last_line(random: &mut Random, ledger: &mut Ledger) {
    if ledger.first_sample == ledger.lines.len() {
        ledger.lines.push(any_sample(random));
    }
    if let Some(line) = ledger.lines.last_mut() {
        // at least one byte is left
        line.truncate(1 + random.index(line.len().max(2) - 1));
    }
}

fn event_among_samples(random: &mut Random, ledger: &mut Ledger) {
    if ledger.first_sample == ledger.lines.len() {
        ledger.lines.push(any_sample(random));
    }
    let at = ledger.index_from(random, ledger.first_sample + 1);
    ledger.insert(at, random.pick(&EVENTS));
}

/// From there on the events are bad.
fn sample_among_events(random: &mut Random, ledger: &mut Ledger) {
    let is_event = |&index: &usize| ledger.lines[index].starts_with(b"op=");
    let events: Vec<usize> = (0..ledger.lines.len()).filter(is_event).collect();
    if !events.is_empty() {
        let sample = any_sample(random);
        ledger.insert(random.pick(&events), &[&sample]);
    }
}

fn sample_behind_cut(random: &mut Random, ledger: &mut Ledger) {
    let sample = any_sample(random);
    ledger.insert(ledger.first_sample, &[b"op=cut\n", b"after=3\n", &sample]);
}

fn sample_where_number_is_due(random: &mut Random, ledger: &mut Ledger) {
    let due: [&[&[u8]]; 4] = [
        &[b"op=query\n"],
        &[b"op=insert\n", b"key=1\n"],
        &[b"op=update\n", b"key=1\n", b"fn=2\n"],
        &[b"op=cut\n"],
    ];
    let sample = any_sample(random);
    let lines = [random.pick(&due), &[&sample]].concat();
    ledger.insert(ledger.first_sample, &lines);
}

fn sample_in_header(random: &mut Random, ledger: &mut Ledger) {
    let sample = any_sample(random);
    ledger.insert(random.index(HEADER_LINES), &[&sample]);
}

#[cfg(test)]
mod tests {
    use super::*;
    use crate::outputs::ledger_output;

    fn damaged(kind: Kind) -> String {
        let ledger = b"cap=1\ntop=1\nmul1=1\nmul2=1\nop=begin\nsample=1\nsample=2\n";
        let lines = split_lines(ledger);
        let mut ledger = Ledger { first_sample: first_sample(&lines), lines };
        kind(&mut Random::new(1), &mut ledger);
        String::from_utf8(ledger_output(&ledger.lines.concat())).unwrap()
    }

    #[test]
    fn each_kind_of_damage_is_bad_where_it_is_made() {
        assert_eq!(damaged(tear_last_line), "bad=7\n");
        assert_eq!(damaged(sample_among_events), "bad=6\n");
        assert_eq!(damaged(sample_behind_cut), "bad=6\n");
        for (kind, lines) in [
            (spoil_sample as Kind, 6..=8),
            (event_among_samples, 7..=8),
            (sample_where_number_is_due, 7..=9),
            (sample_in_header, 1..=4),
        ] {
            let report = damaged(kind);
            let number = report.trim_end().strip_prefix("bad=").and_then(|number| number.parse().ok());
            assert!(number.map_or(false, |number: u64| lines.contains(&number)), "{report}");
        }
    }

    #[test]
    fn no_bad_sample_is_a_good_one() {
        for bad in BAD_SAMPLES {
            let ledger = [b"cap=1\ntop=1\nmul1=1\nmul2=1\nsample=1\n", bad].concat();
            assert_eq!(ledger_output(&ledger), b"bad=6\n", "{:?}", String::from_utf8_lossy(bad));
        }
    }
}
