//! Kills at random moments, of collector after collector on one file.

use std::path::Path;
use std::time::Duration;

use ragansils::{Creation, Form, MappedFile, Phase};
use ragansils_compare::plain_map::PlainMap;
use ragansils_compare::random::Random;
use ragansils_compare::say;
use ragansils_model::word;

use crate::collector::Task;
use crate::judge::{maps_after, read_words, recovered, which_map};
use crate::process::Collector;
use crate::said::Said;
use crate::tables::small_setting;

/// How many collectors are killed on one file before another is made.
const KILLS_PER_FILE: u64 = 50;
/// A collector lives until it has said up to so many lines, and then up to so many microseconds more. Where all is slow, as under an
/// emulator, a life by the clock alone would end before anything was stored.
const MOST_LINES: u64 = 32;
const LONGEST_REST: u64 = 2500;

/// Of tables of one form.
pub struct Moments {
    form: Form,
    pub kills: u64,
    pub changes: u64,
    pub in_a_change: u64,
    pub to_mend: u64,
    /// Of tables that were growing, and of tables that were shrinking.
    pub growing: u64,
    pub shrinking: u64,
}

impl Moments {
    pub fn of(form: Form) -> Moments {
        Moments { form, kills: 0, changes: 0, in_a_change: 0, to_mend: 0, growing: 0, shrinking: 0 }
    }

    pub fn print(&self) {
        let Moments { form, kills, changes, in_a_change, to_mend, growing, shrinking } = self;
        say!(
            "kills at random moments, {form}: {kills}, of which {in_a_change} in the middle of a change and {to_mend} with something to \
             mend; {growing} of tables that grew and {shrinking} of tables that shrank; changes acknowledged: {changes}"
        );
    }

    /// Kills so many collectors.
    pub fn run(&mut self, random: &mut Random, path: &Path, kills: u64) -> Result<(), String> {
        while self.kills < kills {
            let most = KILLS_PER_FILE.min(kills - self.kills);
            self.one_file(random, path, most)?;
        }
        Ok(())
    }

    fn one_file(&mut self, random: &mut Random, path: &Path, kills: u64) -> Result<(), String> {
        let setting = small_setting(random, self.form);
        let multipliers = [setting.mul1, setting.mul2];
        let creation = Creation { form: self.form, multipliers, ..Creation::new(setting.c, setting.k) };
        // There is none before the first file.
        let _ = std::fs::remove_file(path);
        drop(MappedFile::create(path, &creation).map_err(|error| error.to_string())?);
        let keys_seed = random.word();
        let mut map = PlainMap::new();
        for _ in 0..kills {
            map = self.one_life(random, path, keys_seed, map)?;
        }
        Collector::start(path, None, Task::Open)?.finish()?;
        let words = read_words(path)?;
        if words[word::FORM] != self.form.number() {
            return Err(format!("a table of {} has become one of form {}", self.form, words[word::FORM]));
        }
        which_map(&words, &[map]).map(drop)
    }

    /// A collector lives for a while and is killed; answers the map that its file has then.
    fn one_life(
        &mut self,
        random: &mut Random,
        path: &Path,
        keys_seed: u64,
        map: PlainMap,
    ) -> Result<PlainMap, String> {
        let task = Task::Live { seed: random.word(), keys_seed };
        let mut collector = Collector::start(path, None, task)?;
        let mut said = vec![];
        for _ in 0..=random.below(MOST_LINES) {
            said.extend(collector.hear()?);
        }
        std::thread::sleep(Duration::from_micros(random.below(LONGEST_REST)));
        said.extend(collector.kill()?);

        let words = read_words(path)?;
        let maps = maps_after(&map, &said)?;
        let recovered = recovered(&words)?;
        let which = which_map(&recovered, &maps)?;
        self.kills += 1;
        self.changes += said.iter().filter(|one| matches!(one, Said::Done(0))).count() as u64;
        self.in_a_change += u64::from(matches!(said.last(), Some(Said::About(_))));
        self.to_mend += u64::from(recovered != words);
        match Phase::of_state(words[word::STATE]) {
            Some(Phase::Growing) => self.growing += 1,
            Some(Phase::Shrinking) => self.shrinking += 1,
            _ => {}
        }
        Ok(maps.into_iter().nth(which).unwrap_or_default())
    }
}
