//! Where the asking of two tables finds them: sound ones in every phase that share some keys, what cuts and damage leave of these, words of
//! no table, and slices that are too short for one.

use ragansils::Phase;
use ragansils_model::{make, word, Event, Slot, Table, LEAST_LIST_WORDS, SLOTS_PER_BUCKET, SUCCESS};

use crate::case::phase_of;
use crate::conversion_sources::sound_table_of;
use crate::damage;
use crate::going_on::change_by_model;
use crate::history::{any_item, Setting};
use crate::layout::{buckets_of, is_place, level_of_bucket, TAGGED};
use crate::overlaid::{Astray, BAD_TABLE};
use crate::overlay_tally::{way_of, Made, Way, LARGEST_CAPACITY};
use crate::random::Random;
use crate::tag_damage;
use crate::wild::wild_table;

/// Most tables are small: a large one costs as much as many of them, and shows the same.
const SMALL_CAPACITY: u64 = 5;
const LARGE_ONE_IN: u64 = 5;

/// So many keys of the other tables each table gets at most.
const MOST_SHARED: u64 = 8;

/// So often a change is looked for that can be cut, and damage that does what is wanted.
const TRIES: usize = 40;

/// Sound tables of one form, one in each phase.
pub struct Sources {
    form: u64,
    by_phase: Vec<Vec<u64>>,
}

impl Sources {
    /// Of a newer table and of an older one, which hold some of each other's keys, under other records.
    pub fn both(random: &mut Random, forms: [u64; 2]) -> [Sources; 2] {
        let mut both = forms.map(|form| Sources {
            form,
            by_phase: Phase::ALL.into_iter().map(|phase| sound_table_in(random, form, phase)).collect(),
        });
        let [newer, older] = &mut both;
        newer.share(random, older);
        older.share(random, newer);
        both
    }

    fn share(&mut self, random: &mut Random, others: &Sources) {
        for table in &mut self.by_phase {
            for _ in 0..1 + random.below(MOST_SHARED) {
                let other = &others.by_phase[random.index(others.by_phase.len())];
                let key = any_key(random, other).unwrap_or(0);
                let (function, place) = (random.any_word(), random.any_word());
                change_by_model(table, Event::Insert { key, function, place });
            }
        }
    }

    pub fn sound(&self, phase: Phase) -> &[u64] {
        let at = Phase::ALL.into_iter().position(|one| one == phase).unwrap_or(0);
        &self.by_phase[at]
    }

    /// A table that was made so and does so with every lookup. `other` is what it is asked with.
    pub fn table(&self, random: &mut Random, made: Made, way: Way, other: &Sources) -> Vec<u64> {
        let sound = &self.by_phase[random.index(self.by_phase.len())];
        match made {
            Made::Sound(phase) => self.sound(phase).to_vec(),
            Made::CutUpdate => cut_update(random, sound),
            Made::OtherCut => other_cut(random, sound),
            Made::Damaged if way == Way::LooksUp && random.one_in(2) => {
                let phase = random.pick(&Phase::ALL);
                let key = any_key(random, other.sound(phase)).unwrap_or(7);
                with_key_astray(random, sound, key)
            }
            Made::Damaged => tried_until(way, || {
                let mut words = sound.clone();
                damage::damage(random, &mut words);
                words
            }),
            Made::NoTable => no_table(random, self.form, way),
            Made::Empty => vec![],
            Made::Short => sound[..1 + random.index(sound.len() - 1)].to_vec(),
        }
    }
}

/// Some key of a table.
pub fn any_key(random: &mut Random, table: &[u64]) -> Option<u64> {
    any_item(random, table).map(|slot| table[slot.key_word()])
}

fn sound_table_in(random: &mut Random, form: u64, phase: Phase) -> Vec<u64> {
    loop {
        let setting = any_setting(random, form, phase);
        let mut table = sound_table_of(random, setting);
        if bring_to(random, &mut table, phase) {
            return table;
        }
    }
}

/// A growing table is smaller than it can be, and a shrinking one was larger than the smallest.
fn any_setting(random: &mut Random, form: u64, phase: Phase) -> Setting {
    let c = match random.one_in(LARGE_ONE_IN) {
        true => SMALL_CAPACITY + 1 + random.below(LARGEST_CAPACITY - SMALL_CAPACITY),
        false => 1 + random.below(SMALL_CAPACITY),
    };
    let c = if phase == Phase::AtRest { c } else { c.max(2) };
    let k = match phase {
        Phase::AtRest => 1 + random.below(c),
        Phase::Growing => 1 + random.below(c - 1),
        Phase::Shrinking => 2 + random.below(c - 1),
    };
    Setting { k, ..Setting::of_capacity(random, form, c) }
}

/// Whether a sound table could be brought to a phase. A growth or a shrink comes somewhere, or nowhere at all.
fn bring_to(random: &mut Random, table: &mut [u64], phase: Phase) -> bool {
    let event = match (phase_of(table), phase) {
        (Some(now), wanted) if now == wanted => return true,
        (Some(Phase::AtRest), Phase::Growing) => Event::Begin,
        (Some(Phase::AtRest), Phase::Shrinking) => Event::Shrink,
        (_, Phase::AtRest) => return false,
        _ => Event::Back,
    };
    let is_begun = change_by_model(table, event) == SUCCESS;
    for _ in 0..random.below(6) {
        change_by_model(table, Event::Step);
    }
    is_begun
}

/// An update in a full bucket, cut while its flag is set; where there is none, the same by hand.
fn cut_update(random: &mut Random, sound: &[u64]) -> Vec<u64> {
    let update = |random: &mut Random| {
        let (function, place) = (random.any_word(), random.any_word());
        any_key(random, sound).map(|key| Event::Update { key, function, place })
    };
    let is_flagged = |words: &[u64]| words[word::FLAG] != 0;
    cut(random, sound, update, is_flagged).unwrap_or_else(|| {
        let mut words = sound.to_vec();
        damage::flagged_item(random, &mut words);
        words[word::FLAG] = 1;
        words
    })
}

/// An insert, an update or a step that was cut with flag 0; the sound table, where none can be.
fn other_cut(random: &mut Random, sound: &[u64]) -> Vec<u64> {
    let change = |random: &mut Random| {
        let (new_key, function, place) = (random.word(), random.any_word(), random.any_word());
        let key = any_key(random, sound).unwrap_or(new_key);
        Some(random.pick(&[
            Event::Insert { key: new_key, function, place },
            Event::Update { key, function, place },
            Event::Step,
        ]))
    };
    let is_unflagged = |words: &[u64]| words[word::FLAG] == 0;
    cut(random, sound, change, is_unflagged).unwrap_or_else(|| sound.to_vec())
}

/// What a change leaves after some of its stores and not all, where that is wanted.
fn cut(
    random: &mut Random,
    sound: &[u64],
    change: impl Fn(&mut Random) -> Option<Event>,
    is_wanted: impl Fn(&[u64]) -> bool,
) -> Option<Vec<u64>> {
    for _ in 0..TRIES / 4 {
        let mut list = [0; LEAST_LIST_WORDS];
        let (_, stores) = change(random)?.list_stores(sound, &mut list);
        if stores > 1 {
            let mut words = sound.to_vec();
            make(&mut words, &list, 1 + random.below(stores - 1));
            if is_wanted(&words) {
                return Some(words);
            }
        }
    }
    None
}

fn tried_until(way: Way, mut words: impl FnMut() -> Vec<u64>) -> Vec<u64> {
    let is_wanted = |words: &Vec<u64>| way_of(words) == way;
    (0..TRIES).map(|_| words()).find(is_wanted).unwrap_or_default()
}

/// A flag is seldom wrong by chance.
fn no_table(random: &mut Random, form: u64, way: Way) -> Vec<u64> {
    let before = if way == Way::Refuses(BAD_TABLE) { way } else { Way::LooksUp };
    let mut words = tried_until(before, || wild_table(random, form));
    if before != way && !words.is_empty() {
        words[word::FLAG] = 1 + random.below(u64::MAX);
    }
    words
}

/// A sound table but for a key that stands where no lookup finds it, in one of the four ways that there are.
fn with_key_astray(random: &mut Random, sound: &[u64], key: u64) -> Vec<u64> {
    let mut words = sound.to_vec();
    change_by_model(&mut words, Event::Delete { key });
    let way = random.pick(&Astray::ALL);
    let fits: Vec<usize> = (0..buckets_of(sound)).filter(|&bucket| fits(sound, key, bucket, way)).collect();
    if fits.is_empty() {
        return words;
    }
    let slot = Slot { bucket: random.pick(&fits), number: random.index(SLOTS_PER_BUCKET) };
    words[slot.key_word()] = key;
    if way == Astray::FreeSlot || (way == Astray::UnusedLevel && random.one_in(2)) {
        words[slot.token_word()] &= !slot.token_bit();
    } else {
        tag_damage::show(&mut words, slot);
    }
    if way == Astray::OtherTag {
        // Form 1 has none: there the key is held.
        let shift = 8 + 8 * slot.number;
        let has_tags = Table::read(&words).map_or(false, |table| table.form() == TAGGED);
        words[slot.token_word()] ^= if has_tags { (1 + random.below(255)) << shift } else { 0 };
    }
    words
}

/// Whether a key is astray so in a bucket.
fn fits(table: &[u64], key: u64, bucket: usize, way: Astray) -> bool {
    match (way, level_of_bucket(table, bucket)) {
        (Astray::UnusedLevel, level) => level.is_none(),
        (Astray::OtherPlace, Some(buckets)) => !is_place(table, key, bucket, buckets),
        (Astray::FreeSlot | Astray::OtherTag, Some(buckets)) => is_place(table, key, bucket, buckets),
        (_, None) => false,
    }
}

#[cfg(test)]
mod tests {
    use super::*;
    use crate::layout::{check_tokens, FORMS};
    use crate::overlaid::{astray, is_held};
    use crate::plain_map;

    #[test]
    fn each_table_is_made_as_it_is_called() {
        let mut random = Random::new(1);
        for form in FORMS.into_iter().cycle().take(20) {
            let [newer, older] = Sources::both(&mut random, [form, 3 - form]);
            for made in Made::ALL {
                for &way in made.ways() {
                    let table = newer.table(&mut random, made, way, &older);
                    assert_eq!(way_of(&table), way, "{made}");
                    assert!(made != Made::Short || (1..=6652).contains(&table.len()));
                }
            }
        }
    }

    #[test]
    fn sound_tables_are_sound_and_share_keys() {
        let mut random = Random::new(1);
        let mut shared = 0;
        for form in FORMS.into_iter().cycle().take(20) {
            let both = Sources::both(&mut random, [form, form]);
            let maps = Phase::ALL.map(|phase| {
                [&both[0], &both[1]].map(|sources| {
                    let table = sources.sound(phase);
                    assert_eq!((check_tokens(table), phase_of(table)), (Ok(()), Some(phase)));
                    plain_map::of_table(table).expect("no key stands twice")
                })
            });
            shared +=
                maps.iter().filter(|[newer, older]| newer.keys().any(|key| older.contains_key(key))).count();
        }
        assert!(shared > 30, "{shared} of 60");
    }

    #[test]
    fn keys_go_astray_in_every_way() {
        let mut random = Random::new(1);
        let mut seen = vec![];
        for form in FORMS.into_iter().cycle().take(200) {
            let setting = any_setting(&mut random, form, Phase::AtRest);
            let sound = sound_table_of(&mut random, setting);
            let table = with_key_astray(&mut random, &sound, 77);
            // Form 1 has no other tag to stand under.
            assert!(form == 1 || !is_held(&table, 77));
            seen.extend(astray(&table, 77));
        }
        assert!(Astray::ALL.into_iter().all(|way| seen.contains(&way)));
    }
}
