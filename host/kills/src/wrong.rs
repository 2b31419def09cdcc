//! Collectors with a mistake. The comparison must catch each of them, or it would show nothing of the right one.

use ragansils::{Form, Platform};
use ragansils_model::{word, Event, LEAST_LIST_WORDS, PHASE_UNIT};

use crate::collector::{say, Gate};
use crate::said::Said;

/// Where token words stand, and which of their bits are tags.
const FIRST_TOKEN: u64 = 9;
const BUCKET_WORDS: u64 = 13;
const TOKEN_MODULUS: u64 = 16;
const TAGS: u64 = 0xff_ffff_ff00;

#[derive(Clone, Copy, Debug, PartialEq, Eq)]
pub enum Wrong {
    /// Makes the stores of a list from its end.
    Backwards,
    /// Makes the last store of a list first: of an insert the token before the record.
    LastFirst,
    /// Updates a full bucket's two words without the log.
    WithoutLog,
    /// Stores the state of a shrink as if the table grew.
    ShrinkAsGrowth,
    /// Says that a change is done before it is.
    DoneTooSoon,
    /// Does not recover when it opens the table.
    WithoutRecovery,
    /// Stores token words as those of form 1: without tags.
    WithoutTags,
    /// Clears the bit of a slot and leaves its tag.
    TagLeftOver,
}

impl Wrong {
    pub const ALL: [Wrong; 8] = [
        Wrong::Backwards,
        Wrong::LastFirst,
        Wrong::WithoutLog,
        Wrong::ShrinkAsGrowth,
        Wrong::DoneTooSoon,
        Wrong::WithoutRecovery,
        Wrong::WithoutTags,
        Wrong::TagLeftOver,
    ];

    pub fn name(self) -> &'static str {
        match self {
            Wrong::Backwards => "backwards",
            Wrong::LastFirst => "last-first",
            Wrong::WithoutLog => "without-log",
            Wrong::ShrinkAsGrowth => "shrink-as-growth",
            Wrong::DoneTooSoon => "done-too-soon",
            Wrong::WithoutRecovery => "without-recovery",
            Wrong::WithoutTags => "without-tags",
            Wrong::TagLeftOver => "tag-left-over",
        }
    }

    /// The words by which it must be caught, where they do not hang on what the slot held before.
    pub fn sign(self) -> &'static str {
        match self {
            Wrong::Backwards | Wrong::LastFirst => "",
            Wrong::WithoutLog => "half new",
            Wrong::ShrinkAsGrowth | Wrong::WithoutTags | Wrong::TagLeftOver => "cannot open the table",
            Wrong::DoneTooSoon => "neither map",
            Wrong::WithoutRecovery => "recovery has something to mend",
        }
    }

    /// Form 1 has no tags.
    pub fn is_wrong_in(self, form: Form) -> bool {
        form == Form::Two || !matches!(self, Wrong::WithoutTags | Wrong::TagLeftOver)
    }

    pub fn read(name: &str) -> Option<Wrong> {
        Wrong::ALL.into_iter().find(|wrong| wrong.name() == name)
    }
}

/// Lists a change's stores as it should, and makes them as it should not.
pub fn change(words: &mut [u64], event: Event, wrong: Wrong, gate: &mut Gate) {
    let mut list = [0; LEAST_LIST_WORDS];
    let (_, count) = event.list_stores(words, &mut list);
    let mut stores: Vec<[u64; 2]> =
        list.chunks_exact(2).take(count as usize).map(|pair| [pair[0], pair[1]]).collect();
    match wrong {
        Wrong::Backwards => stores.reverse(),
        Wrong::LastFirst => stores.rotate_right(1),
        Wrong::WithoutLog => stores.retain(|&[index, _]| index > word::UPDATE_PLACE as u64),
        Wrong::ShrinkAsGrowth => stores.iter_mut().for_each(as_growth),
        Wrong::DoneTooSoon => say(Said::Done(0)),
        Wrong::WithoutTags => token_stores(&mut stores).for_each(|[_, value]| *value %= TOKEN_MODULUS),
        Wrong::TagLeftOver => {
            token_stores(&mut stores).for_each(|[index, value]| *value |= words[*index as usize] & TAGS)
        }
        Wrong::WithoutRecovery => {}
    }
    for [index, value] in stores {
        let word = &mut words[index as usize];
        *word = value;
        gate.stored(word);
    }
}

/// The stores that go to token words: each bucket begins with one.
fn token_stores(stores: &mut [[u64; 2]]) -> impl Iterator<Item = &mut [u64; 2]> {
    stores.iter_mut().filter(|[index, _]| *index >= FIRST_TOKEN && (*index - FIRST_TOKEN) % BUCKET_WORDS == 0)
}

/// The state word of phase 2 becomes that of phase 1.
fn as_growth([index, value]: &mut [u64; 2]) {
    if *index == word::STATE as u64 && *value / PHASE_UNIT == 2 {
        *value -= PHASE_UNIT;
    }
}
