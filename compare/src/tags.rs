//! What calls do with the token words of damaged tables: checked against the words alone, without the model, and counted.
//!
//! Request g) of document 02 was read so: "in a damaged table a wrong tag hides a key"; other calls than recovery keep the bits that they
//! do not change; "showing a slot overwrites its tag bits, hiding one sets them to 0, whatever stood there"; and "a moved item's tag comes
//! from its key".

use std::collections::{BTreeMap, BTreeSet, HashMap};
use std::fmt::{self, Display};

use ragansils_model::{Event, Table, SUCCESS};

use crate::case::{Call, Case, Outcome};
use crate::chain::key_of;
use crate::layout::{
    bucket_and_offset, buckets_of, is_place, is_taken, key_word, level_of_bucket, levels_in_use, meant_token,
    tag_in, tag_of, token_word, without_slot, FORM, SLOTS, STATE, TAGGED,
};
use crate::random::Random;
use crate::tag_damage::{BITS_40_AND_UP, BITS_4_TO_7};

/// How the token words of a table of form 2 are damaged, in its levels in use.
#[derive(Clone, Copy, Debug, PartialEq, Eq, PartialOrd, Ord)]
pub enum Kind {
    WrongTag,
    TagOfFreeSlot,
    Bits4To7,
    Bits40AndUp,
    TwoTagsOfOneKey,
    /// Tags and bits of no slot, all in one word.
    WholeWord,
}

pub const KINDS: [Kind; 6] = [
    Kind::WrongTag,
    Kind::TagOfFreeSlot,
    Kind::Bits4To7,
    Kind::Bits40AndUp,
    Kind::TwoTagsOfOneKey,
    Kind::WholeWord,
];

impl Display for Kind {
    fn fmt(&self, out: &mut fmt::Formatter) -> fmt::Result {
        let name = match self {
            Kind::WrongTag => "a wrong tag on a taken slot",
            Kind::TagOfFreeSlot => "a tag on a free slot",
            Kind::Bits4To7 => "bits 4 to 7",
            Kind::Bits40AndUp => "bits 40 and up",
            Kind::TwoTagsOfOneKey => "two copies with different tags",
            Kind::WholeWord => "a whole word replaced",
        };
        write!(out, "{name}")
    }
}

/// What is met with each kind of damage.
const WITH_EACH_KIND: [&str; 15] = [
    "query found",
    "query refused with 5",
    "chain whole",
    "chain refused with 5",
    "insert of 4",
    "insert of 9",
    "insert refused with 4",
    "update of 4",
    "update of 7",
    "update refused with 5",
    "delete of 1",
    "delete refused with 5",
    "back of 1",
    "step of 5",
    "recover refused with 12",
];

/// What damage does to a call, and a call to damage.
const EFFECTS: [&str; 12] = [
    HIDDEN_FROM_QUERY,
    "hidden from chain",
    "hidden from insert",
    "hidden from update",
    "hidden from delete",
    TOLD_BEHIND_HIDDEN,
    SHOWN_OVER_TAG,
    HIDDEN_WRONG_TAG,
    MOVED_WITH_WRONG_TAG,
    KEPT_WRONG_TAG,
    KEPT_BITS_4_TO_7,
    KEPT_BITS_40_AND_UP,
];

const HIDDEN_FROM_QUERY: &str = "hidden from query";
const TOLD_BEHIND_HIDDEN: &str = "a copy told behind a hidden one";
const SHOWN_OVER_TAG: &str = "shown over another tag";
const HIDDEN_WRONG_TAG: &str = "a wrong tag cleared with its slot";
const MOVED_WITH_WRONG_TAG: &str = "moved from under a wrong tag";
const KEPT_WRONG_TAG: &str = "a wrong tag kept";
const KEPT_BITS_4_TO_7: &str = "bits 4 to 7 kept";
const KEPT_BITS_40_AND_UP: &str = "bits 40 and up kept";

#[derive(Default)]
pub struct TagTally {
    pub met: BTreeMap<(Kind, String), u64>,
    pub effects: BTreeMap<&'static str, u64>,
}

impl TagTally {
    /// Counts a call by the damage of its table. Tables of form 1, and those with a bad header, have none.
    pub fn count_case(&mut self, case: &Case, outcome: &Outcome) {
        for kind in kinds_in(&case.table) {
            *self.met.entry((kind, answered(case.call, outcome))).or_default() += 1;
        }
    }

    /// Checks what a call makes of the tags of its table, and counts it.
    pub fn look_at(&mut self, case: &Case, outcome: &Outcome) -> Result<(), String> {
        if Table::read(&case.table).is_err() {
            return Ok(());
        }
        self.look_at_recovery(case, outcome)?;
        self.look_at_key(case, outcome)?;
        self.look_at_stores(case, outcome)
    }

    /// Of what is to be met, that which was met less often than this.
    pub fn rare(&self, least: u64) -> Vec<String> {
        let kinds = KINDS.into_iter().flat_map(|kind| WITH_EACH_KIND.map(|what| (kind, what.to_string())));
        let with_kinds = kinds.map(|met| {
            let count = self.met.get(&met).copied().unwrap_or(0);
            (format!("{}: {}", met.0, met.1), count)
        });
        let effect = |name| (String::from(name), self.effects.get(name).copied().unwrap_or(0));
        let all = with_kinds.chain(EFFECTS.into_iter().map(effect));
        all.filter(|(_, count)| *count < least)
            .map(|(what, count)| format!("{what}, met {count} times"))
            .collect()
    }

    fn add(&mut self, effect: &'static str) {
        *self.effects.entry(effect).or_default() += 1;
    }

    /// "the words are tested before copies are looked for"
    fn look_at_recovery(&self, case: &Case, outcome: &Outcome) -> Result<(), String> {
        if case.call != Call::Change(Event::Recover) || outcome.number != SUCCESS {
            return Ok(());
        }
        let table = &case.table;
        let is_wrong = |bucket: &usize| table[token_word(*bucket)] != meant_token(table, *bucket);
        match (0..buckets_of(table)).find(is_wrong) {
            None => Ok(()),
            Some(bucket) => Err(format!("recovery accepts the token word of bucket {bucket}")),
        }
    }

    /// "a wrong tag hides a key"
    fn look_at_key(&mut self, case: &Case, outcome: &Outcome) -> Result<(), String> {
        let key = match key_asked(case.call) {
            Some(key) if case.table[FORM] == TAGGED => key,
            _ => return Ok(()),
        };
        let number = outcome.number;
        match copies_by_tag(&case.table, key)[..] {
            [] | [true, ..] => Ok(()),
            [false, ref later @ ..] if later.contains(&true) => {
                if number == SUCCESS && matches!(case.call, Call::Query { .. }) {
                    self.add(TOLD_BEHIND_HIDDEN);
                }
                Ok(())
            }
            _ => match answer_without_key(case.call, number) {
                Some(name) => {
                    self.add(name);
                    Ok(())
                }
                None if [2, 3, 15, 16].contains(&number) => Ok(()),
                None => Err(format!("answer {number}, though a wrong tag hides the key")),
            },
        }
    }

    /// Each token store changes the bits of the slots that it shows and hides, and no others.
    fn look_at_stores(&mut self, case: &Case, outcome: &Outcome) -> Result<(), String> {
        if !matches!(case.call, Call::Change(_)) || outcome.number != SUCCESS {
            return Ok(());
        }
        let mut table = case.table.clone();
        let stores: Vec<(usize, u64)> = outcome
            .list
            .chunks_exact(2)
            .take(outcome.stores() as usize)
            .map(|pair| (pair[0] as usize, pair[1]))
            .collect();
        for &(index, word) in &stores {
            if let Some((bucket, 0)) = bucket_and_offset(index) {
                self.look_at_token(&table, bucket, word)?;
            }
            table[index] = word;
        }
        self.look_at_move(&case.table, &stores);
        Ok(())
    }

    fn look_at_token(&mut self, table: &[u64], bucket: usize, word: u64) -> Result<(), String> {
        let (form, token) = (table[FORM], table[token_word(bucket)]);
        let mut expected = if form == TAGGED { token } else { token % 16 };
        for slot in (0..SLOTS).filter(|&slot| is_taken(word, slot) != is_taken(token, slot)) {
            let right = tag_of(table, table[key_word(bucket, slot)]);
            expected = without_slot(form, expected, slot);
            if is_taken(word, slot) {
                expected |= 1 << slot | right << (8 + 8 * slot);
            }
            let shows_over =
                form == TAGGED && is_taken(word, slot) && ![0, right].contains(&tag_in(token, slot));
            let hides_wrong = form == TAGGED && is_taken(token, slot) && tag_in(token, slot) != right;
            if shows_over {
                self.add(SHOWN_OVER_TAG);
            }
            if hides_wrong {
                self.add(HIDDEN_WRONG_TAG);
            }
        }
        if word != expected {
            return Err(format!(
                "the token word {token} of bucket {bucket} becomes {word}, and not {expected}"
            ));
        }
        if form == TAGGED {
            self.count_kept(table, bucket, word);
        }
        Ok(())
    }

    fn count_kept(&mut self, table: &[u64], bucket: usize, word: u64) {
        let token = table[token_word(bucket)];
        let is_kept = |slot: &usize| is_taken(word, *slot) && is_taken(token, *slot);
        let is_wrong = |slot: usize| tag_in(word, slot) != tag_of(table, table[key_word(bucket, slot)]);
        if (0..SLOTS).filter(is_kept).any(is_wrong) {
            self.add(KEPT_WRONG_TAG);
        }
        if word & BITS_4_TO_7 != 0 {
            self.add(KEPT_BITS_4_TO_7);
        }
        if word & BITS_40_AND_UP != 0 {
            self.add(KEPT_BITS_40_AND_UP);
        }
    }

    /// Where nine or ten stores are listed, the fifth hides the slot that an item moved from.
    fn look_at_move(&mut self, table: &[u64], stores: &[(usize, u64)]) {
        let (from, key) = match *stores {
            [(_, key), _, _, _, (from, _), _, _, _, _, ..] if table[FORM] == TAGGED => (from, key),
            _ => return,
        };
        let bucket = bucket_and_offset(from).map_or(0, |(bucket, _)| bucket);
        let is_from = |slot: &usize| is_taken(table[from], *slot) && table[key_word(bucket, *slot)] == key;
        let mut slots = (0..SLOTS).filter(is_from);
        if slots.any(|slot| tag_in(table[from], slot) != tag_of(table, key)) {
            self.add(MOVED_WITH_WRONG_TAG);
        }
    }
}

/// The key that a call looks for. Of a chain it is the first one.
fn key_asked(call: Call) -> Option<u64> {
    match call {
        Call::Query { key } => Some(key),
        Call::Chain(chain) => chain.is_within_bounds().then(|| key_of(chain.address, chain.depth)),
        Call::Change(Event::Insert { key, .. } | Event::Update { key, .. } | Event::Delete { key }) => {
            Some(key)
        }
        _ => None,
    }
}

/// What a call met that did not find its key; none where its number tells that it did.
fn answer_without_key(call: Call, number: u64) -> Option<&'static str> {
    let hidden = EFFECTS.into_iter().find(|effect| effect.strip_prefix("hidden from ") == Some(call.name()));
    let fits = match call {
        Call::Change(Event::Insert { .. }) => [SUCCESS, 6].contains(&number),
        _ => number == 5,
    };
    hidden.filter(|_| fits)
}

/// Of each slot that holds the key in one of its places, in the probe order: whether it has the key's tag.
fn copies_by_tag(table: &[u64], key: u64) -> Vec<bool> {
    let mut copies = vec![];
    for buckets in levels_in_use(table[STATE]) {
        for bucket in buckets - 1..2 * buckets - 1 {
            let token = table[token_word(bucket)];
            if token % 16 == 0 || !is_place(table, key, bucket, buckets) {
                continue;
            }
            let holds_key = |slot: &usize| is_taken(token, *slot) && table[key_word(bucket, *slot)] == key;
            copies.extend((0..SLOTS).filter(holds_key).map(|slot| tag_in(token, slot) == tag_of(table, key)));
        }
    }
    copies
}

/// The key of some item whose tag is another.
pub fn key_under_wrong_tag(random: &mut Random, table: &[u64]) -> Option<u64> {
    let is_tagged = Table::read(table).map_or(false, |table| table.form() == TAGGED);
    let buckets = if is_tagged { buckets_of(table) } else { 0 };
    let in_use = (0..buckets).filter(|&bucket| level_of_bucket(table, bucket).is_some());
    let slots =
        in_use.flat_map(|bucket| (0..SLOTS).map(move |slot| (table[token_word(bucket)], bucket, slot)));
    let taken = slots.filter(|&(token, _, slot)| is_taken(token, slot));
    let items = taken.map(|(token, bucket, slot)| (table[key_word(bucket, slot)], tag_in(token, slot)));
    let keys: Vec<u64> = items.filter(|&(key, tag)| tag != tag_of(table, key)).map(|(key, _)| key).collect();
    (!keys.is_empty()).then(|| random.pick(&keys))
}

fn answered(call: Call, outcome: &Outcome) -> String {
    match (call, outcome.number) {
        (Call::Query { .. }, SUCCESS) => "query found".to_string(),
        (Call::Chain(_), SUCCESS) => "chain whole".to_string(),
        (_, SUCCESS) => format!("{} of {}", call.name(), outcome.stores()),
        (_, number) => format!("{} refused with {number}", call.name()),
    }
}

/// The kinds of damage that a table has.
pub fn kinds_in(table: &[u64]) -> BTreeSet<Kind> {
    let is_tagged = Table::read(table).map_or(false, |table| table.form() == TAGGED);
    let buckets = if is_tagged { buckets_of(table) } else { 0 };
    let mut kinds = BTreeSet::new();
    let mut tags: HashMap<u64, u64> = HashMap::new();
    for bucket in (0..buckets).filter(|&bucket| level_of_bucket(table, bucket).is_some()) {
        let token = table[token_word(bucket)];
        kinds.extend(kinds_of_token(table, bucket));
        for slot in (0..SLOTS).filter(|&slot| is_taken(token, slot)) {
            let (key, tag) = (table[key_word(bucket, slot)], tag_in(token, slot));
            if *tags.entry(key).or_insert(tag) != tag {
                kinds.insert(Kind::TwoTagsOfOneKey);
            }
        }
    }
    kinds
}

fn kinds_of_token(table: &[u64], bucket: usize) -> Vec<Kind> {
    let token = table[token_word(bucket)];
    let meant = meant_token(table, bucket);
    let differs = |slot: usize| tag_in(token, slot) != tag_in(meant, slot);
    let wrong_tag = (0..SLOTS).any(|slot| is_taken(token, slot) && differs(slot));
    let tag_of_free = (0..SLOTS).any(|slot| !is_taken(token, slot) && differs(slot));
    let (low, high) = (token & BITS_4_TO_7 != 0, token & BITS_40_AND_UP != 0);
    let whole = (wrong_tag || tag_of_free) && low && high;
    let found = [
        (Kind::WrongTag, wrong_tag),
        (Kind::TagOfFreeSlot, tag_of_free),
        (Kind::Bits4To7, low),
        (Kind::Bits40AndUp, high),
        (Kind::WholeWord, whole),
    ];
    found.into_iter().filter(|(_, is_there)| *is_there).map(|(kind, _)| kind).collect()
}

#[cfg(test)]
mod tests {
    use super::*;
    use crate::chain::Chain;
    use crate::history::{Setting, MARKED_1, MARKED_2};
    use crate::test_table::table_after;

    const KEY: u64 = 5 << 24 | 1;
    const OTHER: u64 = 7 << 24 | 3;

    /// Keys with tags 5 and 7 in slots 0 and 1 of bucket 2, whose token word is word 35.
    fn table(form: u64) -> Vec<u64> {
        let setting = Setting { form, c: 2, k: 1, mul1: MARKED_1, mul2: MARKED_2 };
        table_after(setting, [KEY, OTHER].map(|key| Event::Insert { key, function: 8, place: 9 }))
    }

    fn with_token(token: u64) -> Vec<u64> {
        let mut table = table(TAGGED);
        table[35] = token;
        table
    }

    fn look(
        tally: &mut TagTally,
        call: Call,
        table: &[u64],
        number: u64,
        list: &[u64],
    ) -> Result<(), String> {
        let case = Case { call, table: table.to_vec(), list: vec![] };
        let answer = vec![list.len() as u64 / 2];
        tally.look_at(&case, &Outcome { number, answer, table: vec![], list: list.to_vec() })
    }

    /// Whether a change that lists these words is let pass, and what is counted of it.
    fn effects(table: &[u64], list: &[u64]) -> Option<Vec<&'static str>> {
        let mut tally = TagTally::default();
        let call = Call::Change(Event::Insert { key: 99, function: 0, place: 0 });
        let looked = look(&mut tally, call, table, SUCCESS, list);
        looked.ok().map(|()| tally.effects.into_keys().collect())
    }

    #[test]
    fn damage_has_its_kinds() {
        let right = table(TAGGED)[35];
        assert_eq!(right, 3 | 5 << 8 | 7 << 16);
        let kinds = |token| kinds_in(&with_token(token)).into_iter().collect::<Vec<_>>();
        assert_eq!(kinds(right), []);
        assert_eq!(kinds(right ^ 1 << 8), [Kind::WrongTag]);
        assert_eq!(kinds(right | 1 << 24), [Kind::TagOfFreeSlot]);
        assert_eq!(kinds(right | 1 << 7), [Kind::Bits4To7]);
        assert_eq!(kinds(right | 1 << 40), [Kind::Bits40AndUp]);
        let all = [Kind::WrongTag, Kind::Bits4To7, Kind::Bits40AndUp, Kind::WholeWord];
        assert_eq!(kinds(right ^ (1 << 8 | 1 << 4 | 1 << 63)), all);
        let mut doubled = with_token(right);
        doubled[39] = KEY;
        assert_eq!(kinds_in(&doubled), BTreeSet::from([Kind::WrongTag, Kind::TwoTagsOfOneKey]));
        let mut of_form_1 = table(1);
        of_form_1[35] = u64::MAX;
        assert_eq!(kinds_in(&of_form_1), BTreeSet::new());
    }

    #[test]
    fn a_key_that_a_wrong_tag_hides_must_not_be_found() {
        let right = table(TAGGED)[35];
        let (key, function, place) = (KEY, 0, 0);
        let calls = [
            (Call::Query { key }, 0, 5),
            (Call::Chain(Chain::of_key(key)), 0, 5),
            (Call::Change(Event::Update { key, function, place }), 0, 5),
            (Call::Change(Event::Delete { key }), 0, 5),
            (Call::Change(Event::Insert { key, function, place }), 4, 6),
        ];
        for (call, found, absent) in calls {
            let mut tally = TagTally::default();
            let mut looked = |token, number| look(&mut tally, call, &with_token(token), number, &[]);
            assert!(looked(right, found).is_ok() && looked(right ^ 1 << 10, absent).is_ok());
            assert!(looked(right ^ 1 << 10, found).is_err(), "{call:?}");
            assert_eq!(tally.effects.into_values().collect::<Vec<_>>(), [1]);
        }
    }

    #[test]
    fn recovery_must_not_accept_a_wrong_word() {
        let right = table(TAGGED)[35];
        let mut tally = TagTally::default();
        let call = Call::Change(Event::Recover);
        assert!(look(&mut tally, call, &with_token(right), SUCCESS, &[]).is_ok());
        for bit in [4, 7, 8, 16, 24, 32, 40, 63] {
            assert!(look(&mut tally, call, &with_token(right ^ 1 << bit), 12, &[]).is_ok());
            assert!(
                look(&mut tally, call, &with_token(right ^ 1 << bit), SUCCESS, &[]).is_err(),
                "bit {bit}"
            );
        }
        let mut unused = with_token(right);
        unused[48] = 1 << 8;
        assert!(look(&mut tally, call, &unused, SUCCESS, &[]).is_err());
    }

    /// An item with tag 9 comes to slot 2, where stray bits stand.
    #[test]
    fn showing_a_slot_overwrites_its_tag_and_keeps_the_rest() {
        let right = table(TAGGED)[35];
        let put = |token| [42, 9 << 24 | 5, 43, 0, 44, 0, 35, token];
        let shown = right | 4 | 9 << 24;
        assert_eq!(effects(&with_token(right), &put(shown)), Some(vec![]));
        let stray = 3 << 24 | 1 << 5 | 1 << 50;
        let kept = shown | 1 << 5 | 1 << 50;
        let met = vec![KEPT_BITS_4_TO_7, KEPT_BITS_40_AND_UP, SHOWN_OVER_TAG];
        assert_eq!(effects(&with_token(right | stray), &put(kept)), Some(met));
        for wrong in [shown, kept | 3 << 24, kept ^ 1 << 8, kept ^ 1 << 24, kept % 16] {
            assert_eq!(effects(&with_token(right | stray), &put(wrong)), None, "{wrong}");
        }
    }

    #[test]
    fn hiding_a_slot_clears_its_tag() {
        let wrong = table(TAGGED)[35] ^ 1 << 9;
        assert_eq!(effects(&with_token(wrong), &[35, wrong & !0xff01]), Some(vec![HIDDEN_WRONG_TAG]));
        assert_eq!(effects(&with_token(wrong), &[35, wrong & !1]), None);
        assert_eq!(effects(&with_token(wrong), &[35, wrong & !0xff0002]), Some(vec![KEPT_WRONG_TAG]));
    }

    #[test]
    fn a_moved_item_has_its_own_tag() {
        let right = table(TAGGED)[35];
        let (wrong, hidden) = (right ^ 1 << 9, right & !0xff01);
        let moved = |tag: u64| {
            let there = [23, KEY, 24, 8, 25, 9, 22, 1 | tag << 8, 35, hidden];
            let new = [36, 9 << 24 | 5, 37, 0, 38, 0, 35, hidden | 1 | 9 << 8];
            effects(&with_token(wrong), &[there.to_vec(), new.to_vec()].concat())
        };
        assert_eq!(moved(5), Some(vec![HIDDEN_WRONG_TAG, MOVED_WITH_WRONG_TAG]));
        assert_eq!((moved(7), moved(0)), (None, None));
    }

    #[test]
    fn token_words_of_form_1_are_cut() {
        let mut table = table(1);
        table[35] |= 1 << 4 | 1 << 8;
        assert_eq!(effects(&table, &[35, 2]), Some(vec![]));
        assert_eq!(effects(&table, &[35, 2 | 1 << 4]), None);
    }

    #[test]
    fn what_was_seldom_met_is_told() {
        let mut tally = TagTally::default();
        let all = KINDS.len() * WITH_EACH_KIND.len() + EFFECTS.len();
        assert_eq!(tally.rare(1).len(), all);
        let table = with_token(table(TAGGED)[35] | 1 << 4);
        let case = Case { call: Call::Query { key: KEY }, table, list: vec![] };
        tally.count_case(
            &case,
            &Outcome { number: 0, answer: vec![8, 9, 1, 36, 0], table: vec![], list: vec![] },
        );
        tally.add(KEPT_WRONG_TAG);
        assert_eq!(tally.rare(1).len(), all - 2);
        assert!(tally.rare(2).contains(&"bits 4 to 7: query found, met 1 times".to_string()));
    }
}
