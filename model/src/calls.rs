//! The fourteen calls on one table, over raw words. A changing call only reads the table and
//! lists its stores; `make` makes them.

use crate::form::Form;
use crate::layout::{key_of, table_words, word, Level, Slot, LEAST_LIST_WORDS};
use crate::layout::{ADDRESS_LIMIT, LARGEST_DEPTH, WORDS_PER_CHAIN_RECORD};
use crate::placing::{find_placing, Placing};
use crate::recovery::{judge, Kind};
use crate::refusal::{Refusal, SUCCESS};
use crate::state::State;
use crate::table::{Found, Search, Table};

/// A word index and the new word.
type Store = (usize, u64);
type Plan = Result<Vec<Store>, Refusal>;

/// Zeroes all words and writes the header of an empty table at rest.
pub fn create(table: &mut [u64], form: u64, c: u64, k: u64, mul1: u64, mul2: u64) -> u64 {
    let form_good = Form::from_word(form).is_some();
    let length_good = table_words(c) == Some(table.len());
    let multipliers_good = mul1 % 2 == 1 && mul2 % 2 == 1;
    if !form_good || !length_good || !(1..=c).contains(&k) || !multipliers_good {
        return Refusal::BadCreation.number();
    }
    table.fill(0);
    table[word::FORM] = form;
    table[word::CAPACITY] = c;
    table[word::MULTIPLIER_1] = mul1;
    table[word::MULTIPLIER_2] = mul2;
    table[word::STATE] = State::at_rest(k).word();
    SUCCESS
}

/// Answers a number, then function, place, probe count, "the word index of the key found" and the number of its level.
pub fn query(table: &[u64], key: u64) -> (u64, [u64; 5]) {
    let table = match read_for_lookup(table) {
        Ok(table) => table,
        Err(refusal) => return query_refused(refusal, 0),
    };
    match table.search(key) {
        Search { found: Some(Found { level, slot }), probes } => {
            let [_, function, place] = table.record(slot);
            (SUCCESS, [function, place, probes, slot.key_word() as u64, level.number()])
        }
        Search { found: None, probes } => query_refused(Refusal::KeyAbsent, probes),
    }
}

/// Answers a number and the count of buckets looked at. Success writes the records of
/// "depth d, then each smaller depth down to 0": function and place, one after the other.
pub fn chain(table: &[u64], address: u64, depth: u64, records: &mut [u64]) -> (u64, u64) {
    if let Err(refusal) = check_chain(table, address, depth, records.len() as u64) {
        return (refusal.number(), 0);
    }
    let mut found = vec![];
    let mut count = 0;
    for asked in (0..=depth).rev() {
        let (number, [function, place, probes, ..]) = query(table, key_of(address, asked));
        // "the sum of the queries' probe counts down to the last depth asked, the missing one included".
        count += probes;
        if number != SUCCESS {
            // "The first missing depth gives 5 and nothing is written".
            return (number, count);
        }
        found.extend([function, place]);
    }
    // "success writes just those words".
    records[..found.len()].copy_from_slice(&found);
    (SUCCESS, count)
}

pub fn insert(table: &[u64], key: u64, function: u64, place: u64, list: &mut [u64]) -> (u64, u64) {
    change(table, list, |table| {
        if table.search(key).found.is_some() {
            return Err(Refusal::KeyPresent);
        }
        placing_stores(table, [key, function, place])
    })
}

pub fn update(table: &[u64], key: u64, function: u64, place: u64, list: &mut [u64]) -> (u64, u64) {
    change(table, list, |table| {
        let old = slot_of(table, key)?;
        Ok(match table.lowest_free_slot(old.bucket) {
            Some(free) => update_beside(table, old, free, [key, function, place]),
            None => update_under_flag(old, function, place),
        })
    })
}

pub fn delete(table: &[u64], key: u64, list: &mut [u64]) -> (u64, u64) {
    change(table, list, |table| {
        let slot = slot_of(table, key)?;
        Ok(vec![token_cleared(table, slot)])
    })
}

pub fn begin(table: &[u64], list: &mut [u64]) -> (u64, u64) {
    change_state(table, list, |table| table.state.begin(table.capacity()))
}

pub fn shrink(table: &[u64], list: &mut [u64]) -> (u64, u64) {
    change_state(table, list, |table| table.state.shrink())
}

/// Turns a growth into a shrink and a shrink into a growth, whatever stands in the levels.
pub fn back(table: &[u64], list: &mut [u64]) -> (u64, u64) {
    change_state(table, list, |table| table.state.turn_back())
}

/// "`step` keeps its own name, promise and numbers, and is `step_from` with 0."
pub fn step(table: &[u64], list: &mut [u64]) -> (u64, u64) {
    let (number, [stores, _bucket]) = step_from(table, 0, list);
    (number, stores)
}

/// "the step over the interim buckets from a given one on, counted from 0 in the level". Answers a number, then the
/// stores and "the bucket (counted the same) in which the item stood, to go on from".
pub fn step_from(table: &[u64], from: u64, list: &mut [u64]) -> (u64, [u64; 2]) {
    // "the bucket told with a refusal is 0".
    let mut bucket = 0;
    let (number, stores) = change(table, list, |table| {
        let interim = table.interim().ok_or(Refusal::NotResizing)?;
        let item = first_item_with_place(table, interim, from)?;
        let mut stores = placing_stores(table, table.record(item))?;
        stores.push(token_cleared(table, item));
        bucket = interim.number_of(item.bucket);
        Ok(stores)
    });
    (number, [stores, bucket])
}

pub fn end(table: &[u64], list: &mut [u64]) -> (u64, u64) {
    change_state(table, list, |table| {
        let interim = table.interim().ok_or(Refusal::NotResizing)?;
        if !table.taken_slots(&[interim]).is_empty() {
            return Err(Refusal::InterimNotEmpty);
        }
        Ok(table.state.end())
    })
}

pub fn recover(table: &[u64], list: &mut [u64]) -> (u64, u64) {
    answer(list, |list_words| {
        let table = read_for_list(table, list_words)?;
        let kind = judge(&table).ok_or(Refusal::NotRecoverable)?;
        Ok(match kind {
            Kind::Sound => vec![],
            Kind::Doubled(later) => vec![token_cleared(&table, later)],
            Kind::Flagged(slot) => vec![
                (slot.function_word(), table.word(word::UPDATE_FUNCTION)),
                (slot.place_word(), table.word(word::UPDATE_PLACE)),
                (word::FLAG, 0),
            ],
        })
    })
}

/// Makes the first `n` stores of a list, or none of them.
pub fn make(table: &mut [u64], list: &[u64], n: u64) -> u64 {
    let whole_pairs = list.len() as u64 / 2;
    if n > whole_pairs {
        return Refusal::BadStores.number();
    }
    let pairs = || list.chunks_exact(2).take(n as usize).map(|pair| (pair[0], pair[1]));
    if pairs().any(|(index, _)| index >= table.len() as u64) {
        return Refusal::BadStores.number();
    }
    for (index, new_word) in pairs() {
        table[index as usize] = new_word;
    }
    SUCCESS
}

/// The frame of a changing call: refusals 1, 2, 3 in this order, then its own plan.
fn change(table: &[u64], list: &mut [u64], plan: impl FnOnce(&Table) -> Plan) -> (u64, u64) {
    answer(list, |list_words| plan(&refuse_flag(read_for_list(table, list_words)?)?))
}

/// The frame of a changing call that stores a new state and nothing else.
fn change_state(
    table: &[u64],
    list: &mut [u64],
    next: impl FnOnce(&Table) -> Result<State, Refusal>,
) -> (u64, u64) {
    change(table, list, |table| {
        let state = next(table)?;
        Ok(vec![(word::STATE, state.word())])
    })
}

/// Writes an accepted plan's stores to the list; a refused one leaves it alone.
fn answer(list: &mut [u64], plan: impl FnOnce(usize) -> Plan) -> (u64, u64) {
    match plan(list.len()) {
        Err(refusal) => (refusal.number(), 0),
        Ok(stores) => {
            for (pair, (index, new_word)) in list.chunks_exact_mut(2).zip(&stores) {
                pair[0] = *index as u64;
                pair[1] = *new_word;
            }
            (SUCCESS, stores.len() as u64)
        }
    }
}

fn read_for_list(table: &[u64], list_words: usize) -> Result<Table<'_>, Refusal> {
    let table = Table::read(table)?;
    if list_words < LEAST_LIST_WORDS {
        return Err(Refusal::ShortList);
    }
    Ok(table)
}

/// What refuses a call that only looks for keys, before it does: 1, then 3.
pub(crate) fn read_for_lookup(table: &[u64]) -> Result<Table<'_>, Refusal> {
    Table::read(table).and_then(refuse_flag)
}

fn refuse_flag(table: Table) -> Result<Table, Refusal> {
    match table.word(word::FLAG) {
        0 => Ok(table),
        _ => Err(Refusal::FlagNotZero),
    }
}

/// "with any refusal, index 0 and top", which is number 0.
fn query_refused(refusal: Refusal, probes: u64) -> (u64, [u64; 5]) {
    (refusal.number(), [0, 0, probes, 0, 0])
}

/// The slot that update and delete work on, in whichever level: the one that query tells.
fn slot_of(table: &Table, key: u64) -> Result<Slot, Refusal> {
    let found = table.search(key).found.ok_or(Refusal::KeyAbsent)?;
    Ok(found.slot)
}

/// What refuses a chain before any query. "These are checked after 1 and 3, 16 before 15."
fn check_chain(table: &[u64], address: u64, depth: u64, lent_words: u64) -> Result<(), Refusal> {
    read_for_lookup(table)?;
    if address >= ADDRESS_LIMIT || depth > LARGEST_DEPTH {
        return Err(Refusal::AddressOrDepthTooLarge);
    }
    if lent_words < WORDS_PER_CHAIN_RECORD * (depth + 1) {
        return Err(Refusal::ShortRecords);
    }
    Ok(())
}

/// "the first item from there on that has a place", in the order bucket, then slot. A start past the level has no
/// item behind it, which is 11 too.
fn first_item_with_place(table: &Table, interim: Level, from: u64) -> Result<Slot, Refusal> {
    let mut items = table.taken_slots(&[interim]);
    items.retain(|item| interim.number_of(item.bucket) >= from);
    // "11 when no item stands from there on; 6 when some do and none has a place".
    if items.is_empty() {
        return Err(Refusal::InterimEmpty);
    }
    let has_place = |item: &Slot| find_placing(table, table.key(*item)).is_some();
    items.into_iter().find(has_place).ok_or(Refusal::NoPlace)
}

/// The stores that bring a new record in, wherever it finds its place.
fn placing_stores(table: &Table, record: [u64; 3]) -> Plan {
    let [key, ..] = record;
    Ok(match find_placing(table, key).ok_or(Refusal::NoPlace)? {
        Placing::Free(slot) => item_stores(table, slot, record),
        Placing::Move { from, to } => {
            let mut stores = item_stores(table, to, table.record(from));
            stores.push(token_cleared(table, from));
            // The two slots are in different buckets. So showing the new item over the word that stands there now gives
            // the same as over the word just listed: only this slot's own bits differ, and showing sets them all.
            stores.extend(item_stores(table, from, record));
            stores
        }
    })
}

/// A record's three words, then the token that makes it valid. Its tag comes from its key, also where the item was moved
/// and stood under another tag.
fn item_stores(table: &Table, slot: Slot, record: [u64; 3]) -> Vec<Store> {
    let [key, ..] = record;
    let mut stores = record_stores(slot, record);
    let token = table.token_as_read(slot.bucket).showing(slot, table.tag_of(key));
    stores.push((slot.token_word(), token.word()));
    stores
}

fn record_stores(slot: Slot, [key, function, place]: [u64; 3]) -> Vec<Store> {
    vec![(slot.key_word(), key), (slot.function_word(), function), (slot.place_word(), place)]
}

fn token_cleared(table: &Table, slot: Slot) -> Store {
    (slot.token_word(), table.token_as_read(slot.bucket).hiding(slot).word())
}

/// The new record goes to a free slot of the same bucket; one token store changes over.
fn update_beside(table: &Table, old: Slot, free: Slot, record: [u64; 3]) -> Vec<Store> {
    let [key, ..] = record;
    let mut stores = record_stores(free, record);
    let token = table.token_as_read(old.bucket).showing(free, table.tag_of(key)).hiding(old);
    stores.push((old.token_word(), token.word()));
    stores
}

/// The bucket is full: the new record is kept in the header while the slot is torn.
fn update_under_flag(slot: Slot, function: u64, place: u64) -> Vec<Store> {
    vec![
        (word::UPDATE_TARGET, slot.key_word() as u64),
        (word::UPDATE_FUNCTION, function),
        (word::UPDATE_PLACE, place),
        (word::FLAG, 1),
        (slot.function_word(), function),
        (slot.place_word(), place),
        (word::FLAG, 0),
    ]
}
