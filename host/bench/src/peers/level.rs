//! A level table as a peer, by the proved library or by its twin.

use ragansils_compare::history::Setting;
use ragansils_counts::{LevelTable, Record};
use ragansils_model::{word, Event};
use ragansils_twin::Side;

use super::Peer;

pub struct LevelPeer<S> {
    name: &'static str,
    table: LevelTable<S>,
}

impl<S: Side> LevelPeer<S> {
    pub fn new(name: &'static str, side: S, setting: Setting) -> LevelPeer<S> {
        LevelPeer { name, table: LevelTable::new(side, setting) }
    }
}

impl<S: Side> Peer for LevelPeer<S> {
    fn name(&self) -> &'static str {
        self.name
    }

    #[inline(always)]
    fn get(&self, key: u64) -> Option<Record> {
        let record = self.table.side.look_up(&self.table.words, key).ok()?.record()?;
        Some([record.function, record.place])
    }

    #[inline(always)]
    fn insert(&mut self, key: u64, [function, place]: Record) -> bool {
        self.table.change(Event::Insert { key, function, place })
    }

    #[inline(always)]
    fn update(&mut self, key: u64, [function, place]: Record) -> bool {
        self.table.change(Event::Update { key, function, place })
    }

    #[inline(always)]
    fn remove(&mut self, key: u64) -> bool {
        self.table.change(Event::Delete { key })
    }

    fn recover(&mut self) -> bool {
        self.table.change(Event::Recover)
    }

    fn words(&mut self) -> Option<&mut Vec<u64>> {
        Some(&mut self.table.words)
    }
}

/// The first two peers change words, so that neither keeps the better piece of memory; or says where their words differ. Tables of two
/// forms keep theirs: a round of these is a process of its own.
pub fn swap_words(peers: &mut [Box<dyn Peer>]) -> Result<(), String> {
    let (first, others) = peers.split_at_mut(1);
    match (first[0].words(), others[0].words()) {
        (Some(one), Some(other)) if one[word::FORM] != other[word::FORM] => {}
        (Some(one), Some(other)) if one == other => std::mem::swap(one, other),
        _ => return Err("the library and the twin came to different words".to_string()),
    }
    Ok(())
}
