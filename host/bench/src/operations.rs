//! Queries, inserts, updates and deletes of all peers at a load.

use ragansils_compare::history::Setting;
use ragansils_compare::random::Random;
use ragansils_counts::plan::{HIGH_LOAD, LOADS};
use ragansils_counts::{draw, full_size, half_way, items_at, record_of, slots_of, Keys, Kind};
use ragansils_model::Event;
use ragansils_twin::Proved;

use crate::clock::timed;
use crate::peers::{swap_words, Peer};
use crate::plan::Plan;
use crate::rounds::{Measured, Rounds};

/// The stores of an update whose bucket is full.
const LOGGED_UPDATE_STORES: u64 = 7;
/// Inserts, and deletes of the same keys, by turns: a share of the slots, small enough that the load stays the same, and
/// calls enough to be timed.
const FEW_SHARE: usize = 50;
const FEW_AT_LEAST: usize = 60;

#[derive(Clone, Copy, PartialEq, Eq)]
pub enum Operation {
    PositiveQuery,
    NegativeQuery,
    Insert,
    Delete,
    /// Of a key whose bucket has a free slot: four stores.
    UpdateBeside,
    /// Of a key whose bucket is full: seven stores.
    UpdateLogged,
    Recovery,
}

impl Operation {
    pub const ALL: [Operation; 7] = [
        Operation::PositiveQuery,
        Operation::NegativeQuery,
        Operation::Insert,
        Operation::Delete,
        Operation::UpdateBeside,
        Operation::UpdateLogged,
        Operation::Recovery,
    ];

    pub fn name(self) -> &'static str {
        match self {
            Operation::PositiveQuery => "query, positive",
            Operation::NegativeQuery => "query, negative",
            Operation::Insert => "insert",
            Operation::Delete => "delete",
            Operation::UpdateBeside => "update, free slot",
            Operation::UpdateLogged => "update, full bucket",
            Operation::Recovery => "recovery",
        }
    }
}

/// How many keys inserts bring in by turns with deletes.
pub fn few_of(setting: Setting) -> usize {
    (slots_of(setting) / FEW_SHARE).max(FEW_AT_LEAST)
}

/// Inserts alone into tables of a form and a capacity, at each load, by the peers that `peers` makes.
pub fn inserts(
    plan: &Plan,
    random: &mut Random,
    (form, c): (u64, u64),
    kind: Kind,
    peers: fn(Setting) -> Vec<Box<dyn Peer>>,
) -> Result<Vec<Measured>, String> {
    let setting = full_size(random, form, c);
    let (rounds, calls, few) = (plan.rounds_at(c), plan.calls, few_of(setting));
    let keys = Keys::new(random, kind, items_at(setting, HIGH_LOAD) + 4 * few, 0);
    let mut filled = Filled { c, peers: peers(setting), keys: &keys, items: 0, when: String::new() };
    let mut measured = vec![];
    for load in LOADS {
        filled.when = format!("load {load}");
        filled.fill(items_at(setting, load))?;
        let [inserts, _deletes] = filled.inserts_and_deletes(random, rounds, calls, few)?;
        measured.push(inserts);
    }
    Ok(measured)
}

/// Peers that hold the first so many keys of a run.
pub struct Filled<'a> {
    pub c: u64,
    pub peers: Vec<Box<dyn Peer>>,
    pub keys: &'a Keys,
    pub items: usize,
    /// How the operations' names end: at which load, while growing.
    pub when: String,
}

impl Filled<'_> {
    /// Brings the first `items` keys in.
    pub fn fill(&mut self, items: usize) -> Result<(), String> {
        for peer in &mut self.peers {
            let fresh = &self.keys.present()[self.items..items];
            let accepted = peer.insert_all(fresh);
            peer.check_accepted(accepted, fresh)?;
        }
        self.items = items;
        Ok(())
    }

    /// Brings the level tables into the middle of a growth.
    pub fn grow_half_way(&mut self) -> Result<(), String> {
        self.peers
            .iter_mut()
            .filter_map(|peer| peer.words())
            .try_for_each(|words| half_way(words, Event::Begin))
    }

    fn name(&self, operation: Operation) -> String {
        match self.keys.kind {
            Kind::Random => format!("{}, {}", operation.name(), self.when),
            kind => format!("{}, {}, {}", operation.name(), self.when, kind.name()),
        }
    }

    /// Rounds of operations that are measured together. Before its turn each peer answers some queries, so that none finds
    /// its memory in the state in which the one before it left the caches.
    fn measure<const N: usize>(
        &mut self,
        rounds: usize,
        warming: &[u64],
        operations: [Operation; N],
        mut run: impl FnMut(&mut dyn Peer, usize) -> ([f64; N], u64),
    ) -> Result<[Measured; N], String> {
        let mut all = Rounds::<N>::new(&self.peers);
        for number in 0..=rounds {
            all.round(number, &mut self.peers, |peer| {
                let warmed = peer.get_all(warming);
                let (times, answers) = run(peer, number);
                (times, answers.wrapping_add(warmed))
            })?;
            swap_words(&mut self.peers)?;
        }
        Ok(all.finish(self.c, operations.map(|operation| self.name(operation))))
    }

    /// Both kinds of query, `length` of each in a round.
    pub fn queries(
        &mut self,
        random: &mut Random,
        rounds: usize,
        length: usize,
    ) -> Result<[Measured; 2], String> {
        let present = self.keys.draw_present(random, self.items, length);
        let absent = self.keys.draw_absent(random, length);
        let both = [Operation::PositiveQuery, Operation::NegativeQuery];
        self.measure(rounds, &present[..length / 4], both, |peer, _| {
            let (positive, found) = timed(|| peer.get_all(&present));
            let (negative, missed) = timed(|| peer.get_all(&absent));
            ([positive / length as f64, negative / length as f64], found.wrapping_add(missed))
        })
    }

    /// Inserts of keys that are new, a few at a time, and deletes of them.
    pub fn inserts_and_deletes(
        &mut self,
        random: &mut Random,
        rounds: usize,
        length: usize,
        few: usize,
    ) -> Result<[Measured; 2], String> {
        let warming = self.keys.draw_present(random, self.items, length / 4);
        let batches: Vec<&[u64]> = self.keys.present()[self.items..].chunks_exact(few).collect();
        let repeats = (length / few).max(1);
        self.measure(rounds, &warming, [Operation::Insert, Operation::Delete], |peer, number| {
            let mut times = [0.0; 2];
            let mut answers = 0;
            for repeat in 0..repeats {
                let batch = batches[(number + repeat) % batches.len()];
                let (inserting, inserted) = timed(|| peer.insert_all(batch));
                let (deleting, deleted) = timed(|| peer.remove_all(batch));
                times = [times[0] + inserting, times[1] + deleting];
                answers += inserted + deleted;
            }
            (times.map(|time| time / (repeats * few) as f64), answers)
        })
    }

    /// Updates of keys whose bucket has a free slot, and of keys whose bucket is full. The other peers update the same keys.
    pub fn updates(
        &mut self,
        random: &mut Random,
        rounds: usize,
        length: usize,
    ) -> Result<[Measured; 2], String> {
        let drawn = self.keys.draw_present(random, self.items, length);
        let words = self.peers[0].words().ok_or("the first peer is a level table")?;
        let (full, free) = split_by_update(words, &drawn);
        if full.is_empty() || free.is_empty() {
            return Err(format!("updates of one kind alone, {}", self.when));
        }
        let (full, free) = (draw(random, &full, length), draw(random, &free, length));
        let both = [Operation::UpdateBeside, Operation::UpdateLogged];
        let measured = self.measure(rounds, &drawn[..length / 4], both, |peer, _| {
            let (beside, some) = timed(|| peer.update_all(&free));
            let (logged, others) = timed(|| peer.update_all(&full));
            ([beside / length as f64, logged / length as f64], some + others)
        })?;
        self.restore_records(&drawn);
        Ok(measured)
    }

    /// Gives updated keys the records that later sums count on.
    fn restore_records(&mut self, updated: &[u64]) {
        for peer in &mut self.peers {
            for &key in updated {
                peer.update(key, record_of(key));
            }
        }
    }
}

/// The keys whose bucket is full, so that their update is logged, and those whose bucket has a free slot.
pub fn split_by_update(words: &[u64], keys: &[u64]) -> (Vec<u64>, Vec<u64>) {
    keys.iter().partition(|&&key| {
        let mut library = Proved::default();
        library.list_stores(words, Event::Update { key, function: 0, place: 0 });
        library.stores() == LOGGED_UPDATE_STORES
    })
}
