//! Shrinking tables with stuck items: tables that are too full to shrink. They are made by inserts, one shrink and steps, so that they are
//! sound. In a shrink most items stand in the interim level, so that chance makes every kind of step soon enough.

use ragansils_model::{create, make, table_words, Event, Slot, Table, LEAST_LIST_WORDS, SUCCESS};

use crate::history::Setting;
use crate::random::Random;
use crate::stuck_items::{passed, Kind, Way};

/// So many tables are tried for a kind of step. The rarest, by a move past many buckets, is met in one of 100.
const MOST_TRIES: u64 = 10_000;

/// The creation of a table, and the events that bring it to where a step of a shrink is of this kind. The table refuses none of them.
pub fn history_to(random: &mut Random, form: u64, kind: Kind) -> (Setting, Vec<Event>) {
    let mut making = Making::random(random, form, kind);
    for _ in 1..MOST_TRIES {
        if making.comes_to(kind) {
            break;
        }
        making = Making::random(random, form, kind);
    }
    (making.setting, making.events)
}

/// A table that the model makes.
struct Making {
    setting: Setting,
    table: Vec<u64>,
    events: Vec<Event>,
}

impl Making {
    /// The table shrinks from half full or more; then inserts fill the new bottom, which is empty, or leave it so.
    fn random(random: &mut Random, form: u64, kind: Kind) -> Making {
        // Many buckets of the interim level are passed only where it has many, and they are full.
        let passes_many = kind.passes_many_buckets();
        let k = if passes_many { 4 + random.below(3) } else { 2 + random.below(3) };
        let c = k + random.below(2);
        let setting = Setting { k, ..Setting::of_capacity(random, form, c) };
        let mut table = vec![0; table_words(c).unwrap_or(0)];
        create(&mut table, form, c, k, setting.mul1, setting.mul2);
        let mut making = Making { setting, table, events: vec![] };
        let (slots, bottom_slots) = (6 << k, 1 << k);
        making.fill(random, slots, if passes_many { &[90, 100] } else { &[50, 60, 75, 90, 100] });
        making.change(Event::Shrink);
        making.fill(random, bottom_slots, &[0, 0, 50, 80, 90, 95, 100, 120]);
        if !passes_many && random.one_in(2) {
            making.empty_last_buckets(random);
        }
        making
    }

    /// Deletes what stands in the interim level from some bucket on, so that a step may start behind all items.
    fn empty_last_buckets(&mut self, random: &mut Random) {
        let from = random.index(1 << self.setting.k);
        let keys = Table::read(&self.table).map_or(vec![], |table| {
            let interim = table.interim().into_iter();
            let last = interim.flat_map(|level| level.buckets().skip(from)).flat_map(Slot::all_of);
            last.filter(|&slot| table.is_taken(slot)).map(|slot| table.key(slot)).collect()
        });
        for key in keys {
            self.change(Event::Delete { key });
        }
    }

    /// Inserts as many keys as one of these parts of a hundred slots would hold.
    fn fill(&mut self, random: &mut Random, slots: u64, parts: &[u64]) {
        for _ in 0..slots * random.pick(parts) / 100 {
            self.change(Event::Insert {
                key: random.word(),
                function: random.any_word(),
                place: random.any_word(),
            });
        }
    }

    /// Makes an event, where the table does not refuse it.
    fn change(&mut self, event: Event) -> bool {
        let mut list = [0; LEAST_LIST_WORDS];
        let (number, stores) = event.list_stores(&self.table, &mut list);
        make(&mut self.table, &list, stores);
        if number == SUCCESS {
            self.events.push(event);
        }
        number == SUCCESS
    }

    /// Steps until the next one would be of this kind.
    fn comes_to(&mut self, kind: Kind) -> bool {
        while self.kind_of_step() != Some(kind) {
            if !self.change(Event::Step) {
                return false;
            }
        }
        true
    }

    /// By the model's own step, which is much quicker than inserts.
    fn kind_of_step(&self) -> Option<Kind> {
        let mut list = [0; LEAST_LIST_WORDS];
        let way = match Event::Step.list_stores(&self.table, &mut list) {
            (SUCCESS, stores) if 2 * stores == list.len() as u64 => Way::Move,
            (SUCCESS, _) => Way::FreeSlot,
            (6, _) => return Some(Kind::AllStuck),
            _ => return None,
        };
        // The last store clears the token of the item taken.
        let last = if way == Way::Move { list.len() } else { list.len() / 2 };
        let table = Table::read(&self.table).ok()?;
        let items = table.taken_slots(&[table.interim()?]);
        let is_cleared = |slot: &Slot| {
            slot.token_word() as u64 == list[last - 2] && list[last - 1] & slot.token_bit() == 0
        };
        let taken = items.iter().position(is_cleared)?;
        Some(Kind::Takes { passed: passed(&items[..taken], items[taken]), way })
    }
}

#[cfg(test)]
mod tests {
    use super::*;
    use crate::case::phase_of;
    use crate::layout::FORMS;
    use crate::stuck_items::{step_by_inserts, KINDS};
    use crate::test_table::table_after;
    use ragansils::Phase;

    #[test]
    fn each_history_leads_to_its_kind_of_step_in_a_shrink() {
        let mut random = Random::new(1);
        for (form, kind) in (0..20).flat_map(|time| KINDS.map(|kind| (FORMS[time % 2], kind))) {
            let (setting, events) = history_to(&mut random, form, kind);
            let table = table_after(setting, events);
            assert_eq!((table[0], phase_of(&table)), (form, Some(Phase::Shrinking)));
            assert_eq!(step_by_inserts(&table).unwrap().kind, Some(kind), "{setting:?}");
        }
    }
}
