//! Records that show by themselves whether both halves are of one version.

use ragansils_compare::plain_map::PlainMap;
use ragansils_compare::random::Random;
use ragansils_model::Event;

/// The one place that goes with a key and a function.
fn place_for(key: u64, function: u64) -> u64 {
    Random::new(key ^ function.rotate_left(32)).word()
}

/// The event with a record of its own: a function that no other version has, and the place that goes with it.
pub fn sealed(random: &mut Random, event: Event) -> Event {
    let fresh = random.word();
    match event {
        Event::Insert { key, .. } => Event::Insert { key, function: fresh, place: place_for(key, fresh) },
        Event::Update { key, .. } => Event::Update { key, function: fresh, place: place_for(key, fresh) },
        other => other,
    }
}

/// A key whose record is of two versions.
pub fn half_new(map: &PlainMap) -> Option<u64> {
    let broken = |&(&key, &[function, place]): &(&u64, &[u64; 2])| place != place_for(key, function);
    map.iter().find(broken).map(|(&key, _)| key)
}

#[cfg(test)]
mod tests {
    use super::*;
    use ragansils_compare::plain_map::after;

    #[test]
    fn a_record_of_two_versions_is_seen() {
        let mut random = Random::new(1);
        let mut version = || {
            let insert = sealed(&mut random, Event::Insert { key: 1, function: 0, place: 0 });
            after(&PlainMap::new(), insert)
        };
        let (old, new) = (version(), version());
        assert_eq!((half_new(&old), half_new(&new)), (None, None));
        let half = PlainMap::from([(1, [new[&1][0], old[&1][1]])]);
        assert_eq!(half_new(&half), Some(1));
    }
}
