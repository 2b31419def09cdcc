//! A growth or a shrink that is cut after any of its stores, or turned back after any of its parts, is taken up and comes to its end.

use super::*;

/// Opens a copy of the words, and lets so many stores be made; answers the words after the cut, or that there was none.
fn cut_after(words: &[u64], kept: u64, change: impl FnOnce(&mut Table<Vec<u64>, Hook>)) -> Option<Vec<u64>> {
    let left = Rc::new(Cell::new(kept));
    let hook = Hook(Rc::clone(&left));
    let mut table = Table::open(words.to_vec(), hook).unwrap();
    let panic = catch_unwind(AssertUnwindSafe(|| change(&mut table))).err()?;
    // Any other panic is a check that failed.
    match left.get() {
        0 => Some(table.into_parts().0),
        _ => resume_unwind(panic),
    }
}

/// A platform whose act panics after the last store that is to be made.
struct Hook(Rc<Cell<u64>>);

impl Platform for Hook {
    fn stored(&mut self, _: &u64) {
        self.0.set(self.0.get() - 1);
        if self.0.get() == 0 {
            // No message, unlike panic!: this one is meant.
            resume_unwind(Box::new("cut"));
        }
    }
}

/// The stores of recovery after a cut are 0 or 1, as no update is among them.
#[test]
fn what_is_cut_after_any_store_goes_on_after_open() {
    for (form, way, k, tenths) in each_start(2, 3) {
        let (words, keys) = way.from(form, k, tenths);
        let (mut stores, mut mended) = (0, 0);
        while let Some(cut) = cut_after(&words, stores + 1, |table| assert_eq!(way.whole(table), Ok(true))) {
            mended += calls::recover(&cut).unwrap().count();
            let mut table = opened(&cut);
            assert!(holds(table.words(), &keys), "{form}, {way:?}, k = {k}, cut after {} stores", stores + 1);
            finish(&mut table, way);
            assert!(holds(table.words(), &keys), "{form}, {way:?}, k = {k}, cut after {} stores", stores + 1);
            stores += 1;
        }
        let moved = (stores - 2) / 10..=(stores - 2) / 5;
        assert!(moved.contains(&mended), "{form}, {way:?}, k = {k}: {mended} doubled keys in {stores} cuts");
    }
}

/// Where the last store was cut it is at rest already, and nothing is left to do.
fn finish(table: &mut OwnTable, way: Way) {
    if table.phase() != Ok(Phase::AtRest) {
        assert_eq!(way.whole(table), Ok(true));
    }
    assert_eq!((table.phase(), calls::recover(table.words()).unwrap().count()), (Ok(Phase::AtRest), 0));
}

/// After each number of parts a part of the other way, which is one store, is cut after it.
#[test]
fn what_is_turned_back_after_any_part_comes_to_its_end() {
    for (form, way, k, tenths) in each_start(2, 4) {
        let other = match way {
            Way::Grow => Way::Shrink,
            Way::Shrink => Way::Grow,
        };
        let (words, keys) = way.from(form, k, tenths);
        let mut table = opened(&words);
        while way.part(&mut table).unwrap() != Part::Ended {
            let turned = cut_after(table.words(), 1, |table| assert_eq!(other.part(table), Ok(Part::Turned)));
            let turned = turned.unwrap();
            let mut turned = opened(&turned);
            assert_ne!(turned.phase(), table.phase());
            assert!(holds(turned.words(), &keys), "{form}, {way:?}, k = {k}, {tenths} tenths, turned back");
            let mut twice = opened(turned.words());
            assert_eq!((twice.back(), twice.words()), (Ok(1), table.words()));
            // A table that was full before it began to grow may be stuck on its way back.
            if tenths < 10 {
                finish(&mut turned, other);
                assert_eq!(turned.words()[4], k);
                assert!(holds(turned.words(), &keys), "{form}, {way:?}, k = {k}, {tenths} tenths, ended");
            }
        }
    }
}
