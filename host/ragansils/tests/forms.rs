//! The two forms of a table: which one is made, that a table keeps its own, and that both work through the same calls.

mod common;

use std::cell::Cell;
use std::rc::Rc;

use ragansils::{calls, Creation, Form, Key, OrdinaryMemory, Record, Refusal, StoreList, Table};

use common::{cut, Change};

/// The multipliers of the marked examples of document 01: of a key below 2^32 hash 1 is the key, and the tag the key / 2^24.
const MARKED: Creation = Creation { multipliers: [4294967297, 12884901889], ..Creation::new(2, 1) };
/// Words of the header.
const FORM: usize = 0;
const STATE: usize = 4;
/// The token word of the bucket where the keys below stand.
const TOKEN: usize = 35;

/// Keys with the tags 5, 7, 9 and 11, which fill one bucket of the top; and one more, with the tag 13, which goes to the bottom.
const TAGGED: [u64; 5] = [(5 << 24) + 1, (7 << 24) + 3, (9 << 24) + 5, (11 << 24) + 7, (13 << 24) + 9];
const OLD: Record = Record { function: 10, place: 20 };
const NEW: Record = Record { function: 30, place: 40 };

type OwnTable = Table<Vec<u64>, OrdinaryMemory>;

fn created(creation: &Creation) -> OwnTable {
    Table::create(vec![0; creation.words().unwrap()], creation, OrdinaryMemory).unwrap()
}

fn filled(form: Form, keys: &[u64]) -> Vec<u64> {
    let mut table = created(&Creation { form, ..MARKED });
    for &key in keys {
        table.insert(key.into(), OLD).unwrap();
    }
    table.into_parts().0
}

fn map_of(words: &[u64]) -> Vec<Option<Record>> {
    TAGGED.iter().map(|&key| calls::query(words, key.into()).unwrap().record()).collect()
}

#[test]
fn new_tables_are_of_form_2() {
    let creation = Creation::new(8, 1);
    assert_eq!((Form::default(), creation.form), (Form::Two, Form::Two));
    let table = created(&creation);
    assert_eq!((table.form(), table.words()[FORM]), (Ok(Form::Two), 2));
}

#[test]
fn a_table_keeps_the_form_that_it_was_made_in() {
    for form in Form::ALL {
        let words = filled(form, &TAGGED);
        assert_eq!(words[FORM], form.number());
        let mut table = Table::open(words, OrdinaryMemory).unwrap();
        assert_eq!(table.form(), Ok(form));
        assert_eq!((table.grow(u64::MAX), table.shrink(u64::MAX)), (Ok(true), Ok(true)));
        assert_eq!((table.form(), table.words()[FORM]), (Ok(form), form.number()));
        assert_eq!(map_of(table.words()), [Some(OLD); 5]);
    }
}

#[test]
fn forms_have_numbers_and_names() {
    assert_eq!(Form::ALL.map(Form::number), [1, 2]);
    assert_eq!(Form::ALL.map(|form| Form::of_number(form.number())), Form::ALL.map(Some));
    assert!([0, 3, 1 << 32, 1 << 63, u64::MAX].into_iter().all(|number| Form::of_number(number).is_none()));
    assert_eq!(Form::ALL.map(|form| form.to_string()), ["form 1", "form 2"]);
}

#[test]
fn a_form_that_is_not_known_is_refused() {
    for form in [0, 3, 1 << 63, u64::MAX] {
        let mut words = filled(Form::Two, &TAGGED);
        words[FORM] = form;
        let opened = Table::open(words.clone(), OrdinaryMemory);
        assert_eq!(opened.map(drop), Err(Refusal::BadHeader));
        assert_eq!(calls::query(&words, 1.into()), Err(Refusal::BadHeader));
        assert_eq!(calls::insert(&words, 1.into(), NEW).map(drop), Err(Refusal::BadHeader));
    }
}

/// Lent words in which another program changes the state.
struct Changing {
    words: Vec<u64>,
    broken: Vec<u64>,
    is_broken: Rc<Cell<bool>>,
}

impl AsRef<[u64]> for Changing {
    fn as_ref(&self) -> &[u64] {
        if self.is_broken.get() {
            &self.broken
        } else {
            &self.words
        }
    }
}

impl AsMut<[u64]> for Changing {
    fn as_mut(&mut self) -> &mut [u64] {
        &mut self.words
    }
}

#[test]
fn the_form_is_told_where_the_header_is_good() {
    let words = filled(Form::Two, &TAGGED);
    let mut broken = words.clone();
    broken[STATE] = 0;
    let is_broken = Rc::new(Cell::new(false));
    let lent = Changing { words, broken, is_broken: Rc::clone(&is_broken) };
    let table = Table::open(lent, OrdinaryMemory).unwrap();
    assert_eq!(table.form(), Ok(Form::Two));
    is_broken.set(true);
    assert_eq!(table.form(), Err(Refusal::BadHeader));
}

#[test]
fn the_token_word_of_form_2_has_the_tags_too() {
    assert_eq!(filled(Form::One, &TAGGED[..4])[TOKEN], 15);
    let words = filled(Form::Two, &TAGGED[..4]);
    assert_eq!(words[TOKEN], 47396095247);
    // A tag that is not its key's hides the key, and no cut leaves such a table.
    let mut damaged = words;
    damaged[TOKEN] ^= 1 << 8;
    let rest = [None, Some(OLD), Some(OLD), Some(OLD), None];
    assert_eq!(map_of(&damaged), rest);
    assert_eq!(calls::update(&damaged, TAGGED[0].into(), NEW).map(drop), Err(Refusal::KeyAbsent));
    assert_eq!(Table::open(damaged, OrdinaryMemory).map(drop), Err(Refusal::NoKind));
}

/// This key is larger than 2^32, and its two halves differ, so that the forms have other places for it.
#[test]
fn a_key_has_other_places_in_form_2() {
    let key = Key::from(12968787970);
    let word_in = |form| {
        let words = filled(form, &[key.word()]);
        calls::query(&words, key).unwrap().found.unwrap().slot.word
    };
    assert_eq!(Form::ALL.map(word_in), [36, 23]);
}

type Lister = fn(&[u64]) -> Result<StoreList, Refusal>;

/// Changes of keys with tags, each on a table where it lists some stores; and so many of them.
fn changes(form: Form) -> Vec<(Vec<u64>, Lister, Change, u64)> {
    let after = |mut words: Vec<u64>, list: Lister| {
        let list = list(&words).unwrap();
        calls::make(&mut words, list.words(), list.count()).unwrap();
        words
    };
    let growing = after(filled(form, &TAGGED), calls::begin);
    let grown = after(after(growing.clone(), calls::step), calls::end);
    let shrinking = after(grown, calls::shrink);
    vec![
        (
            filled(form, &TAGGED[..3]),
            |w| calls::insert(w, TAGGED[3].into(), OLD),
            |t| t.insert(TAGGED[3].into(), OLD),
            4,
        ),
        (
            filled(form, &TAGGED[..3]),
            |w| calls::update(w, TAGGED[1].into(), NEW),
            |t| t.update(TAGGED[1].into(), NEW),
            4,
        ),
        (
            filled(form, &TAGGED),
            |w| calls::update(w, TAGGED[1].into(), NEW),
            |t| t.update(TAGGED[1].into(), NEW),
            7,
        ),
        (filled(form, &TAGGED), |w| calls::delete(w, TAGGED[2].into()), |t| t.delete(TAGGED[2].into()), 1),
        (growing, calls::step, |t| t.step(), 5),
        (shrinking, calls::step, |t| t.step(), 5),
    ]
}

#[test]
fn a_change_cut_after_any_store_is_mended_in_both_forms() {
    for (form, (words, list, change, stores)) in
        Form::ALL.into_iter().flat_map(|form| changes(form).into_iter().map(move |row| (form, row)))
    {
        let listed = list(&words).unwrap();
        assert_eq!(listed.count(), stores);
        let mut made = words.clone();
        calls::make(&mut made, listed.words(), stores).unwrap();
        for kept in 1..=stores {
            let mut words_cut = words.clone();
            assert!(cut(&mut words_cut, kept, |table| assert!(change(table).is_ok())));
            let table = Table::open(words_cut, OrdinaryMemory).unwrap();
            let maps = [map_of(&words), map_of(&made)];
            assert!(maps.contains(&map_of(table.words())), "{form}, cut after {kept} of {stores} stores");
        }
    }
}
