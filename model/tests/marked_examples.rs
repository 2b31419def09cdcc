//! E1 to E11 of document 01, in both forms. They are the same in form 2: all keys are below 2^32, so that the exclusive
//! or changes nothing, and below 2^24, so that with these multipliers their tags are 0.

mod common;
use common::*;
use ragansils_model::Event;

fn after_e1(form: u64) -> Story {
    let mut story = Story::marked_in(form);
    story.whole(insert_event(1, 10, 20));
    story
}

fn one_to_fifteen(form: u64) -> Story {
    let mut story = Story::marked_in(form);
    story.insert_keys((1..=15).step_by(2));
    story
}

#[test]
fn e1_insert() {
    for form in BOTH_FORMS {
        let mut story = Story::marked_in(form);
        let pairs = story.whole(insert_event(1, 10, 20));
        assert_eq!(pairs, [(36, 1), (37, 10), (38, 20), (35, 1)]);
    }
}

#[test]
fn e2_query() {
    for form in BOTH_FORMS {
        assert_eq!(after_e1(form).query(1), (0, [10, 20, 1, 36, 0]));
        assert_eq!(after_e1(form).query(3), (5, [0, 0, 2, 0, 0]));
    }
}

#[test]
fn e3_insert_present() {
    for form in BOTH_FORMS {
        after_e1(form).refused(insert_event(1, 10, 20), 4);
    }
}

#[test]
fn e4_delete() {
    for form in BOTH_FORMS {
        assert_eq!(after_e1(form).whole(Event::Delete { key: 1 }), [(35, 0)]);
    }
}

#[test]
fn e5_update_beside() {
    for form in BOTH_FORMS {
        let pairs = after_e1(form).whole(update_event(1, 30, 40));
        assert_eq!(pairs, [(39, 1), (40, 30), (41, 40), (35, 2)]);
    }
}

#[test]
fn e6_update_in_full_bucket() {
    for form in BOTH_FORMS {
        let mut story = Story::marked_in(form);
        story.insert_keys([1, 3, 5, 7]);
        let pairs = story.whole(update_event(1, 30, 40));
        assert_eq!(pairs, [(6, 36), (7, 30), (8, 40), (5, 1), (37, 30), (38, 40), (5, 0)]);
        assert_eq!(story.query(1), (0, [30, 40, 1, 36, 0]));
    }
}

#[test]
fn e7_update_cut_and_recovered() {
    for form in BOTH_FORMS {
        let mut story = Story::marked_in(form);
        story.insert_keys([1, 3, 5, 7]);
        story.cut(update_event(1, 30, 40), 5);
        assert_eq!(story.query(1), (3, [0; 5]));
        assert_eq!(story.whole(Event::Recover), [(37, 30), (38, 40), (5, 0)]);
        assert_eq!(story.query(1), (0, [30, 40, 1, 36, 0]));

        let mut story = Story::marked_in(form);
        story.insert_keys([1, 3, 5, 7]);
        story.cut(update_event(1, 30, 40), 3);
        assert_eq!(story.whole(Event::Recover), []);
        assert_eq!(story.query(1), (0, [101, 201, 1, 36, 0]));
    }
}

#[test]
fn e8_no_place() {
    for form in BOTH_FORMS {
        let story = one_to_fifteen(form);
        story.refused(insert_event(17, 1, 1), 6);
        assert_eq!(story.table[22], 0, "top bucket 0 is empty");
    }
}

#[test]
fn e9_insert_with_move() {
    for form in BOTH_FORMS {
        let mut story = Story::marked_in(form);
        story.insert_keys([0, 2, 4, 6, 8]);
        story.whole(Event::Delete { key: 0 });
        story.insert_keys([1, 3, 5, 7, 9, 11, 13]);
        let pairs = story.whole(insert_event(15, 7, 8));
        let indexes: Vec<u64> = pairs.iter().map(|pair| pair.0).collect();
        assert_eq!(indexes, [23, 24, 25, 22, 9, 10, 11, 12, 9]);
        assert_eq!(pairs[..3], [(23, 8), (24, 108), (25, 208)]);
        assert_eq!([pairs[3].1, pairs[4].1, pairs[8].1], [15, 14, 15]);
        assert_eq!(pairs[5..8], [(10, 15), (11, 7), (12, 8)]);
    }
}

#[test]
fn e10_begin_and_step() {
    for form in BOTH_FORMS {
        let mut story = one_to_fifteen(form);
        assert_eq!(story.whole(Event::Begin), [(4, 258)]);
        let pairs = story.whole(Event::Step);
        assert_eq!(pairs, [(62, 9), (63, 109), (64, 209), (61, 1), (9, 14)]);
    }
}

#[test]
fn e11_step_without_place() {
    for form in BOTH_FORMS {
        let mut story = Story::in_form(form, 2, 1, MARKED_1, MARKED_1);
        story.insert_keys((0..=28).step_by(4));
        story.whole(Event::Begin);
        story.insert_keys([32, 36, 40, 44]);
        story.refused(Event::Step, 6);
    }
}
