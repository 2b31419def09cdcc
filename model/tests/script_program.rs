//! The script program, line by line.

mod common;
use common::scripts::*;
use ragansils_model::LONGEST_LINE;

fn run(script: impl AsRef<[u8]>) -> String {
    SCRIPT.run(script)
}

fn after_header(events: &str) -> String {
    SCRIPT.after_header(events)
}

#[test]
fn the_whole_case() {
    let found = "answer=0,fn=10,at=20,probes=1,word=36,level=0";
    let absent = "answer=5,fn=0,at=0,probes=2,word=0,level=0";
    assert_eq!(
        after_header("op=insert,key=1,fn=10,at=20,op=query,key=1,op=query,key=3,"),
        format!("made=0,answer=0,stores=4,{found},{absent},events=3,")
    );
}

#[test]
fn word_and_level_follow_an_item_through_a_growth() {
    let keys: String = [1, 3, 5, 7, 9].iter().map(|k| format!("op=insert,key={k},fn=0,at=0,")).collect();
    let answer =
        after_header(&format!("{keys}op=query,key=9,op=begin,op=query,key=9,op=step,op=query,key=9,"));
    // In bucket 0, which is the bottom and then the interim level, and at last in bucket 4 of the new top.
    let bottom = "answer=0,fn=0,at=0,probes=2,word=10,level=1";
    let interim = "answer=0,fn=0,at=0,probes=4,word=10,level=2";
    let top = "answer=0,fn=0,at=0,probes=1,word=62,level=0";
    let tail = format!("{bottom},answer=0,stores=1,{interim},answer=0,stores=5,{top},events=10,");
    assert!(answer.ends_with(&tail), "{answer}");
}

#[test]
fn header_lines_in_order() {
    for (input, number) in bad_headers() {
        assert_eq!(run(&input), format!("bad={number}\n"), "{input:?}");
    }
    assert_eq!(run("top=1\ncap=2\nmul1=1\nmul2=1\n"), "bad=1\n");
    assert_eq!(run(HEADER), "made=0\nevents=0\n");
    assert_eq!(run("cap=9\ntop=01\nmul1=1\nmul2=1\n"), "bad=2\n");
    assert_eq!(run("cap=9\ntop=1\nmul1=1\n"), "bad=4\n");
}

#[test]
fn refused_creation_reads_no_event() {
    for header in
        ["9,1,1,1", "0,0,1,1", "2,0,1,1", "2,3,1,1", "2,1,2,1", "2,1,1,0", "18446744073709551615,1,1,1"]
    {
        let script = header_lines(header) + "nonsense";
        assert_eq!(SCRIPT.commas(&script), "made=13,events=0,");
    }
    assert_eq!(run("cap=8\ntop=8\nmul1=1\nmul2=1\n"), "made=0\nevents=0\n");
}

#[test]
fn bad_numbers() {
    for bad in [
        "",
        "01",
        "00",
        "+1",
        "-1",
        " 1",
        "1 ",
        "1\r",
        "1x",
        "0x1",
        "1.0",
        "18446744073709551616",
        "99999999999999999999",
        "100000000000000000000",
    ] {
        assert_eq!(after_header(&format!("op=query,key={bad},")), "made=0,bad=6,", "{bad:?}");
    }
    let largest = after_header("op=query,key=18446744073709551615,");
    assert_eq!(largest, "made=0,answer=5,fn=0,at=0,probes=2,word=0,level=0,events=1,");
    assert_eq!(
        after_header("op=query,key=0,"),
        "made=0,answer=5,fn=0,at=0,probes=2,word=0,level=0,events=1,"
    );
}

#[test]
fn bad_bytes_and_very_long_lines() {
    assert_eq!(after_header("op=begin\r,"), "made=0,bad=5,");
    assert_eq!(after_header("op =begin,"), "made=0,bad=5,");
    assert_eq!(after_header("Op=begin,"), "made=0,bad=5,");
    assert_eq!(after_header(","), "made=0,bad=5,");
    assert_eq!(after_header("key=1,"), "made=0,bad=5,");
    assert_eq!(after_header(&format!("op=query,key={},", "1".repeat(1 << 20))), "made=0,bad=6,");
    let mut script = HEADER.as_bytes().to_vec();
    script.extend([0xff, 0x00, b'\n']);
    assert_eq!(run(script), "made=0\nbad=5\n");
}

#[test]
fn unknown_unended_and_missing_lines() {
    assert_eq!(after_header("op=begin,op=nonsense,"), "made=0,answer=0,stores=1,bad=6,");
    assert_eq!(after_header("op=begin,op=step"), "made=0,answer=0,stores=1,bad=6,");
    assert_eq!(after_header("op=insert,key=1,fn=2,"), "made=0,bad=8,");
    assert_eq!(after_header("op=insert,key=1,fn=2,at=3"), "made=0,bad=8,");
    assert_eq!(after_header("op=insert,key=1,at=2,fn=3,"), "made=0,bad=7,");
    assert_eq!(after_header("op=delete,"), "made=0,bad=6,");
}

#[test]
fn cuts() {
    let one = "op=cut,after=2,op=insert,key=1,fn=10,at=20,op=query,key=1,";
    let absent = "answer=5,fn=0,at=0,probes=2,word=0,level=0,events=2,";
    assert_eq!(after_header(one), format!("made=0,answer=0,stores=4,kept=2,{absent}"));
    let all = "op=cut,after=18446744073709551615,op=begin,op=begin,";
    assert_eq!(after_header(all), "made=0,answer=0,stores=1,kept=1,answer=7,stores=0,events=2,");
    let refused = "op=cut,after=3,op=step,";
    assert_eq!(after_header(refused), "made=0,answer=8,stores=0,kept=0,events=1,");
    let recover = "op=cut,after=0,op=recover,";
    assert_eq!(after_header(recover), "made=0,answer=0,stores=0,kept=0,events=1,");
}

#[test]
fn shrink_and_back() {
    // k = 1 can only grow; then the growth is turned back, and back again.
    assert_eq!(after_header("op=shrink,op=back,"), "made=0,answer=17,stores=0,answer=8,stores=0,events=2,");
    let turns = "op=begin,op=shrink,op=back,op=begin,op=shrink,op=back,op=end,op=shrink,op=end,op=shrink,";
    let answers = "0,7,0,7,7,0,0,0,0,17".split(',').map(|number| {
        let stores = u64::from(number == "0");
        format!("answer={number},stores={stores},")
    });
    assert_eq!(after_header(turns), format!("made=0,{}events=10,", answers.collect::<String>()));
}

#[test]
fn cuts_of_shrink_and_back() {
    let begun = "op=begin,op=end,";
    let made = "made=0,answer=0,stores=1,answer=0,stores=1,";
    // A shrink that is cut before its store has not begun.
    for (after, kept, then) in [(0, 0, 8), (1, 1, 0), (7, 1, 0)] {
        let cut = after_header(&format!("{begun}op=cut,after={after},op=shrink,op=back,"));
        let stores = u64::from(then == 0);
        assert_eq!(
            cut,
            format!("{made}answer=0,stores=1,kept={kept},answer={then},stores={stores},events=4,")
        );
    }
    // A turn that is cut before its store leaves the table shrinking: its bottom has one bucket, and key 1 has one place
    // in a top of two and two places in a level of four, so that four buckets are looked at in either phase.
    for (after, kept) in [(0, 0), (1, 1)] {
        let cut = after_header(&format!("{begun}op=shrink,op=cut,after={after},op=back,op=query,key=1,"));
        let query = "answer=5,fn=0,at=0,probes=4,word=0,level=0";
        let expected = format!("answer=0,stores=1,answer=0,stores=1,kept={kept},{query},events=5,");
        assert_eq!(cut, format!("{made}{expected}"));
    }
    let refused = "op=cut,after=0,op=shrink,op=cut,after=0,op=back,";
    let answers = "answer=17,stores=0,kept=0,answer=8,stores=0,kept=0";
    assert_eq!(after_header(refused), format!("made=0,{answers},events=2,"));
}

#[test]
fn lines_of_shrink_and_back_have_no_numbers() {
    for bad in
        ["op=shrink=1,", "op=shrink ,", "op=shrunk,", "op=shrinks,", "op=backs,", "op=bac,", "shrink=1,"]
    {
        assert_eq!(after_header(bad), "made=0,bad=5,", "{bad:?}");
        assert_eq!(after_header(&format!("op=cut,after=1,{bad}")), "made=0,bad=5,", "{bad:?}");
    }
    for event in ["shrink", "back"] {
        assert_eq!(after_header(&format!("op={event}")), "made=0,bad=5,");
        let number_behind = after_header(&format!("op={event},key=1,"));
        assert!(number_behind.ends_with(",stores=0,bad=6,"), "{number_behind}");
    }
}

#[test]
fn word_and_level_follow_an_item_through_a_shrink_and_back() {
    let script = "op=begin,op=end,op=insert,key=1,fn=0,at=0,op=query,key=1,op=shrink,op=query,key=1,op=back,op=query,key=1,\
                  op=back,op=step,op=query,key=1,op=end,op=query,key=1,";
    let told = |probes: u64, word: u64, level: u64| {
        format!("answer=0,fn=0,at=0,probes={probes},word={word},level={level},")
    };
    let change = |stores: u64| format!("answer=0,stores={stores},");
    // In bucket 4, which is the top, the interim level and the top again, and at last in bucket 2, the new top.
    let answers = [
        [change(1), change(1), change(4), told(1, 62, 0)].concat(),
        [change(1), told(3, 62, 2), change(1), told(1, 62, 0)].concat(),
        [change(1), change(5), told(1, 36, 0), change(1), told(1, 36, 0)].concat(),
    ];
    assert_eq!(after_header(script), format!("made=0,{}events=13,", answers.concat()));
}

#[test]
fn the_longest_good_line_is_that_of_a_cut() {
    // No event line is longer.
    let events =
        ["insert", "update", "delete", "query", "begin", "shrink", "back", "step", "end", "recover", "cut"];
    let longest_event = events.map(|event| format!("op={event}\n").len()).into_iter().max();
    assert!(longest_event < Some(LONGEST_LINE));
    assert_eq!(LONGEST_LINE, format!("after={}\n", u64::MAX).len());
}

#[test]
fn misplaced_cuts() {
    for tail in [
        "",
        "op=query,key=1,",
        "op=cut,after=1,op=begin,",
        "op=nonsense,",
        "op=begin",
        "key=1,",
        ",",
        "op=begin\r,",
    ] {
        let answer = after_header(&format!("op=begin,op=cut,after=1,{tail}"));
        assert_eq!(answer, "made=0,answer=0,stores=1,bad=6,", "{tail:?}");
    }
    let long = format!("op=cut,after=1,{},", "o".repeat(100));
    assert_eq!(after_header(&long), "made=0,bad=5,");
}

#[test]
fn bad_lines_under_a_cut_are_themselves_bad() {
    for bad in ["", "after=1", "after=01,", "before=1,", "op=begin,"] {
        assert_eq!(after_header(&format!("op=cut,{bad}")), "made=0,bad=6,", "{bad:?}");
    }
    assert_eq!(after_header("op=cut,after=1,op=insert,key=1,fn=x,"), "made=0,bad=9,");
    assert_eq!(after_header("op=cut,after=1,op=delete,"), "made=0,bad=8,");
}

#[test]
fn a_forgotten_recovery_stays_forgotten() {
    let keys: String = [1, 3, 5, 7].iter().map(|k| format!("op=insert,key={k},fn=0,at=0,")).collect();
    let events =
        format!("{keys}op=cut,after=4,op=update,key=1,fn=30,at=40,op=query,key=1,op=recover,op=query,key=1,");
    let answer = after_header(&events);
    let refused = "answer=3,fn=0,at=0,probes=0,word=0,level=0";
    let recovered = "answer=0,fn=30,at=40,probes=1,word=36,level=0";
    let tail = format!("answer=0,stores=7,kept=4,{refused},answer=0,stores=3,{recovered},events=8,");
    assert!(answer.ends_with(&tail), "{answer}");
}
