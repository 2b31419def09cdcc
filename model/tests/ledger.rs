//! The sample ledger, reading by reading.

mod common;
use common::scripts::{insert_lines as insert, *};
use common::{garbage_words, key_with_halves, MARKED_1, MARKED_2};
use ragansils_model::{LONGEST_LEDGER_LINE, MOST_COUNTED_FUNCTIONS};
use std::collections::BTreeMap;
use std::io::{self, BufReader, Read};

const ZEROS: &str = "samples=0,none=0,other=0,buckets=0,";

fn run(input: impl AsRef<[u8]>) -> String {
    LEDGER.run(input)
}

fn commas(input: &str) -> String {
    LEDGER.commas(input)
}

fn after_header(lines: &str) -> String {
    LEDGER.after_header(lines)
}

fn samples(keys: impl IntoIterator<Item = u64>) -> String {
    keys.into_iter().map(|key| format!("sample={key},")).collect()
}

// ---- What is counted, and the order of the lines.

#[test]
fn a_whole_report() {
    let script = insert(1, 10) + &insert(3, 9);
    let answer = after_header(&(script + &samples([1, 1, 3, 5, 1])));
    // Keys 1 and 3 stand in the first bucket looked at; the absent key looks at two.
    assert_eq!(answer, "samples=5,none=1,fn9=1,fn10=3,other=0,buckets=6,");
}

#[test]
fn functions_ascend_as_numbers() {
    let functions = [100, 9, 10, 2, u64::MAX, 1 << 63, 0];
    let script: String = (0..).zip(functions).map(|(key, function)| insert(key, function)).collect();
    let largest = "fn9223372036854775808=1,fn18446744073709551615=1";
    assert_eq!(
        after_header(&(script + &samples(0..7))),
        format!("samples=7,none=0,fn0=1,fn2=1,fn9=1,fn10=1,fn100=1,{largest},other=0,buckets=7,")
    );
}

#[test]
fn a_function_that_no_sample_names_has_no_line() {
    let script = insert(1, 10) + &insert(3, 11) + &insert(5, 12);
    assert_eq!(after_header(&(script.clone() + &samples([3]))), "samples=1,none=0,fn11=1,other=0,buckets=1,");
    assert_eq!(after_header(&(script.clone() + &samples([7]))), "samples=1,none=1,other=0,buckets=2,");
    assert_eq!(after_header(&script), ZEROS);
}

#[test]
fn a_function_of_several_keys_has_one_line() {
    let script = insert(1, 10) + &insert(2, 10) + &insert(3, 10);
    assert_eq!(
        after_header(&(script + &samples([1, 2, 3, 2]))),
        "samples=4,none=0,fn10=4,other=0,buckets=4,"
    );
}

#[test]
fn absent_keys_are_not_function_0() {
    assert_eq!(after_header(&samples([0, 0, 9])), "samples=3,none=3,other=0,buckets=6,");
    let script = insert(1, 0);
    assert_eq!(after_header(&(script + &samples([1, 3, 1]))), "samples=3,none=1,fn0=2,other=0,buckets=4,");
}

#[test]
fn records_are_those_that_the_script_left() {
    let script = insert(1, 10) + &insert(3, 10) + "op=update,key=1,fn=11,at=0,op=delete,key=3,";
    assert_eq!(after_header(&(script + &samples([1, 3]))), "samples=2,none=1,fn11=1,other=0,buckets=3,");
}

#[test]
fn no_sample_is_a_report_of_zeros() {
    assert_eq!(after_header(""), ZEROS);
    assert_eq!(after_header("op=begin,"), ZEROS);
    assert_eq!(commas("cap=8,top=8,mul1=1,mul2=1,"), ZEROS);
}

#[test]
fn script_answers_are_not_printed() {
    // A query, an absent one, three refused events and a cut one.
    let quiet = "op=query,key=1,op=query,key=3,op=insert,key=1,fn=5,at=5,op=end,op=step,op=cut,after=0,op=begin,op=recover,";
    let script = insert(1, 10) + quiet;
    assert_eq!(after_header(&(script.clone() + &samples([1]))), "samples=1,none=0,fn10=1,other=0,buckets=1,");
    // The same where nothing stands behind them.
    assert_eq!(after_header(&script), ZEROS);
    assert_eq!(after_header("op=query,key=1,"), ZEROS);
    // Under a set flag a query is refused with 3, and this is not printed either.
    let flagged = full_bucket() + "op=cut,after=4,op=update,key=1,fn=30,at=40,op=query,key=1,op=begin,";
    assert_eq!(after_header(&flagged), ZEROS);
}

#[test]
fn buckets_are_summed_with_those_of_absent_keys() {
    // Key 9 is the fifth odd one and stands in the bottom: two buckets. After begin it stands in the interim level.
    let script: String = [1, 3, 5, 7, 9].into_iter().map(|key| insert(key, key)).collect();
    let counts = "fn1=1,fn9=1,other=0";
    let asked = samples([1, 9, 11]);
    assert_eq!(after_header(&format!("{script}{asked}")), format!("samples=3,none=1,{counts},buckets=5,"));
    // Growing, an odd key has two places in the top of four, then one in the bottom of two and one in the interim
    // level: key 1 is met third, key 9 fourth, and the absent one looks at four.
    let answer = after_header(&format!("{script}op=begin,{asked}"));
    assert_eq!(answer, format!("samples=3,none=1,{counts},buckets=11,"));
}

#[test]
fn a_script_may_leave_its_table_shrinking() {
    // c = 2 and k = 2: keys 1 and 5 have the same two places in a top of four; 1 stands in the first, 5 in the second.
    let script = format!("op=begin,op=end,{}{}op=shrink,", insert(1, 10), insert(5, 11));
    let asked = samples([1, 5, 7]);
    // One bucket of top and one of bottom, then the interim level: 1 is met third, 5 fourth; the absent one looks at four.
    let counts = "samples=3,none=1,fn10=1,fn11=1,other=0";
    assert_eq!(after_header(&format!("{script}{asked}")), format!("{counts},buckets=11,"));
    // Turned back, the level of four is looked at first; the absent key still looks at four buckets.
    assert_eq!(after_header(&format!("{script}op=back,{asked}")), format!("{counts},buckets=7,"));
    // A cut step in the shrink is mended: 1 is met in the top.
    let cut = format!("{script}op=cut,after=4,op=step,{asked}");
    assert_eq!(after_header(&cut), format!("{counts},buckets=9,"));
    // Lines of the new events are script lines: they are bad behind a sample, and so is a cut line without one.
    assert_eq!(after_header("sample=1,op=shrink,"), "bad=6,");
    assert_eq!(after_header("sample=1,op=back,"), "bad=6,");
    assert_eq!(after_header("op=cut,after=1,op=shrink,op=cut,after=0,op=back,"), ZEROS);
    assert_eq!(after_header("op=shrink=1,"), "bad=5,");
}

#[test]
fn keys_and_functions_up_to_the_largest() {
    let largest = u64::MAX;
    let answer = after_header(&(insert(largest, largest) + &samples([largest, largest - 1, largest])));
    assert_eq!(answer, format!("samples=3,none=1,fn{largest}=2,other=0,buckets=4,"));
    assert_eq!(LONGEST_LEDGER_LINE, format!("sample={largest}\n").len());
}

// ---- The first 512 functions.

/// Keys from 0 on, each with a function of its own; later keys have smaller functions.
fn many_functions(count: u64) -> String {
    let inserts: String = (0..count).map(|key| insert(key, function_of(key))).collect();
    format!("cap=8,top=8,mul1={MARKED_1},mul2={MARKED_2},{inserts}")
}

fn function_of(key: u64) -> u64 {
    10_000 - key
}

/// The `fn` lines of a report, and `other`.
fn function_counts(report: &str) -> (BTreeMap<u64, u64>, u64) {
    let mut counts = BTreeMap::new();
    let mut other = None;
    for line in report.split_terminator(',') {
        let (name, number) = line.split_once('=').unwrap();
        let number: u64 = number.parse().unwrap();
        if name == "other" {
            assert_eq!(other.replace(number), None);
        } else if let Some(function) = name.strip_prefix("fn") {
            assert_eq!(counts.insert(function.parse().unwrap(), number), None);
        }
    }
    (counts, other.unwrap())
}

fn counts_of(keys: impl Iterator<Item = u64>) -> BTreeMap<u64, u64> {
    keys.map(|key| (function_of(key), 1)).collect()
}

#[test]
fn the_512th_function_is_counted_and_the_513th_is_other() {
    assert_eq!(MOST_COUNTED_FUNCTIONS, 512);
    let script = many_functions(600);
    let exactly = function_counts(&commas(&(script.clone() + &samples(0..512))));
    assert_eq!(exactly, (counts_of(0..512), 0));
    // The 513th has the smallest number, and is not counted for it.
    let one_more = function_counts(&commas(&(script.clone() + &samples(0..513))));
    assert_eq!(one_more, (counts_of(0..512), 1));
    let all = function_counts(&commas(&(script + &samples(0..600))));
    assert_eq!(all, (counts_of(0..512), 88));
}

#[test]
fn counted_functions_stay_counted_after_the_513th() {
    let again = [0, 511, 512, 513, 512, 5, 700, 0];
    let answer = commas(&(many_functions(600) + &samples((0..513).chain(again))));
    let mut counts = counts_of(0..512);
    for (key, count) in [(0, 3), (511, 2), (5, 2)] {
        counts.insert(function_of(key), count);
    }
    // Key 512 three times, key 513 once. Key 700 is absent, which is never `other`.
    assert_eq!(function_counts(&answer), (counts, 4));
    assert!(answer.starts_with("samples=521,none=1,fn9489=2,"), "{answer}");
}

#[test]
fn the_order_of_samples_decides_who_is_counted() {
    let answer = commas(&(many_functions(600) + &samples((0..600).rev())));
    assert_eq!(function_counts(&answer), (counts_of(88..600), 88));
    // Not the order of the first 512 records: one sampled last is other, though its record came first.
    let answer = commas(&(many_functions(600) + &samples((1..513).chain([0, 0]))));
    assert_eq!(function_counts(&answer), (counts_of(1..513), 2));
}

#[test]
fn repeated_functions_and_absent_keys_take_no_room() {
    // Every key is sampled twice, and an absent one in between.
    let keys = (0..512).flat_map(|key| [key, 5_000, key]).chain([512]);
    let answer = commas(&(many_functions(600) + &samples(keys)));
    let counts = counts_of(0..512).into_keys().map(|function| (function, 2)).collect();
    assert_eq!(function_counts(&answer), (counts, 1));
    assert!(answer.starts_with("samples=1537,none=512,"), "{answer}");
    // Further keys of one function that is counted are counted too.
    let script = many_functions(600) + &insert(601, function_of(3)) + &insert(602, function_of(599));
    let answer = commas(&(script + &samples((0..512).chain([601, 602]))));
    let mut counts = counts_of(0..512);
    counts.insert(function_of(3), 2);
    assert_eq!(function_counts(&answer), (counts, 1));
}

// ---- Bad lines.

#[test]
fn bad_header_lines() {
    for (input, number) in bad_headers() {
        assert_eq!(run(&input), format!("bad={number}\n"), "{input:?}");
    }
}

#[test]
fn bad_script_lines() {
    for (bad, number) in BAD_BEHIND_HEADER {
        assert_eq!(after_header(bad), format!("bad={number},"), "{bad:?}");
        // Behind a good event of four lines too.
        assert_eq!(after_header(&(insert(1, 10) + bad)), format!("bad={},", number + 4), "{bad:?}");
    }
    assert_eq!(after_header("op=insert,key=1,fn=18446744073709551616,at=3,sample=1,"), "bad=7,");
}

#[test]
fn bad_sample_lines() {
    let numbers =
        ["", "01", "00", "+1", "-1", " 1", "1 ", "1\r", "1x", "18446744073709551616", "99999999999999999999"];
    let longer = ["100000000000000000000".to_string(), "1".repeat(1 << 20)];
    let mut bad_lines: Vec<String> = numbers.iter().map(|number| format!("sample={number},")).collect();
    bad_lines.extend(longer.iter().map(|number| format!("sample={number},")));
    bad_lines.extend(
        [",", "sample,", "sampl=1,", "samples=1,", " sample=1,", "Sample=1,", "key=1,"].map(String::from),
    );
    for bad in bad_lines {
        // As the first sample line, and behind two good ones; good lines follow.
        assert_eq!(after_header(&(insert(1, 10) + &bad + "sample=1,")), "bad=9,", "{bad:?}");
        assert_eq!(
            after_header(&(insert(1, 10) + "sample=1,sample=3," + &bad + "sample=1,")),
            "bad=11,",
            "{bad:?}"
        );
    }
    let mut input = format!("{HEADER}sample=1\nsample=").into_bytes();
    input.extend([0xff, 0x00, b'\n']);
    assert_eq!(run(input), "bad=6\n");
}

#[test]
fn torn_last_sample_lines() {
    for torn in ["s", "sample", "sample=", "sample=1", "sample=18446744073709551615", "x"] {
        assert_eq!(after_header(torn), "bad=5,", "{torn:?}");
        assert_eq!(after_header(&format!("sample=1,sample=2,{torn}")), "bad=7,", "{torn:?}");
    }
}

#[test]
fn the_first_bad_line_is_told() {
    assert_eq!(after_header("sample=x,op=nonsense,"), "bad=5,");
    assert_eq!(after_header("op=nonsense,sample=x,"), "bad=5,");
    let many: String = samples(0..100_000);
    assert_eq!(after_header(&format!("{many}sample=01,{many}")), "bad=100005,");
}

#[test]
fn a_script_line_after_the_first_sample_is_bad() {
    for line in
        ["op=begin,", "op=recover,", "op=query,key=1,", "op=cut,after=1,op=begin,", "key=1,", "cap=2,"]
    {
        let answer = after_header(&(insert(1, 10) + "sample=1," + line + "sample=1,"));
        assert_eq!(answer, "bad=10,", "{line:?}");
    }
}

#[test]
fn a_sample_line_where_a_number_line_is_due_is_bad_itself() {
    for (before, number) in [
        ("op=query,", 6),
        ("op=delete,", 6),
        ("op=insert,", 6),
        ("op=insert,key=1,", 7),
        ("op=update,key=1,fn=2,", 8),
        // `after=` is due here: the number line is bad, not the cut line.
        ("op=cut,", 6),
        // Behind a good cut and a good event line, the event's own line is due.
        ("op=cut,after=1,op=delete,", 8),
    ] {
        assert_eq!(after_header(&format!("{before}sample=1,")), format!("bad={number},"), "{before:?}");
    }
}

#[test]
fn a_sample_line_behind_a_cut_line_makes_the_cut_line_bad() {
    assert_eq!(after_header("op=cut,after=1,sample=1,"), "bad=5,");
    assert_eq!(after_header("op=begin,op=cut,after=1,sample=1,sample=1,"), "bad=6,");
    // A bad sample line there as well, and the end of the input, and a torn line.
    for tail in ["sample=x,", "", "sample=1", "sample"] {
        assert_eq!(after_header(&format!("op=begin,op=cut,after=1,{tail}")), "bad=6,", "{tail:?}");
    }
}

// ---- A refused header.

#[test]
fn a_refused_header_is_told_alone() {
    let largest_cap = format!("{},1,1,1", u64::MAX);
    for header in ["9,1,1,1", "20,1,1,1", "0,0,1,1", "2,0,1,1", "2,3,1,1", "2,1,2,1", "2,1,1,0", &largest_cap]
    {
        let header = header_lines(header);
        // No line behind it is read, good or bad.
        for tail in ["", "sample=1,", "op=begin,sample=1,", "nonsense"] {
            assert_eq!(commas(&format!("{header}{tail}")), "made=13,", "{header}{tail}");
        }
    }
    // All four lines are read before the header is judged.
    assert_eq!(commas("cap=9,top=01,mul1=1,mul2=1,"), "bad=2,");
    assert_eq!(commas("cap=9,top=1,mul1=2,"), "bad=4,");
    assert_eq!(commas("cap=9,top=1,mul1=2,mul2=1"), "bad=4,");
}

// ---- Recovery before the first sample.

/// Keys 1, 3, 5, 7 fill their bucket of the top.
fn full_bucket() -> String {
    [1, 3, 5, 7].into_iter().map(|key| insert(key, 10)).collect()
}

#[test]
fn a_cut_update_of_a_full_bucket_is_mended() {
    for after in 0..=7 {
        let cut = format!("op=cut,after={after},op=update,key=1,fn=30,at=40,");
        let answer = after_header(&(full_bucket() + &cut + &samples([1, 3, 1])));
        let counts = if after < 4 { "fn10=3" } else { "fn10=1,fn30=2" };
        assert_eq!(answer, format!("samples=3,none=0,{counts},other=0,buckets=3,"), "{after}");
        // Without a sample the table is recovered too, and there is nothing to tell of it.
        assert_eq!(after_header(&(full_bucket() + &cut)), ZEROS, "{after}");
    }
}

#[test]
fn a_cut_update_beside_a_free_slot_and_a_cut_insert() {
    for after in 0..=4 {
        let cut = format!("op=cut,after={after},op=update,key=1,fn=30,at=40,");
        let answer = after_header(&(insert(1, 10) + &cut + &samples([1])));
        let function = if after < 4 { 10 } else { 30 };
        assert_eq!(answer, format!("samples=1,none=0,fn{function}=1,other=0,buckets=1,"), "{after}");

        let cut = format!("op=cut,after={after},{}", insert(1, 10));
        let answer = after_header(&(cut + &samples([1])));
        let report = if after < 4 {
            "samples=1,none=1,other=0,buckets=2,"
        } else {
            "samples=1,none=0,fn10=1,other=0,buckets=1,"
        };
        assert_eq!(answer, report, "{after}");
    }
}

#[test]
fn a_cut_move_is_mended_before_the_samples_are_credited() {
    // The wanderer has the first place 1 and the second place 0 in the top of two. All others have place 1 alone:
    // three beside it in the top, four in the bottom.
    let wanderer = key_with_halves(1, 1);
    let others: String = (1..=7).map(|i| insert(key_with_halves(1, 2 * i), 10)).collect();
    let new_key = key_with_halves(1, 100);
    let script = format!("cap=1,top=1,{CHOSEN_PLACES}{}{others}", insert(wanderer, 20));
    for after in 0..=9 {
        let cut = format!("op=cut,after={after},{}", insert(new_key, 30));
        let answer = commas(&(script.clone() + &cut + &samples([wanderer, new_key])));
        // After four stores the wanderer stands twice. Recovery clears its place 1, the later bucket, though a query
        // would meet it first: so it is met in the second bucket, at the latest from here on.
        let report = match after {
            0..=3 => "samples=2,none=1,fn20=1,other=0,buckets=3,",
            4..=8 => "samples=2,none=1,fn20=1,other=0,buckets=4,",
            _ => "samples=2,none=0,fn20=1,fn30=1,other=0,buckets=3,",
        };
        assert_eq!(answer, report, "{after}");
    }
}

#[test]
fn a_cut_recovery_is_finished() {
    let cut = "op=cut,after=4,op=update,key=1,fn=30,at=40,op=cut,after=1,op=recover,";
    let answer = after_header(&(full_bucket() + cut + &samples([1])));
    assert_eq!(answer, "samples=1,none=0,fn30=1,other=0,buckets=1,");
}

/// The smallest script without a shrink found whose table recovery refuses, 31 lines. All keys have the same places. The
/// fifth goes to the bottom, which is the interim level after begin. Its step is cut twice before the interim token is
/// cleared, so that it stands three times.
fn refused_script() -> String {
    let inserts: String = (0..5).map(|key| insert(key, 10)).collect();
    let cut_step = "op=cut,after=4,op=step,";
    format!("cap=2,top=1,mul1=1,mul2=1,{inserts}op=begin,{cut_step}{cut_step}")
}

#[test]
fn a_refused_recovery_is_the_whole_report() {
    let script = refused_script();
    assert_eq!(script.matches(',').count(), 31);
    // At the end of the input, and at the first good sample line.
    assert_eq!(commas(&script), "answer=12,");
    assert_eq!(commas(&(script.clone() + &samples([0]))), "answer=12,");
    assert_eq!(commas(&(script.clone() + &samples([0, 1, 2]))), "answer=12,");
    // No line behind that one is read, so that no bad one is found.
    for tail in ["nonsense,", "sample=x,", "sample=1", "op=recover,", ","] {
        assert_eq!(commas(&(script.clone() + "sample=0," + tail)), "answer=12,", "{tail:?}");
    }
    // Without one of the two cuts the table is accepted.
    let once = script.strip_suffix("op=cut,after=4,op=step,").unwrap();
    assert_eq!(commas(&format!("{once}{}", samples([4]))), "samples=1,none=0,fn10=1,other=0,buckets=1,");
}

#[test]
fn a_shrink_makes_such_a_script_shorter() {
    // 15 lines. One key is enough, as the old top is the interim level.
    let cut_step = "op=cut,after=4,op=step,";
    let once = format!("cap=2,top=2,mul1=1,mul2=1,{}op=shrink,{cut_step}", insert(0, 10));
    assert_eq!(commas(&format!("{once}{cut_step}")), "answer=12,");
    assert_eq!((once + cut_step).matches(',').count(), 15);
}

#[test]
fn a_bad_line_comes_before_a_refused_recovery() {
    for bad in ["sample=x,", "sample=01,", "sample=1", "sample=", "nonsense,", "op=begin", ","] {
        assert_eq!(commas(&(refused_script() + bad)), "bad=32,", "{bad:?}");
        assert_eq!(commas(&(refused_script() + "op=begin,op=query,key=1," + bad)), "bad=35,", "{bad:?}");
    }
    assert_eq!(commas(&(refused_script() + "op=cut,after=1,sample=1,")), "bad=32,");
    assert_eq!(commas(&(refused_script() + "op=query,sample=1,")), "bad=33,");
}

#[test]
fn a_script_may_mend_what_recovery_would_refuse() {
    // The key stands three times; one delete leaves two, which recovery accepts. Recovery is asked for once, at the end
    // of the script, and a refused `op=recover` before that is only an event.
    let script = refused_script() + "op=recover,op=delete,key=4,";
    assert_eq!(commas(&(script + &samples([4, 5]))), "samples=2,none=1,fn10=1,other=0,buckets=4,");
}

/// Two wanderers in a top of four, each in a full bucket, and a full bottom bucket; one new key for each of them.
fn two_wanderers() -> (String, [u64; 2], [u64; 2]) {
    let wanderers = [key_with_halves(1, 3), key_with_halves(3, 3)];
    let beside = |upper: u64| (1..=3).map(move |i| key_with_halves(upper, 4 * i));
    let below = (4..=7).map(|i| key_with_halves(1, 4 * i));
    let keys = wanderers.into_iter().chain(beside(1)).chain(beside(3)).chain(below);
    let inserts: String = keys.map(|key| insert(key, 10)).collect();
    let new_keys = [key_with_halves(1, 400), key_with_halves(3, 400)];
    (format!("cap=2,top=2,{CHOSEN_PLACES}{inserts}"), wanderers, new_keys)
}

#[test]
fn other_tables_that_recovery_refuses() {
    let (script, [first, second], [new, other_new]) = two_wanderers();
    let cut_insert = |key: u64| format!("op=cut,after=4,{}", insert(key, 30));
    let asked = samples([first, second]);
    // One key twice is mended.
    let one = format!("{script}{}", cut_insert(new));
    assert_eq!(commas(&format!("{one}{asked}")), "samples=2,none=0,fn10=2,other=0,buckets=3,");
    // Two keys twice.
    assert_eq!(commas(&format!("{one}{}{asked}", cut_insert(other_new))), "answer=12,");
    // One key twice, and an update of a full bucket that was cut.
    let flagged = format!("op=cut,after=4,op=update,key={second},fn=1,at=1,");
    assert_eq!(commas(&format!("{one}{flagged}{asked}")), "answer=12,");
    // One key twice with records that differ. The bucket is full, so that the update uses the flag.
    let updated = format!("op=update,key={first},fn=1,at=1,");
    assert_eq!(commas(&format!("{one}{updated}{asked}")), "answer=12,");
    // A recovery in between makes room for a second cut.
    let between = format!("{one}op=recover,{}{asked}", cut_insert(other_new));
    assert_eq!(commas(&between), "samples=2,none=0,fn10=2,other=0,buckets=4,");
}

// ---- How the input is read.

#[test]
fn nothing_is_read_behind_the_line_that_ends_it() {
    assert_eq!(LEDGER.read_before_unreadable("cap=9,top=1,mul1=1,mul2=1,"), (true, "made=13\n".into()));
    assert_eq!(LEDGER.read_before_unreadable(&format!("{HEADER}op=nonsense,")), (true, "bad=5\n".into()));
    assert_eq!(
        LEDGER.read_before_unreadable(&format!("{HEADER}sample=1,sample=x,")),
        (true, "bad=6\n".into())
    );
    assert_eq!(
        LEDGER.read_before_unreadable(&(refused_script() + "sample=0,")),
        (true, "answer=12\n".into())
    );
    // An input that fails is no end of it: nothing is reported.
    assert_eq!(LEDGER.read_before_unreadable(&format!("{HEADER}sample=1,")), (false, String::new()));
    assert_eq!(LEDGER.read_before_unreadable(&refused_script()), (false, String::new()));
}

#[test]
fn an_endless_line_is_bad() {
    for (start, number) in [("cap=", 1), (HEADER, 5), (&format!("{HEADER}sample=1\nsample=") as &str, 6)] {
        let endless = start.as_bytes().chain(BufReader::new(io::repeat(b'1')));
        assert_eq!(LEDGER.read(endless), (true, format!("bad={number}\n")));
    }
}

#[test]
fn lines_may_lie_across_small_buffers() {
    let input = format!("{HEADER}{}sample={}\nsample=1\n", insert(1, 10).replace(',', "\n"), u64::MAX);
    for size in 1..40 {
        let read = LEDGER.read(BufReader::with_capacity(size, input.as_bytes()));
        assert_eq!(read, (true, "samples=2\nnone=1\nfn10=1\nother=0\nbuckets=3\n".into()));
    }
}

// ---- The report against the script program's own queries.

/// `answer=`, `fn=`, `at=`, `probes=`, `word=` and `level=`.
const QUERY_LINES: usize = 6;

/// What the definition says, from the answers of a script that recovers and then asks for each sample.
fn report_by_queries(script: &str, keys: &[u64]) -> String {
    let queries: String = keys.iter().map(|key| format!("op=query,key={key},")).collect();
    let answers = SCRIPT.run(format!("{script}op=recover,{queries}").replace(',', "\n"));
    // `answer=` and `stores=` of the recovery, the lines of each query, and `events=`.
    let lines: Vec<&str> = answers.lines().collect();
    let tail = &lines[lines.len() - QUERY_LINES * keys.len() - 3..lines.len() - 1];
    match tail[0] {
        "answer=0" => report_of_answers(&tail[2..]),
        refused => format!("{refused},"),
    }
}

fn report_of_answers(lines: &[&str]) -> String {
    let (mut none, mut other, mut buckets) = (0, 0, 0);
    let mut counts: Vec<(u64, u64)> = vec![];
    for answer in lines.chunks(QUERY_LINES) {
        let [number, function, _place, probes] = [0, 1, 2, 3].map(|line| number_in(answer[line]));
        buckets += probes;
        let known = counts.iter().position(|&(counted, _)| counted == function);
        match (number, known) {
            (0, Some(index)) => counts[index].1 += 1,
            (0, None) if counts.len() < 512 => counts.push((function, 1)),
            (0, None) => other += 1,
            _ => none += 1,
        }
    }
    counts.sort_unstable();
    let functions: String = counts.iter().map(|(function, count)| format!("fn{function}={count},")).collect();
    format!("samples={},none={none},{functions}other={other},buckets={buckets},", lines.len() / QUERY_LINES)
}

fn number_in(line: &str) -> u64 {
    line.split_once('=').unwrap().1.parse().unwrap()
}

/// Random events, one of so many cut, with forgotten recoveries.
fn random_script(garbage: &mut impl FnMut() -> u64, cap: u64, events: u64, one_cut_of: u64) -> String {
    let keys = keys_for(events);
    let top = 1 + garbage() % cap;
    let mut script = format!("cap={cap},top={top},mul1={},mul2={},", garbage() | 1, garbage() | 1);
    for _ in 0..events {
        let key = garbage() % keys;
        if garbage() % one_cut_of == 0 {
            // Four stores leave a moved item standing twice.
            let after = if garbage() % 2 == 0 { 4 } else { garbage() % 11 };
            script += &format!("op=cut,after={after},");
        }
        script += &match garbage() % 22 {
            0 => "op=begin,".to_string(),
            1 => "op=end,".to_string(),
            2..=5 => "op=step,".to_string(),
            6 => format!("op=delete,key={key},"),
            7 => format!("op=update,key={key},fn={},at=1,", garbage() % 1000),
            8 if garbage() % 4 == 0 => "op=recover,".to_string(),
            9 => "op=shrink,".to_string(),
            10 if garbage() % 2 == 0 => "op=back,".to_string(),
            _ => insert(key, garbage() % 1000),
        };
    }
    script
}

/// So many different keys are used that some stay absent.
fn keys_for(events: u64) -> u64 {
    events * 2 / 3
}

fn assert_sum_law(report: &str) {
    let lines: Vec<&str> = report.split_terminator(',').collect();
    let (last, counts) = lines[1..].split_last().unwrap();
    assert!(last.starts_with("buckets="));
    assert_eq!(counts.iter().map(|line| number_in(line)).sum::<u64>(), number_in(lines[0]), "{report}");
}

#[test]
fn random_ledgers_agree_with_queries() {
    let mut garbage = garbage_words();
    let (mut refused, mut beyond_512) = (0, 0);
    for round in 0..1000 {
        let (cap, events, one_cut_of) =
            if round % 50 == 0 { (8, 3000, 1000) } else { (1 + round % 4, 80, 8) };
        let script = random_script(&mut garbage, cap, events, one_cut_of);
        let asked: Vec<u64> = (0..garbage() % (2 * events)).map(|_| garbage() % keys_for(events)).collect();
        let report = commas(&format!("{script}{}", samples(asked.iter().copied())));
        assert_eq!(report, report_by_queries(&script, &asked), "{script}");
        if report == "answer=12," {
            refused += 1;
            continue;
        }
        assert_sum_law(&report);
        beyond_512 += u32::from(function_counts(&report).1 > 0);
    }
    println!("{refused} refused, {beyond_512} with more than 512 functions");
    assert!(refused > 0 && beyond_512 > 0);
}
