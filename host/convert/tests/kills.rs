//! The program is killed at random moments: what has the new name is whole, and the old file is as it was.

mod common;
#[path = "../../ragansils/tests/files/mod.rs"]
mod files;

use std::fs;
use std::process::Stdio;
use std::thread::sleep;
use std::time::{Duration, Instant};

use common::{files, run, table_of, PROGRAM};
use files::{folder, names_in};
use ragansils::{bytes_of, Creation, Form, Key};
use ragansils_compare::random::Random;
use ragansils_compare::runner::built;

const KILLS: u64 = 60;

#[test]
fn a_killed_conversion_leaves_no_file_under_the_new_name_or_a_whole_one() {
    let folder = folder("killed");
    let keys = (0..60_000).map(|number| Key::new(0x5555_0000_1000 + 4 * number, 0).unwrap());
    let words = table_of(&Creation { form: Form::One, ..Creation::new(14, 14) }, keys);
    let (old, new) = files(&folder, &words);
    let begun = Instant::now();
    assert!(run(&[], &old, &new).status.success());
    let whole_time = begun.elapsed();
    let whole = fs::read(&new).unwrap();
    fs::remove_file(&new).unwrap();

    let mut random = Random::new(1);
    let (mut unfinished, mut made) = (0, 0);
    for _ in 0..KILLS {
        let mut command = built(PROGRAM);
        let mut child = command.arg(&old).arg(&new).stdout(Stdio::null()).spawn().unwrap();
        sleep(Duration::from_micros(random.below(whole_time.as_micros() as u64 * 5 / 4)));
        child.kill().unwrap();
        child.wait().unwrap();
        for name in names_in(&folder) {
            match name.as_str() {
                "old.table" => {
                    assert!(fs::read(&old).unwrap() == bytes_of(&words), "the old file has changed")
                }
                "new.table" => assert!(fs::read(&new).unwrap() == whole, "the new file is not whole"),
                other => assert!(other.starts_with("new.table.") && other.ends_with(".new"), "{other}"),
            }
            made += usize::from(name == "new.table");
            unfinished += usize::from(name.ends_with(".new"));
            if name != "old.table" {
                fs::remove_file(folder.join(name)).unwrap();
            }
        }
    }
    assert!(unfinished > 0 && made < KILLS as usize, "{unfinished} unfinished, {made} made");
}
