//! Damage to scripts as text: bytes, lines and numbers that are not as they should be.

use crate::random::Random;

/// A script as its lines, each with its newline; at least one.
struct Text {
    lines: Vec<Vec<u8>>,
}

type Kind = fn(&mut Random, &mut Text);

const KINDS: [Kind; 15] = [
    change_byte,
    remove_byte,
    add_byte,
    drop_line,
    double_line,
    swap_lines,
    truncate,
    unend,
    spoil_line_end,
    change_number,
    change_number,
    lengthen_line,
    empty,
    spoil_op,
    insert_cut,
];

pub fn damage(random: &mut Random, script: &[u8]) -> Vec<u8> {
    let mut text = Text { lines: split_lines(script) };
    if !text.lines.is_empty() {
        random.pick(&KINDS)(random, &mut text);
    }
    text.lines.concat()
}

pub fn split_lines(script: &[u8]) -> Vec<Vec<u8>> {
    script.split_inclusive(|&byte| byte == b'\n').map(<[u8]>::to_vec).collect()
}

impl Text {
    /// The first lines come often, as there are only four that make the table.
    fn any_index(&self, random: &mut Random) -> usize {
        let count = self.lines.len();
        let among = if random.one_in(4) { count.min(8) } else { count };
        random.index(among)
    }

    fn any_line(&mut self, random: &mut Random) -> &mut Vec<u8> {
        let index = self.any_index(random);
        &mut self.lines[index]
    }
}

fn odd_byte(random: &mut Random) -> u8 {
    let wild = random.word() as u8;
    random.pick(&[b'0', b'9', b'=', b' ', b'\r', b'\n', b'-', b'+', b'a', 0, 0xff, wild])
}

fn change_byte(random: &mut Random, text: &mut Text) {
    let byte = odd_byte(random);
    let line = text.any_line(random);
    let index = random.index(line.len());
    line[index] = byte;
}

fn remove_byte(random: &mut Random, text: &mut Text) {
    let line = text.any_line(random);
    line.remove(random.index(line.len()));
}

fn add_byte(random: &mut Random, text: &mut Text) {
    let byte = odd_byte(random);
    let line = text.any_line(random);
    line.insert(random.index(line.len() + 1), byte);
}

fn drop_line(random: &mut Random, text: &mut Text) {
    let index = text.any_index(random);
    text.lines.remove(index);
}

fn double_line(random: &mut Random, text: &mut Text) {
    let index = text.any_index(random);
    text.lines.insert(index, text.lines[index].clone());
}

fn swap_lines(random: &mut Random, text: &mut Text) {
    let (one, other) = (text.any_index(random), text.any_index(random));
    text.lines.swap(one, other);
}

/// Cuts the end off, after a whole line or within one.
fn truncate(random: &mut Random, text: &mut Text) {
    let kept = text.any_index(random);
    text.lines.truncate(kept + 1);
    if random.one_in(2) {
        let last = &mut text.lines[kept];
        last.truncate(random.index(last.len()));
    }
}

fn unend(_: &mut Random, text: &mut Text) {
    text.lines.last_mut().map(Vec::pop);
}

fn spoil_line_end(random: &mut Random, text: &mut Text) {
    let byte = random.pick(b"\r \t0");
    let line = text.any_line(random);
    line.insert(line.len() - 1, byte);
}

/// Puts another number, good or bad, in the place of one.
fn change_number(random: &mut Random, text: &mut Text) {
    let line = text.any_line(random);
    let old = match line.iter().position(|&byte| byte == b'=') {
        Some(equals) => line.split_off(equals + 1),
        None => return,
    };
    let new: Vec<u8> = match random.below(9) {
        0 => b"18446744073709551615\n".to_vec(),
        1 => b"18446744073709551616\n".to_vec(),
        2 => b"18446744073709551625\n".to_vec(),
        3 => b"99999999999999999999\n".to_vec(),
        4 => b"\n".to_vec(),
        5 => [b"0", &old[..]].concat(),
        6 => [b"+", &old[..]].concat(),
        7 => b"00\n".to_vec(),
        _ => format!("{}{}\n", 1 + random.below(9), "0".repeat(random.index(30))).into_bytes(),
    };
    line.extend(new);
}

/// A line of up to some millions of bytes, ended or not.
fn lengthen_line(random: &mut Random, text: &mut Text) {
    let most = random.pick(&[4, 30, 1000, 70_000, 70_000, 3_000_000]);
    let count = 1 + random.index(most);
    let byte = random.pick(b"1190 x\0");
    let line = text.any_line(random);
    let middle = line.len() - 1;
    line.splice(middle..middle, std::iter::repeat(byte).take(count));
}

fn empty(_: &mut Random, text: &mut Text) {
    text.lines.clear();
}

fn spoil_op(random: &mut Random, text: &mut Text) {
    let is_op = |&index: &usize| text.lines[index].starts_with(b"op=");
    let ops: Vec<usize> = (0..text.lines.len()).filter(is_op).collect();
    if !ops.is_empty() {
        let bad: [&[u8]; 9] = [
            b"op=\n",
            b"op=Insert\n",
            b"op=steps\n",
            b"op=0\n",
            b"op==begin\n",
            b"op=shrin\n",
            b"op=shrinks\n",
            b"op=Back\n",
            b"op=backs\n",
        ];
        text.lines[random.pick(&ops)] = random.pick(&bad).to_vec();
    }
}

/// A cut where it may not stand right, before any line or at the end, whole or not.
fn insert_cut(random: &mut Random, text: &mut Text) {
    let index = if random.one_in(4) { text.lines.len() } else { text.any_index(random) };
    let cut: [&[&[u8]]; 4] = [
        &[b"op=cut\n", b"after=2\n"],
        &[b"op=cut\n"],
        &[b"op=cut\n", b"after=\n"],
        &[b"op=cut\n", b"after=3\n", b"op=cut\n", b"after=1\n"],
    ];
    let new_lines = random.pick(&cut).iter().map(|line| line.to_vec());
    text.lines.splice(index..index, new_lines);
}
