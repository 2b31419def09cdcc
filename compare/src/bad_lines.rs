//! What is wrong with a bad line of a script or a ledger.

/// The bytes of the longest good line of a script, and of the samples behind it, with its newline.
pub const LONGEST_SCRIPT_LINE: usize = "after=18446744073709551615\n".len();
pub const LONGEST_SAMPLE_LINE: usize = "sample=18446744073709551615\n".len();

/// What is wrong with the bad line, as a reader would say.
pub fn bad_line_kind(lines: &[Vec<u8>], line_number: u64, longest: usize) -> &'static str {
    let line = match lines.get(line_number as usize - 1) {
        None => return "missing line",
        Some(line) if !line.ends_with(b"\n") => return "unended line",
        Some(line) if line.len() > longest => return "too long",
        Some(line) => &line[..line.len() - 1],
    };
    match String::from_utf8_lossy(line).split_once('=') {
        None => "no equals sign",
        Some(("op", "cut")) => "misplaced cut",
        Some(("op", op)) => bad_op_kind(op),
        Some(("cap" | "top" | "mul1" | "mul2" | "key" | "fn" | "at" | "after" | "sample", number)) => {
            bad_number_kind(number)
        }
        Some(_) => "unknown name",
    }
}

fn bad_op_kind(op: &str) -> &'static str {
    let known = ["insert", "update", "delete", "query", "begin", "shrink", "back", "step", "end", "recover"];
    if known.contains(&op) {
        "line out of place"
    } else {
        "unknown op"
    }
}

fn bad_number_kind(number: &str) -> &'static str {
    if number.is_empty() {
        "empty number"
    } else if number.ends_with('\r') {
        "carriage return"
    } else if !number.bytes().all(|byte| byte.is_ascii_digit()) {
        "not a digit"
    } else if number.len() > 1 && number.starts_with('0') {
        "leading zero"
    } else if number.parse::<u64>().is_err() {
        "2^64 or more"
    } else {
        "line out of place"
    }
}

#[cfg(test)]
mod tests {
    use super::*;
    use crate::script_damage::split_lines;

    #[test]
    fn bad_lines_have_their_kinds() {
        let kind = |line: &str| bad_line_kind(&split_lines(line.as_bytes()), 1, LONGEST_SAMPLE_LINE);
        let kinds = [
            ("", "missing line"),
            ("key=1", "unended line"),
            ("key=1111111111111111111111111111111\n", "too long"),
            ("op=cut\n", "misplaced cut"),
            ("op=cuts\n", "unknown op"),
            ("op=begin\n", "line out of place"),
            ("op=shrink\n", "line out of place"),
            ("op=back\n", "line out of place"),
            ("key=1\n", "line out of place"),
            ("sample=1\n", "line out of place"),
            ("sample=12345678901234567890x\n", "too long"),
            ("sample=18446744073709551616\n", "2^64 or more"),
            ("key=\n", "empty number"),
            ("key=01\n", "leading zero"),
            ("key=1\r\n", "carriage return"),
            ("key=+1\n", "not a digit"),
            ("key=18446744073709551616\n", "2^64 or more"),
            ("kez=1\n", "unknown name"),
            ("key1\n", "no equals sign"),
        ];
        for (line, expected) in kinds {
            assert_eq!(kind(line), expected, "{line:?}");
        }
    }
}
