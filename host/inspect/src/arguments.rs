//! What the command line asks for.

use std::ffi::OsString;
use std::path::PathBuf;

use ragansils::program::path_of;
use ragansils::Key;

#[derive(Debug, PartialEq, Eq)]
pub enum Asked {
    Help,
    Table(PathBuf),
    Key(PathBuf, Key),
}

/// What is asked for; or what is wrong with it, in a sentence where the usage alone would not tell.
pub fn read(arguments: &[OsString]) -> Result<Asked, Option<String>> {
    match arguments {
        [only] if only == "--help" || only == "-h" => Ok(Asked::Help),
        [path] => Ok(Asked::Table(path_of(path).ok_or(None)?)),
        [path, option, address, depth] if option == "--key" => {
            let path = path_of(path).ok_or(None)?;
            let key = key_of(&address.to_string_lossy(), &depth.to_string_lossy()).map_err(Some)?;
            Ok(Asked::Key(path, key))
        }
        _ => Err(None),
    }
}

fn key_of(address: &str, depth: &str) -> Result<Key, String> {
    let depth_number = number(depth).and_then(|depth| u8::try_from(depth).ok());
    let depth_number = depth_number.ok_or_else(|| format!("'{depth}' is no depth: a depth is 0 to 255"))?;
    let key = number(address).and_then(|address| Key::new(address, depth_number));
    key.ok_or_else(|| {
        format!("'{address}' is no address: an address is a number below 2^56, decimal, or hexadecimal with 0x before it")
    })
}

fn number(text: &str) -> Option<u64> {
    let (digits, radix) = text.strip_prefix("0x").map_or((text, 10), |digits| (digits, 16));
    // A sign would be taken too.
    let all_digits = digits.chars().all(|digit| digit.is_digit(radix));
    u64::from_str_radix(digits, radix).ok().filter(|_| all_digits)
}

#[cfg(test)]
mod tests {
    use super::*;

    fn asked(words: &[&str]) -> Result<Asked, Option<String>> {
        read(&words.iter().map(OsString::from).collect::<Vec<_>>())
    }

    #[test]
    fn a_key_is_read_in_both_ways_to_write_a_number() {
        let key = |address, depth| Ok(Asked::Key("file".into(), Key::new(address, depth).unwrap()));
        assert_eq!(asked(&["file", "--key", "64", "2"]), key(64, 2));
        assert_eq!(asked(&["file", "--key", "0x555500001040", "0"]), key(0x5555_0000_1040, 0));
        assert_eq!(asked(&["file", "--key", "0xffFFffFFffFFff", "0xff"]), key((1 << 56) - 1, 255));
    }

    #[test]
    fn what_is_no_key_is_told() {
        let told = |address, depth| asked(&["file", "--key", address, depth]).unwrap_err().unwrap();
        for address in [
            "",
            "x",
            "0x",
            "0X10",
            "+1",
            "-1",
            "0x+1",
            "1.0",
            "10h",
            "72057594037927936",
            "0x1ffffffffffffffff",
        ] {
            assert!(told(address, "0").starts_with(&format!("'{address}' is no address: ")), "{address}");
        }
        for depth in ["", "x", "-1", "256", "18446744073709551616"] {
            assert_eq!(told("1", depth), format!("'{depth}' is no depth: a depth is 0 to 255"));
        }
    }

    #[test]
    fn all_else_is_wrong() {
        let key = ["file", "--key", "1", "0", "1"];
        for words in [
            &[][..],
            &key[..2],
            &key[..3],
            &key,
            &["file", "--kez", "1", "0"],
            &["-file"],
            &["-f", "--key", "1", "0"],
        ] {
            assert_eq!(asked(words), Err(None), "{words:?}");
        }
        assert_eq!(asked(&["file"]), Ok(Asked::Table("file".into())));
        assert_eq!(asked(&["--help"]), Ok(Asked::Help));
    }
}
