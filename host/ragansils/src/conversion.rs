//! Why a table was not converted.

use std::error::Error;
use std::fmt;

use crate::{Key, Refusal};

/// Why a table was not converted to its other form, by the refusals of [`calls::convert`](crate::calls::convert). The table is as it was.
///
/// ```
/// use ragansils::{Key, Refusal, Unconverted};
///
/// let refused = Unconverted::NoPlace(Key::from(258));
/// assert_eq!(refused.refusal(), Refusal::NoPlace);
/// assert_eq!(refused.to_string(), "key 258 (address 0x1, depth 2) has no place in the other form (refusal 6)");
/// ```
#[derive(Clone, Copy, Debug, PartialEq, Eq, Hash)]
pub enum Unconverted {
    /// Length, form, capacity exponent, multipliers or state are bad: these words are no table.
    BadHeader,
    /// The table is not sound. Where a cut left it so, recovery mends it; else it is damaged.
    NotSound,
    /// The table is growing or shrinking, and that has to end first.
    Resizing,
    /// The second table has another number of words.
    OtherLength,
    /// The item with this key has no place in the other form. The second table is left empty.
    NoPlace(Key),
}

impl Unconverted {
    /// What the library's answer means: its number, and the key that it told.
    pub(crate) fn check(number: u64, key: u64) -> Result<(), Unconverted> {
        Refusal::check(number).map_err(|refusal| match refusal {
            Refusal::BadHeader => Unconverted::BadHeader,
            Refusal::NoKind => Unconverted::NotSound,
            Refusal::AlreadyResizing => Unconverted::Resizing,
            Refusal::BadCreation => Unconverted::OtherLength,
            Refusal::NoPlace => Unconverted::NoPlace(Key::from(key)),
            other => panic!("the library does not refuse a conversion so: {other}"),
        })
    }

    /// The refusal, which has the number of the C interface.
    pub fn refusal(self) -> Refusal {
        match self {
            Unconverted::BadHeader => Refusal::BadHeader,
            Unconverted::NotSound => Refusal::NoKind,
            Unconverted::Resizing => Refusal::AlreadyResizing,
            Unconverted::OtherLength => Refusal::BadCreation,
            Unconverted::NoPlace(_) => Refusal::NoPlace,
        }
    }
}

impl fmt::Display for Unconverted {
    fn fmt(&self, f: &mut fmt::Formatter) -> fmt::Result {
        match self {
            Unconverted::BadHeader => return self.refusal().fmt(f),
            Unconverted::NotSound => f.write_str("the table is not sound")?,
            Unconverted::Resizing => f.write_str("the table is growing or shrinking")?,
            Unconverted::OtherLength => f.write_str("the second table has another length")?,
            Unconverted::NoPlace(key) => write!(f, "{key} has no place in the other form")?,
        }
        write!(f, " (refusal {})", self.refusal().number())
    }
}

impl Error for Unconverted {}
