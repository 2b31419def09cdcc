//! Why a call refused.

use std::error::Error;
use std::fmt;

/// A call's refusal, by the number of the C interface; 0, which is success, is none of them.
///
/// A refused call changes nothing, but for a conversion with `NoPlace`, which leaves its second table empty. Of a conversion
/// [`Unconverted`](crate::Unconverted) has the refusals, with the key that found no place.
///
/// ```
/// use ragansils::Refusal;
///
/// assert_eq!(Refusal::NoPlace.number(), 6);
/// assert_eq!(Refusal::try_from(6), Ok(Refusal::NoPlace));
/// assert!(Refusal::try_from(0).is_err());
/// assert_eq!(Refusal::KeyAbsent.to_string(), "the key is absent (refusal 5)");
/// ```
#[derive(Clone, Copy, Debug, PartialEq, Eq, Hash)]
#[non_exhaustive]
pub enum Refusal {
    /// Length, form, capacity exponent, multipliers or state are bad: these words are no table.
    BadHeader = 1,
    /// The lent list is shorter than 20 words.
    ShortList = 2,
    /// The update flag is not 0: an update was cut, and recovery comes first.
    FlagSet = 3,
    /// Insert: the key is present.
    KeyPresent = 4,
    /// Update and delete: the key is absent. Chain: one of the depths has no record. Two tables asked as one: neither has the key.
    KeyAbsent = 5,
    /// Insert: there is no place for the key; the table may grow, or something may be deleted. Step: no interim item has a place, or, of a
    /// step from a bucket, none from there on; a delete may make room for one, and a shrink may be turned back. Conversion: an item has no
    /// place in the other form.
    NoPlace = 6,
    /// Begin, shrink and conversion: the table is growing or shrinking already.
    AlreadyResizing = 7,
    /// Back, step and end: the table is neither growing nor shrinking.
    NotResizing = 8,
    /// Begin: the table is as large as its words allow.
    AtCapacity = 9,
    /// End: there are items in the interim level, which steps move.
    InterimTaken = 10,
    /// Step: the interim level is empty, so the growth or shrink can end. Step from a bucket: there is no item from there on.
    InterimEmpty = 11,
    /// Recovery: the table is none of the three kinds that a cut leaves. Conversion: the table is not sound.
    NoKind = 12,
    /// Creation: form, capacity exponent, first top, length or a multiplier are bad. Conversion: the second table has another length.
    BadCreation = 13,
    /// Making: the stores are not in the list, or one is outside the table.
    BadMaking = 14,
    /// Chain: fewer records are lent than there are depths to look for.
    ShortRecords = 15,
    /// Chain: the address is 2^56 or more, or the depth above 255.
    BadPosition = 16,
    /// Shrink: the top has two buckets, and the table is as small as it can be.
    TooSmall = 17,
}

/// A number that is no refusal's.
#[derive(Clone, Copy, Debug, PartialEq, Eq)]
pub struct UnknownNumber(pub u64);

impl Refusal {
    /// Every refusal, by its number.
    pub const ALL: [Refusal; 17] = [
        Refusal::BadHeader,
        Refusal::ShortList,
        Refusal::FlagSet,
        Refusal::KeyPresent,
        Refusal::KeyAbsent,
        Refusal::NoPlace,
        Refusal::AlreadyResizing,
        Refusal::NotResizing,
        Refusal::AtCapacity,
        Refusal::InterimTaken,
        Refusal::InterimEmpty,
        Refusal::NoKind,
        Refusal::BadCreation,
        Refusal::BadMaking,
        Refusal::ShortRecords,
        Refusal::BadPosition,
        Refusal::TooSmall,
    ];

    /// The number of the C interface.
    pub fn number(self) -> u64 {
        self as u64
    }

    /// What a number of the library means.
    #[inline]
    pub(crate) fn check(number: u64) -> Result<(), Refusal> {
        match number {
            0 => Ok(()),
            _ => Err(Refusal::try_from(number).expect("the library answers 0 or the number of a refusal")),
        }
    }

    fn words(self) -> &'static str {
        match self {
            Refusal::BadHeader => "length, form, capacity exponent, multipliers or state are bad",
            Refusal::ShortList => "the list is shorter than 20 words",
            Refusal::FlagSet => "the update flag is not 0, so recovery comes first",
            Refusal::KeyPresent => "the key is present",
            Refusal::KeyAbsent => "the key is absent",
            Refusal::NoPlace => "there is no place",
            Refusal::AlreadyResizing => "the table is growing or shrinking already",
            Refusal::NotResizing => "the table is neither growing nor shrinking",
            Refusal::AtCapacity => "the table is as large as its words allow",
            Refusal::InterimTaken => "the interim level is not empty",
            Refusal::InterimEmpty => "the interim level is empty",
            Refusal::NoKind => "the table is none of the kinds that recovery accepts",
            Refusal::BadCreation => "form, capacity exponent, first top, length or a multiplier are bad",
            Refusal::BadMaking => "the stores are not in the list, or one is outside the table",
            Refusal::ShortRecords => "fewer records are lent than there are depths",
            Refusal::BadPosition => "the address is 2^56 or more, or the depth above 255",
            Refusal::TooSmall => "the table is as small as it can be",
        }
    }
}

impl TryFrom<u64> for Refusal {
    type Error = UnknownNumber;

    fn try_from(number: u64) -> Result<Refusal, UnknownNumber> {
        Refusal::ALL.into_iter().find(|refusal| refusal.number() == number).ok_or(UnknownNumber(number))
    }
}

impl fmt::Display for Refusal {
    fn fmt(&self, f: &mut fmt::Formatter) -> fmt::Result {
        write!(f, "{} (refusal {})", self.words(), self.number())
    }
}

impl fmt::Display for UnknownNumber {
    fn fmt(&self, f: &mut fmt::Formatter) -> fmt::Result {
        write!(f, "{} is not the number of a refusal", self.0)
    }
}

impl Error for Refusal {}
impl Error for UnknownNumber {}
