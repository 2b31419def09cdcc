//! The refusal numbers of document 01, and of document 02: 15 and 16 of request a), 17 of request f). Requests h) and i)
//! have none of their own: a conversion gives 1, 6, 7, 12 and 13, and the question to two tables 1, 3 and 5.

/// The number that stands for "not refused".
pub const SUCCESS: u64 = 0;

#[derive(Clone, Copy, Debug, PartialEq, Eq)]
pub enum Refusal {
    BadTable = 1,
    ShortList = 2,
    FlagNotZero = 3,
    KeyPresent = 4,
    KeyAbsent = 5,
    NoPlace = 6,
    /// Resizing is growing or shrinking.
    AlreadyResizing = 7,
    NotResizing = 8,
    AtCapacity = 9,
    InterimNotEmpty = 10,
    InterimEmpty = 11,
    /// Recovery gives it for what is none of its three kinds, a conversion for every table that is not sound.
    NotRecoverable = 12,
    /// A conversion gives it where the second table cannot be created, as its length is another.
    BadCreation = 13,
    BadStores = 14,
    ShortRecords = 15,
    AddressOrDepthTooLarge = 16,
    TooSmall = 17,
}

impl Refusal {
    pub fn number(self) -> u64 {
        self as u64
    }
}
