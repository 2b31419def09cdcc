//! The form of a table, told by word 0. It decides two things and nothing else: what a key hashes to (`hashing`) and
//! what a token word is (`token`). A conversion only asks which form is the other one.

#[derive(Clone, Copy, Debug, PartialEq, Eq)]
pub enum Form {
    One = 1,
    Two = 2,
}

impl Form {
    /// None for any word but 1 and 2.
    pub fn from_word(word: u64) -> Option<Form> {
        match word {
            1 => Some(Form::One),
            2 => Some(Form::Two),
            _ => None,
        }
    }

    pub fn word(self) -> u64 {
        self as u64
    }

    /// The form that a table of this one is converted to.
    pub fn other(self) -> Form {
        match self {
            Form::One => Form::Two,
            Form::Two => Form::One,
        }
    }
}
