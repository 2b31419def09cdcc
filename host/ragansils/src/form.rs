//! The form of a table.

use std::fmt;

// As document 01, the paper that fixes the table, lays its words out.
const FORM: usize = 0;

/// The form of a table, by the number that its word 0 has for it. It is chosen once, in [`Creation`](crate::Creation), and every call goes
/// by it; [`Table::form`](crate::Table::form) tells it. Both forms answer alike and have as many slots in as many words, but the words of
/// one are not those of the other. [`Table::convert`](crate::Table::convert) makes a second table with the same items in the other form.
///
/// ```
/// use ragansils::{Creation, Form, OrdinaryMemory, Record, Refusal, Table};
///
/// assert_eq!(Form::default(), Form::Two);
/// let creation = Creation::new(4, 1);
/// assert_eq!(creation.form, Form::Two);
///
/// // A table that was made in form 1 keeps it.
/// let creation = Creation { form: Form::One, ..creation };
/// let mut table = Table::create(vec![0; creation.words().unwrap()], &creation, OrdinaryMemory)?;
/// table.insert(1.into(), Record { function: 7, place: 120 })?;
/// let (words, platform) = table.into_parts();
/// let table = Table::open(words, platform)?;
/// assert_eq!(table.form(), Ok(Form::One));
/// # Ok::<(), Refusal>(())
/// ```
#[derive(Clone, Copy, Debug, Default, PartialEq, Eq, PartialOrd, Ord, Hash)]
pub enum Form {
    /// The form of all tables that were made before there was a second one: a key is hashed as it is, and a token word has four bits, one
    /// for each slot that is taken. For a table that an older collector must read too.
    One = 1,
    /// The form for new tables. Before it is hashed a key is combined by exclusive or with itself / 2^32, so that its high bits count in
    /// small tables too. And the token word has eight bits of the hash of each key, its tag: a query reads only those keys of a bucket
    /// whose tag fits.
    #[default]
    Two = 2,
}

impl Form {
    /// Every form, by its number.
    pub const ALL: [Form; 2] = [Form::One, Form::Two];

    /// The number of the C interface, which is also word 0 of a table.
    pub const fn number(self) -> u64 {
        self as u64
    }

    /// The form that has this number.
    ///
    /// ```
    /// use ragansils::Form;
    ///
    /// assert_eq!([0, 1, 2, 3].map(Form::of_number), [None, Some(Form::One), Some(Form::Two), None]);
    /// ```
    #[inline]
    pub fn of_number(number: u64) -> Option<Form> {
        match number {
            1 => Some(Form::One),
            2 => Some(Form::Two),
            _ => None,
        }
    }

    /// The form that a table of this one is converted to.
    ///
    /// ```
    /// use ragansils::Form;
    ///
    /// assert_eq!(Form::ALL.map(Form::other), [Form::Two, Form::One]);
    /// ```
    pub const fn other(self) -> Form {
        match self {
            Form::One => Form::Two,
            Form::Two => Form::One,
        }
    }

    /// Of any words; that the rest of the header is good is not looked at.
    #[inline]
    pub(crate) fn of(words: &[u64]) -> Option<Form> {
        Form::of_number(*words.get(FORM)?)
    }

    /// What a table of this form multiplies in the place of a key.
    #[inline]
    pub(crate) fn mixed(self, key: u64) -> u64 {
        match self {
            Form::One => key,
            Form::Two => key ^ (key >> 32),
        }
    }
}

impl fmt::Display for Form {
    fn fmt(&self, f: &mut fmt::Formatter) -> fmt::Result {
        f.pad(match self {
            Form::One => "form 1",
            Form::Two => "form 2",
        })
    }
}
