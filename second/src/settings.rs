//! Settings and their editions.

use crate::fields::Known;
use crate::level::Level;
use crate::octets::decimal;

/// The most settings that a channel of any kind has.
pub const MOST_SETTINGS: usize = 3;
/// "The last four are kept."
pub const MOST_EDITIONS: usize = 4;
const MILLIS_DIGITS: usize = 19;
/// What so many digits can give.
pub const MOST_MILLIS: u64 = 9_999_999_999_999_999_999;

/// "A setting is a yes or no, a whole number of milliseconds, or a level."
#[derive(Clone, Copy, Debug, PartialEq, Eq)]
pub enum Sort {
    Flag,
    Millis,
    Level,
}

#[derive(Clone, Copy, Debug, PartialEq, Eq)]
pub enum Value {
    Flag(bool),
    Millis(u64),
    Level(Level),
}

impl Sort {
    /// "Milliseconds as 1 to 19 digits, levels read as in K1." None: illegal.
    pub fn read(self, text: &[u8]) -> Option<Value> {
        match self {
            Sort::Flag => flag(text).map(Value::Flag),
            Sort::Millis => decimal(text, MILLIS_DIGITS).map(Value::Millis),
            Sort::Level => Level::of_value(text).map(Value::Level),
        }
    }
}

/// "`true` or `false` in any case."
pub fn flag(text: &[u8]) -> Option<bool> {
    if text.eq_ignore_ascii_case(b"true") {
        Some(true)
    } else if text.eq_ignore_ascii_case(b"false") {
        Some(false)
    } else {
        None
    }
}

/// A setting of one kind of channel: its field, and of which sort it is.
#[derive(Clone, Copy, Debug, PartialEq, Eq)]
pub struct Setting {
    pub field: Known,
    pub sort: Sort,
}

/// The values of a kind's settings, in their order; None is unset.
#[derive(Clone, Copy, Debug, PartialEq, Eq)]
pub struct Edition(pub [Option<Value>; MOST_SETTINGS]);

impl Edition {
    pub const UNSET: Edition = Edition([None; MOST_SETTINGS]);
}

/// The editions that are kept, the newest first: one to four.
#[derive(Clone, Copy, Debug, PartialEq, Eq)]
pub struct Editions {
    stored: [Edition; MOST_EDITIONS],
    count: usize,
}

impl Editions {
    /// "A fresh channel holds one edition, all unset."
    pub const FRESH: Editions = Editions {
        stored: [Edition::UNSET; MOST_EDITIONS],
        count: 1,
    };

    /// None for none, and for more than four.
    pub fn of(editions: &[Edition]) -> Option<Editions> {
        let mut kept = Editions::FRESH;
        kept.count = editions.len();
        let stored = kept.stored.get_mut(..editions.len())?;
        stored.copy_from_slice(editions);
        (kept.count > 0).then_some(kept)
    }

    pub fn kept(&self) -> &[Edition] {
        &self.stored[..self.count]
    }

    pub fn newest(&self) -> Edition {
        self.stored[0]
    }

    /// "By number, 1 the newest"; None for a number not kept.
    pub fn numbered(&self, number: u32) -> Option<Edition> {
        let place = number.checked_sub(1)?;
        self.kept().get(place as usize).copied()
    }

    /// Makes a new one; a fifth is kept no longer.
    pub fn add(&mut self, edition: Edition) {
        self.stored.rotate_right(1);
        self.stored[0] = edition;
        self.count = MOST_EDITIONS.min(self.count + 1);
    }
}
