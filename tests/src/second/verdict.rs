//! A verdict is a label with its length, and 01 gives both their numbers.

/// The number of a length that is not there, written `-` in a listing.
pub const NO_LENGTH: u32 = 65_535;

#[derive(Clone, Copy, Debug, PartialEq, Eq)]
pub enum Verdict {
    Open,
    Stands(u32),
    Falls(u32),
}

impl Verdict {
    pub fn label(self) -> u32 {
        match self {
            Verdict::Open => 0,
            Verdict::Stands(_) => 1,
            Verdict::Falls(_) => 2,
        }
    }

    pub fn length(self) -> u32 {
        match self {
            Verdict::Open => NO_LENGTH,
            Verdict::Stands(length) | Verdict::Falls(length) => length,
        }
    }
}
