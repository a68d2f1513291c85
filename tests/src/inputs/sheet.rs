//! A sheet with its totals, as they lie in two rooms. Whether it is sound is for the library and the
//! second solver to say, so anything can be put into one of these.

use std::fmt;

/// How many bytes of a sheet are shown where a test failed.
const SHOWN: usize = 24;

#[derive(Clone, Debug, PartialEq, Eq)]
pub struct Sheet {
    pub bytes: Vec<u8>,
    pub totals: Vec<u32>,
}

impl Sheet {
    /// The entries of the two rooms.
    pub fn rooms(&self) -> Vec<Vec<u32>> {
        let bytes = self.bytes.iter().map(|byte| u32::from(*byte)).collect();
        vec![bytes, self.totals.clone()]
    }

    /// The same sheet with another total.
    pub fn with_total(&self, at: usize, total: u32) -> Self {
        let mut sheet = self.clone();
        sheet.totals[at] = total;
        sheet
    }

    /// The same sheet with so many totals: the first of them, or more of this value behind.
    pub fn with_totals(&self, count: usize, more: u32) -> Self {
        let mut sheet = self.clone();
        sheet.totals.resize(count, more);
        sheet
    }
}

/// Puts a code in the place of another, the other codes of the byte unchanged.
pub fn set_code(bytes: &mut [u8], place: usize, code: u8) {
    let shift = place % 4 * 2;
    let byte = &mut bytes[place / 4];
    *byte = *byte & !(3 << shift) | code << shift;
}

impl fmt::Display for Sheet {
    fn fmt(&self, out: &mut fmt::Formatter) -> fmt::Result {
        let start = &self.bytes[..self.bytes.len().min(SHOWN)];
        write!(out, "sheet[{}] {start:02x?}", self.bytes.len())?;
        if self.bytes.len() > SHOWN {
            write!(out, " ..")?;
        }
        write!(out, ", totals {:?}", self.totals)
    }
}
