//! The sheet, by 02's sentences on it. A byte is a number of four digits in base 4, of which the last
//! is the first statement's: it is made by sums and taken apart by division. No bit is shifted or
//! set, which is what the library does.

use crate::inputs::sheet::Sheet;

/// How many totals there are, one for each of the codes 0 to 2.
pub const TOTALS: usize = 3;

/// What the digits of a byte count, the first statement's first.
const WEIGHTS: [u32; 4] = [1, 4, 16, 64];

/// The sheet with these codes, and its totals. A code 3 is put down as well, and no total counts it.
pub fn of_codes(codes: &[u32]) -> Sheet {
    let total = |code: u32| codes.iter().filter(|other| **other == code).count() as u32;
    Sheet {
        bytes: codes.chunks(WEIGHTS.len()).map(byte).collect(),
        totals: (0..TOTALS as u32).map(total).collect(),
    }
}

fn byte(codes: &[u32]) -> u8 {
    let digits = codes.iter().zip(WEIGHTS);
    digits.map(|(code, weight)| code * weight).sum::<u32>() as u8
}

/// These bytes, with the totals that so many statements have on them.
pub fn counted(bytes: Vec<u8>, statements: usize) -> Sheet {
    let totals = of_codes(&codes(&bytes, statements)).totals;
    Sheet { bytes, totals }
}

/// Whether an old sheet is one of so many statements: none of its codes is 3, its bytes are just
/// those that its codes make, and so are its totals, as far as they are handed over.
pub fn is_sound(old: &Sheet, statements: usize) -> bool {
    let codes = codes(&old.bytes, statements);
    let right = of_codes(&codes);
    let mut totals = old.totals.iter().zip(&right.totals);
    codes.len() == statements
        && codes.iter().all(|code| *code < 3)
        && old.bytes == right.bytes
        && totals.all(|(total, right)| total == right)
}

/// The codes of so many statements, or of as many as there are bytes for.
fn codes(bytes: &[u8], statements: usize) -> Vec<u32> {
    let digits = |byte: &u8| WEIGHTS.map(|weight| u32::from(*byte) / weight % 4);
    bytes.iter().flat_map(digits).take(statements).collect()
}
