//! Sound sheets of so many statements, whatever register they might be of.

use super::sheet::Sheet;
use crate::random::Random;
use crate::second::sheet;

/// How many codes there are for labels: 0 to 2.
const CODES: usize = 3;

/// Numbers of statements: those of no byte up to three, and those of the last bytes at the limit.
pub const SIZES: [usize; 14] = [0, 1, 2, 3, 4, 5, 6, 7, 8, 9, 1_021, 1_022, 1_023, 1_024];

/// Every statement has this code.
pub fn all(code: u32, statements: usize) -> Sheet {
    sheet::of_codes(&vec![code; statements])
}

/// The codes come in turn: falls, stands, open, and again.
pub fn in_turn(statements: usize) -> Sheet {
    let codes: Vec<u32> = [2, 1, 0].into_iter().cycle().take(statements).collect();
    sheet::of_codes(&codes)
}

/// Each statement has a random code.
pub fn random(random: &mut Random, statements: usize) -> Sheet {
    let code = |_| random.below(CODES) as u32;
    let codes: Vec<u32> = (0..statements).map(code).collect();
    sheet::of_codes(&codes)
}

/// Every sound sheet of so many statements, which are few.
pub fn every(statements: usize) -> Vec<Sheet> {
    let code = |number: usize, place: usize| (number / CODES.pow(place as u32) % CODES) as u32;
    let codes =
        |number: usize| -> Vec<u32> { (0..statements).map(|place| code(number, place)).collect() };
    let numbers = 0..CODES.pow(statements as u32);
    numbers
        .map(|number| sheet::of_codes(&codes(number)))
        .collect()
}
