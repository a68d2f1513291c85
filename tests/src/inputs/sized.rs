//! Registers whose text has just so many bytes, near the limit: statements with the longest numbers of
//! one form, then objections up to the length or a little over it. What is over is taken from the
//! first statements, which nobody names, by giving them shorter numbers.

use super::lists::Lists;
use super::numbers::written_as;
use crate::second::number::Number;

const STATEMENTS: usize = 1_000;
/// So many statements are not named, and have numbers that may be shorter.
const SPARE: usize = 8;

/// A form of numbers: the bytes of the longest, how many of them can be left out, and the number of a
/// statement with so many left out.
pub struct Form {
    bytes: usize,
    most_shorter: usize,
    number: fn(usize, usize) -> String,
}

pub const FORMS: [Form; 2] = [
    Form {
        bytes: 8,
        most_shorter: 7,
        number: plain,
    },
    Form {
        bytes: 9,
        most_shorter: 3,
        number: year,
    },
];

fn plain(place: usize, shorter: usize) -> String {
    let number = 10_000_000 * (1 + place % 9) + 37 * place;
    (number / 10_usize.pow(shorter as u32)).to_string()
}

fn year(place: usize, shorter: usize) -> String {
    let serial = 1_000 * (1 + place % 9) + place % 1_000;
    let shorter = 10_usize.pow(shorter as u32);
    format!("{}.{}", 1_000 + place, serial / shorter)
}

impl Form {
    /// A register of just so many bytes, 60,000 or more.
    pub fn register(&self, bytes: usize) -> (Lists, Vec<Number>) {
        let (statement, objection) = (self.bytes + 5, 2 * self.bytes + 4);
        let objections = (bytes - statement * STATEMENTS).div_ceil(objection);
        let mut over = statement * STATEMENTS + objection * objections - bytes;
        let number = |place: usize| {
            let shorter = over.min(self.most_shorter);
            over -= shorter;
            written_as(&(self.number)(place, shorter))
        };
        let numbers = (0..STATEMENTS).map(number).collect();
        let named = STATEMENTS - SPARE;
        let pair = |entry: usize| {
            let target = entry % named;
            let objector = (target + 5 * (entry / named)) % named;
            ((SPARE + objector) as u32, (SPARE + target) as u32)
        };
        let pairs: Vec<(u32, u32)> = (0..objections).map(pair).collect();
        (Lists::new(vec![0; STATEMENTS], &pairs), numbers)
    }
}
