//! Numbers for the statements of a text: all different, short and long ones alike. Some registers
//! have plain numbers only, some have year numbers only, and some have both.

use super::lists::Lists;
use super::text::Text;
use crate::random::Random;
use crate::second::number::Number;
use crate::second::register::MOST_BYTES;
use std::collections::HashSet;

/// So many bytes of a text are left for lines that a test puts in.
const SPARE: usize = 3_000;

/// Years of which many numbers are drawn, so that a register has several of one year.
const YEARS: [usize; 3] = [1_000, 1_987, 2_099];

/// The least and the greatest numbers of each form, and some more at the edges of a length, a year or
/// a serial.
pub const EDGES: [&str; 21] = [
    "1",
    "9",
    "10",
    "99",
    "100",
    "9999999",
    "10000000",
    "99999999",
    "1000.1",
    "1000.9999",
    "1001.1",
    "1986.9999",
    "1987.1",
    "1987.9",
    "1987.10",
    "1987.14",
    "1987.9999",
    "1988.1",
    "2098.9999",
    "2099.1",
    "2099.9999",
];

/// Codes that are nobody's: 0, those at each edge of the codes that there are, and some that a cut to
/// fewer bits or digits would bring back.
pub const NOBODYS: [u32; 25] = [
    0,
    100_000_000,
    100_000_001,
    100_000_014,
    109_990_001,
    109_999_999,
    110_000_000,
    110_010_000,
    119_870_000,
    119_880_000,
    119_990_000,
    120_000_000,
    120_990_000,
    121_000_000,
    121_000_001,
    129_870_014,
    199_999_999,
    200_000_001,
    219_870_014,
    1_000_000_000,
    1_198_700_141,
    1 << 31,
    (1 << 31) + 119_870_014,
    u32::MAX - 1,
    u32::MAX,
];

/// How numbers are drawn: how many in a hundred are year numbers, and the most digits that a plain
/// number and a serial have.
#[derive(Clone, Copy)]
struct Draw {
    years: usize,
    digits: usize,
    serial: usize,
}

/// Plain numbers only, year numbers only, and both.
const LONG: [Draw; 3] = [draw(0, 8, 4), draw(100, 8, 4), draw(50, 8, 4)];

/// For a register whose text would get too long. With the last, every register up to the limits has
/// space: 1,024 statement lines of 9 bytes and 4,096 objection lines of 12 are 58,368.
const SHORT: [Draw; 3] = [draw(30, 4, 1), draw(10, 4, 1), draw(0, 4, 1)];

const fn draw(years: usize, digits: usize, serial: usize) -> Draw {
    Draw {
        years,
        digits,
        serial,
    }
}

/// Numbers for the statements of this register: long ones too, unless its text might get too long.
pub fn fitting(random: &mut Random, lists: &Lists) -> Vec<Number> {
    let first = LONG[random.below(LONG.len())];
    let mut numbers = first.different(random, lists.marks.len());
    for next in SHORT {
        if Text::written(lists, &numbers).0.len() + SPARE <= MOST_BYTES {
            break;
        }
        numbers = next.different(random, lists.marks.len());
    }
    numbers
}

/// The number that is written so, which there must be.
pub fn written_as(field: &str) -> Number {
    Number::read(field.as_bytes()).expect("a number")
}

/// A number of either form.
pub fn any(random: &mut Random) -> Number {
    LONG[random.below(LONG.len())].number(random)
}

impl Draw {
    /// So many different numbers. There must be enough of them.
    fn different(self, random: &mut Random, count: usize) -> Vec<Number> {
        let mut numbers = Vec::new();
        let mut taken = HashSet::new();
        while numbers.len() < count {
            let number = self.number(random);
            if taken.insert(number) {
                numbers.push(number);
            }
        }
        numbers
    }

    fn number(self, random: &mut Random) -> Number {
        if random.below(100) < self.years {
            let (year, serial) = (year(random), up_to(random, self.serial));
            written_as(&format!("{year}.{serial}"))
        } else {
            written_as(&up_to(random, self.digits).to_string())
        }
    }
}

fn year(random: &mut Random) -> usize {
    if random.once_in(2) {
        YEARS[random.below(YEARS.len())]
    } else {
        random.between(1_000, 2_099)
    }
}

/// Something of 1 to so many digits, as often of few as of many.
fn up_to(random: &mut Random, most_digits: usize) -> usize {
    let least = 10_usize.pow(random.below(most_digits) as u32);
    random.between(least, 10 * least - 1)
}
