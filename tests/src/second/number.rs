//! Numbers, by the sentences on their two forms. A field is cut at its points and its code is summed
//! up; a code is written by cutting its own decimal digits. So each goes another way than back.

use super::answer::{bytes_of, is_short, Answer};
use super::refusals::{NO_NUMBER, SHORT_ROOM};
use std::fmt;

/// The number of a statement, told by its code.
#[derive(Clone, Copy, Debug, PartialEq, Eq, Hash)]
pub struct Number(u32);

impl Number {
    /// The number that this field is. A plain number is 1 to 8 digits; a year number is a year of
    /// four digits, 1000 to 2099, a point, and a serial of 1 to 4 digits. None begins with 0, nor
    /// does a serial.
    pub fn read(field: &[u8]) -> Option<Self> {
        let parts: Vec<&[u8]> = field.split(|byte| *byte == b'.').collect();
        match parts[..] {
            [plain] => decimal(plain, 8).map(Number),
            [year, serial] => {
                let year = decimal(year, 4).filter(|year| (1_000..=2_099).contains(year))?;
                let serial = decimal(serial, 4)?;
                Some(Number(100_000_000 + 10_000 * year + serial))
            }
            _ => None,
        }
    }

    /// The number with this code; None where the code is nobody's.
    pub fn of_code(code: u32) -> Option<Self> {
        written(code).map(|_| Number(code))
    }

    pub fn code(self) -> u32 {
        self.0
    }
}

impl fmt::Display for Number {
    fn fmt(&self, out: &mut fmt::Formatter) -> fmt::Result {
        out.write_str(&written(self.0).expect("the code of a number"))
    }
}

/// What 1 to so many digits, the first not 0, are in decimal.
fn decimal(digits: &[u8], most: usize) -> Option<u32> {
    let is_decimal = digits.iter().all(u8::is_ascii_digit) && digits.first()? != &b'0';
    let value = |sum: u32, digit: &u8| 10 * sum + u32::from(digit - b'0');
    (is_decimal && digits.len() <= most).then(|| digits.iter().fold(0, value))
}

/// The number with this code as it is written. The code of a plain number is that number. The code of
/// a year number is nine digits: a 1, the year, and the serial behind as many zeros as make it four.
pub fn written(code: u32) -> Option<String> {
    let digits = code.to_string();
    match digits.len() {
        1..=8 => (code > 0).then_some(digits),
        9 => {
            let (one, rest) = digits.split_at(1);
            let (year, serial) = rest.split_at(4);
            let serial = serial.trim_start_matches('0');
            let is_year = one == "1" && ("1000"..="2099").contains(&year);
            (is_year && !serial.is_empty()).then(|| format!("{year}.{serial}"))
        }
        _ => None,
    }
}

/// What the call that reads a number by itself ought to answer to these bytes.
pub fn reading(field: &[u8]) -> Answer {
    let number = Number::read(field);
    let refusal = number.is_none().then_some(NO_NUMBER);
    Answer::first_of(&[refusal], number.map_or(0, Number::code), Vec::new())
}

/// What the call that writes a number by itself ought to answer, where the room has this length.
pub fn writing(code: u32, room_length: usize) -> Answer {
    let written = written(code);
    let refusal = written.is_none().then_some(NO_NUMBER);
    let rooms = vec![bytes_of(written.unwrap_or_default().as_bytes())];
    let short = is_short(&rooms, &[room_length]).then_some(SHORT_ROOM);
    Answer::first_of(&[refusal, short], rooms[0].len() as u32, rooms)
}
