//! The second solver's numbers against the sentences on them, taken another way: a decimal is what
//! some value is written as, and a code is parted by division. Every field of a few bytes is tried,
//! and codes of every year.

use super::Test;
use crate::library::session::Session;
use crate::second::number::{written, Number};

/// The bytes of the fields that are all tried, and the most that such a field has.
const BYTES: &[u8] = b"0129.";
const MOST: u32 = 7;

/// The codes that are tried go up to this one, in steps that meet every year.
const CODES: u32 = 122_000_000;
const STEP: usize = 997;

/// All codes that are so near to one of these are tried too.
const EDGES: [u32; 6] = [
    0,
    100_000_000,
    110_000_000,
    119_870_000,
    119_880_000,
    121_000_000,
];
const NEAR: u32 = 1_100;

pub fn tests() -> Vec<Test> {
    vec![
        Test::new("the fields that are numbers, told another way", fields),
        Test::new("the codes that are numbers, told another way", codes),
    ]
}

fn fields(session: &mut Session) -> Result<(), String> {
    for length in 0..=MOST {
        for number in 0..BYTES.len().pow(length) {
            session.count();
            let byte = |at: u32| BYTES[number / BYTES.len().pow(at) % BYTES.len()] as char;
            let field: String = (0..length).map(byte).collect();
            let read = Number::read(field.as_bytes()).map(Number::code);
            if read != code_of(&field) {
                return Err(format!("the second solver reads {read:?} in {field:?}"));
            }
        }
    }
    Ok(())
}

/// The code of this field, if it is a number: up to its point, if it has one, it is the decimal of a
/// plain number or of a year, and behind it that of a serial.
fn code_of(field: &str) -> Option<u32> {
    match field.split_once('.') {
        None => value(field).filter(|value| (1..=99_999_999).contains(value)),
        Some((year, serial)) => {
            let year = value(year).filter(|year| (1_000..=2_099).contains(year))?;
            let serial = value(serial).filter(|serial| (1..=9_999).contains(serial))?;
            Some(100_000_000 + 10_000 * year + serial)
        }
    }
}

/// The value that is written so.
fn value(decimal: &str) -> Option<u32> {
    let value: Option<u32> = decimal.parse().ok();
    value.filter(|value| value.to_string() == decimal)
}

fn codes(session: &mut Session) -> Result<(), String> {
    let near = |edge: u32| edge.saturating_sub(NEAR)..=edge + NEAR;
    let near = EDGES.into_iter().flat_map(near);
    for code in (0..CODES).step_by(STEP).chain(near) {
        session.count();
        if written(code) != text_of(code) {
            return Err(format!("the second solver writes {:?}", written(code)));
        }
    }
    Ok(())
}

/// The number of this code as it is written, if it is one.
fn text_of(code: u32) -> Option<String> {
    let (year, serial) = (code / 10_000, code % 10_000);
    match (code, year, serial) {
        (1..=99_999_999, _, _) => Some(format!("{code}")),
        (_, 11_000..=12_099, 1..) => Some(format!("{}.{serial}", year - 10_000)),
        _ => None,
    }
}
