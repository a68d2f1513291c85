//! Numbers that are read by themselves: at the edges and beyond, every year and every serial with and
//! without zeros in front, every short field, and drawn ones that come near to a number.

use super::{hold_field, Test};
use crate::inputs::numbers::{self, EDGES};
use crate::inputs::spoiled::NO_NUMBERS;
use crate::library::session::Session;
use crate::random::Random;
use crate::second::number::Number;

/// How many fields are drawn, and how many bytes one has at the most.
const DRAWN: usize = 60_000;
const MOST: usize = 12;

/// The bytes that a number is made of, and those beside them.
const NEAR: &[u8] = b"0123456789.0123456789./:,- \0";

pub fn tests() -> Vec<Test> {
    vec![
        Test::new("reading numbers at the edges", edges),
        Test::new("reading what is no number: refusal 3", no_numbers),
        Test::new("reading every field of two bytes", two_bytes),
        Test::new("reading every year of up to five digits", every_year),
        Test::new("reading every serial of up to five digits", every_serial),
        Test::new("reading numbers with a byte changed", changed),
        Test::new("reading drawn fields", drawn),
        Test::new("reading long fields", long),
    ]
}

fn edges(session: &mut Session) -> Result<(), String> {
    for field in EDGES {
        is_number(session, field.as_bytes(), true)?;
    }
    Ok(())
}

fn no_numbers(session: &mut Session) -> Result<(), String> {
    for field in NO_NUMBERS.into_iter().flatten() {
        is_number(session, field.as_bytes(), false)?;
    }
    Ok(())
}

/// Holds the reading of this field; the second solver must have found that it is a number, or none.
fn is_number(session: &mut Session, field: &[u8], right: bool) -> Result<(), String> {
    if Number::read(field).is_some() != right {
        let field = field.escape_ascii();
        return Err(format!("\"{field}\": the second solver is wrong"));
    }
    hold_field(session, field)
}

fn two_bytes(session: &mut Session) -> Result<(), String> {
    hold_field(session, b"")?;
    for first in 0..=255 {
        hold_field(session, &[first])?;
        for second in 0..=255 {
            hold_field(session, &[first, second])?;
        }
    }
    Ok(())
}

/// With as many digits as it has, and with zeros in front up to five.
fn every_year(session: &mut Session) -> Result<(), String> {
    for year in 0..=20_999 {
        let right = (1_000..=2_099).contains(&year);
        is_number(session, format!("{year}.7").as_bytes(), right)?;
    }
    for year in 0..1_000 {
        is_number(session, format!("{year:04}.7").as_bytes(), false)?;
        is_number(session, format!("{year:05}.7").as_bytes(), false)?;
    }
    Ok(())
}

fn every_serial(session: &mut Session) -> Result<(), String> {
    for serial in 0..=10_999 {
        let right = (1..=9_999).contains(&serial);
        is_number(session, format!("1987.{serial}").as_bytes(), right)?;
    }
    for serial in 0..1_000 {
        is_number(session, format!("1987.{serial:04}").as_bytes(), false)?;
        is_number(session, format!("1987.{serial:05}").as_bytes(), false)?;
    }
    Ok(())
}

/// Every byte in the place of every byte of a number, and between any two.
fn changed(session: &mut Session) -> Result<(), String> {
    for field in EDGES {
        let field = field.as_bytes();
        for at in 0..=field.len() {
            let (before, behind) = field.split_at(at);
            for byte in 0..=255 {
                hold_field(session, &[before, &[byte], behind].concat())?;
                hold_field(
                    session,
                    &[before, &[byte], behind.get(1..).unwrap_or(b"")].concat(),
                )?;
            }
            hold_field(session, before)?;
            hold_field(session, behind)?;
        }
    }
    Ok(())
}

/// Bytes at random, and numbers that bytes were put into, or taken from.
fn drawn(session: &mut Session) -> Result<(), String> {
    let mut random = Random::for_test("drawn fields");
    let (mut numbers, mut others) = (0, 0);
    for _ in 0..DRAWN {
        let field = match random.below(4) {
            0 => any_bytes(&mut random),
            1 => numbers::any(&mut random).to_string().into_bytes(),
            _ => nearly_number(&mut random),
        };
        hold_field(session, &field)?;
        match Number::read(&field) {
            Some(_) => numbers += 1,
            None => others += 1,
        }
    }
    match numbers.min(others) {
        0..=9_999 => Err(format!(
            "too much alike: {numbers} numbers, {others} others"
        )),
        _ => Ok(()),
    }
}

fn any_bytes(random: &mut Random) -> Vec<u8> {
    let byte = |random: &mut Random| match random.once_in(8) {
        true => random.below(256) as u8,
        false => NEAR[random.below(NEAR.len())],
    };
    (0..random.below(MOST + 1)).map(|_| byte(random)).collect()
}

fn nearly_number(random: &mut Random) -> Vec<u8> {
    let mut field = numbers::any(random).to_string().into_bytes();
    for _ in 0..=random.below(2) {
        let (at, byte) = (
            random.below(field.len() + 1),
            NEAR[random.below(NEAR.len())],
        );
        match random.below(3) {
            0 => field.insert(at, byte),
            1 if at < field.len() => field[at] = byte,
            _ if at < field.len() => drop(field.remove(at)),
            _ => field.push(byte),
        }
    }
    field
}

/// A number with more behind it, which a length cut down to 8 or 16 bits would not see.
fn long(session: &mut Session) -> Result<(), String> {
    for number in EDGES {
        for more in [1, 7, 255, 256, 257, 65_535, 65_536, 65_537, 131_072] {
            for byte in [b'0', b'1', b'.', b'\n', 0] {
                let mut field = number.as_bytes().to_vec();
                field.resize(number.len() + more, byte);
                hold_field(session, &field)?;
            }
        }
    }
    Ok(())
}
