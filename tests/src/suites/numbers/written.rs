//! Numbers that are written by themselves: of codes at the edges and beyond, of drawn codes, and in
//! rooms of every length: refusal 10 exactly if the room is shorter than the number, refusal 3 for a
//! code that is nobody's whatever the room, and no byte written that is not the number's.

use super::{hold_code, Test};
use crate::inputs::numbers::{self, written_as, EDGES, NOBODYS};
use crate::library::array::Room;
use crate::library::session::Session;
use crate::random::Random;
use crate::second::number;

/// The rooms that each edge is written into have up to so many bytes.
const MOST: usize = 12;

/// How many codes are drawn.
const DRAWN: usize = 30_000;

pub fn tests() -> Vec<Test> {
    vec![
        Test::new("writing numbers at the edges: rooms", edges),
        Test::new("writing codes that are nobody's: refusal 3", nobodys),
        Test::new("writing numbers into large rooms", large),
        Test::new("writing around every edge", around),
        Test::new(
            "writing the first and the last number of each year",
            every_year,
        ),
        Test::new("writing drawn codes", drawn),
    ]
}

fn edges(session: &mut Session) -> Result<(), String> {
    for field in EDGES {
        hold_rooms(session, written_as(field).code())?;
    }
    Ok(())
}

fn nobodys(session: &mut Session) -> Result<(), String> {
    for code in NOBODYS {
        if let Some(field) = number::written(code) {
            return Err(format!("the second solver writes {field} for {code}"));
        }
        hold_rooms(session, code)?;
    }
    Ok(())
}

/// Holds the writing with no room, and with rooms of every length up to the most.
fn hold_rooms(session: &mut Session, code: u32) -> Result<(), String> {
    session.hold_number_text(code, Room::Null)?;
    for length in 0..=MOST {
        session.hold_number_text(code, Room::Of(length))?;
    }
    Ok(())
}

/// Lengths that would be too short if they were cut down to 8 or 16 bits.
fn large(session: &mut Session) -> Result<(), String> {
    let edges = EDGES.map(|field| written_as(field).code());
    for code in edges.into_iter().chain(NOBODYS) {
        for length in [255, 256, 257, 65_535, 65_536, 65_537, 131_072] {
            session.hold_number_text(code, Room::Of(length))?;
        }
    }
    Ok(())
}

/// Codes on both sides of what ends a length, a year or a form.
fn around(session: &mut Session) -> Result<(), String> {
    let powers = (0..=9).map(|power| 10_u32.pow(power));
    for edge in powers.chain(NOBODYS) {
        for off in 0..=200 {
            hold_code(session, edge.saturating_sub(off))?;
            hold_code(session, edge.saturating_add(off))?;
        }
    }
    Ok(())
}

/// Of every year from 0 to 2200: what it begins with, which is nobody's, and its ends.
fn every_year(session: &mut Session) -> Result<(), String> {
    for year in 0..=2_200 {
        for serial in [0, 1, 9, 10, 99, 100, 999, 1_000, 9_999] {
            hold_code(session, 100_000_000 + 10_000 * year + serial)?;
        }
    }
    Ok(())
}

/// Numbers of either form, and codes of any value.
fn drawn(session: &mut Session) -> Result<(), String> {
    let mut random = Random::for_test("drawn codes");
    for _ in 0..DRAWN {
        hold_code(session, numbers::any(&mut random).code())?;
        let bits = random.between(1, 32);
        hold_code(session, random.below(1 << bits) as u32)?;
        hold_code(session, random.between(99_990_000, 121_010_000) as u32)?;
    }
    Ok(())
}
