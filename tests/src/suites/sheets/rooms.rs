//! Rooms of every length for a sheet that is made afresh: refusal 10 exactly if the one is shorter than
//! the sheet or the other than three totals, and nothing written that is not the answer's.

use super::{at_sizes, Case, Test};
use crate::library::array::Room;
use crate::library::session::Session;
use crate::random::Random;

/// Rooms for the totals: none, those that are too short, the one that fits, and longer ones.
const OF_TOTALS: [Room; 8] = [
    Room::Null,
    Room::Of(0),
    Room::Of(1),
    Room::Of(2),
    Room::Of(3),
    Room::Of(4),
    Room::Of(5),
    Room::Of(65_536),
];

/// Rooms that have space for every sheet. One cut down to 16 bits would be short, or empty.
const LARGE: [Room; 4] = [
    Room::Of(256),
    Room::Of(257),
    Room::Of(65_536),
    Room::Of(65_537),
];

pub fn tests() -> Vec<Test> {
    vec![
        at_sizes("rooms around the size of a sheet", around_size),
        at_sizes("every room that is too short for a sheet", every_short_room),
    ]
}

fn around_size(session: &mut Session, _: &mut Random, case: &Case) -> Result<(), String> {
    let right = case.expected.sheet().bytes.len();
    let near = (right.saturating_sub(3)..right + 4).map(Room::Of);
    for sheet in near.chain(LARGE).chain([Room::Null]) {
        for totals in OF_TOTALS {
            case.hold_rooms(session, &[sheet, totals])?;
        }
    }
    Ok(())
}

fn every_short_room(session: &mut Session, _: &mut Random, case: &Case) -> Result<(), String> {
    for length in 0..case.expected.sheet().bytes.len() {
        case.hold_rooms(session, &[Room::Of(length), Room::Of(3)])?;
    }
    Ok(())
}
