//! The lengths of the rooms that a call is lent, around the lengths of its answer.

use crate::library::array::Room;

/// Rooms just as long as an answer of these lengths.
pub fn fitting(lengths: &[usize]) -> Vec<Room> {
    lengths.iter().copied().map(Room::Of).collect()
}

pub fn lengths(rooms: &[Room]) -> Vec<usize> {
    rooms.iter().map(|room| room.length()).collect()
}

/// Another room for an answer of this length; None where there is none.
type Other = fn(usize) -> Option<Room>;

/// Empty rooms with and without a pointer, rooms that are larger, and one that is an entry short.
const OTHERS: [Other; 5] = [
    |_| Some(Room::Null),
    |_| Some(Room::Of(0)),
    |length| Some(Room::Of(length + 1)),
    |length| Some(Room::Of(length + 9)),
    |length| length.checked_sub(1).map(Room::Of),
];

/// Rooms that fit, and others. Of two rooms, each differs while the other fits, and then both.
pub fn around(lengths: &[usize]) -> Vec<Vec<Room>> {
    let mut sets = vec![fitting(lengths)];
    for other in OTHERS {
        for (at, length) in lengths.iter().enumerate() {
            let Some(room) = other(*length) else {
                continue;
            };
            let mut set = fitting(lengths);
            set[at] = room;
            sets.push(set);
        }
        if lengths.len() > 1 {
            let all: Option<Vec<Room>> = lengths.iter().copied().map(other).collect();
            sets.extend(all);
        }
    }
    sets
}

/// So many rooms, each of which takes every one of these, whatever the others have.
pub fn combined(each: &[Room], rooms: usize) -> Vec<Vec<Room>> {
    let add = |sets: Vec<Vec<Room>>, _| {
        let longer = |set: &Vec<Room>| -> Vec<Vec<Room>> {
            let with = |room: &Room| [&set[..], &[*room]].concat();
            each.iter().map(with).collect()
        };
        sets.iter().flat_map(longer).collect()
    };
    (0..rooms).fold(vec![Vec::new()], add)
}
