//! The answer to one call: its two numbers, and what stands at the start of each room. What is
//! refused and what is written is for others to say.

use super::refusals::Refusal;

pub struct Answer {
    pub refusal: u32,
    pub value: u32,
    pub rooms: Vec<Vec<u32>>,
}

/// Bytes as a room has them.
pub fn bytes_of(bytes: &[u8]) -> Vec<u32> {
    bytes.iter().copied().map(u32::from).collect()
}

/// Whether any of the rooms, which have these lengths, is shorter than what it is to get.
pub fn is_short(rooms: &[Vec<u32>], lengths: &[usize]) -> bool {
    let mut rooms = rooms.iter().zip(lengths);
    rooms.any(|(room, length)| *length < room.len())
}

impl Answer {
    /// The first of these refusals, or this value and these entries where there is none.
    pub fn first_of(refusals: &[Option<Refusal>], value: u32, rooms: Vec<Vec<u32>>) -> Self {
        match refusals.iter().flatten().next() {
            None => Answer {
                refusal: 0,
                value,
                rooms,
            },
            Some(Refusal { number, place }) => Answer {
                refusal: *number,
                value: *place,
                rooms: vec![Vec::new(); rooms.len()],
            },
        }
    }
}
