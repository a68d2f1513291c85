//! The refusals of lists, as the rows of 01's table: each says by itself where its fault comes
//! first, whatever else is wrong, and the first row in 01's order that has a fault is the refusal.

use crate::inputs::lists::Lists;
use std::collections::HashSet;

pub const MOST_STATEMENTS: usize = 1_024;
pub const MOST_OBJECTIONS: usize = 4_096;

/// The refusal of what is no number, of a number by itself. It has no place.
pub const NO_NUMBER: Refusal = placeless(3);

/// The refusals of what is asked, in 01's order: a statement that is not on the register, more than
/// 6 turns, an old sheet that is not one of so many statements, and a room that is shorter than the
/// answer. They have no place.
pub const UNKNOWN_STATEMENT: Refusal = placeless(14);
pub const TOO_MANY_TURNS: Refusal = placeless(15);
pub const UNSOUND_SHEET: Refusal = placeless(16);
pub const SHORT_ROOM: Refusal = placeless(10);

pub const fn placeless(number: u32) -> Refusal {
    Refusal { number, place: 0 }
}

#[derive(Clone, Copy, Debug, PartialEq, Eq)]
pub struct Refusal {
    pub number: u32,
    pub place: u32,
}

/// The refusal that lists get whatever the rooms, if any.
pub fn of_lists(lists: &Lists) -> Option<Refusal> {
    let whole = |fault: bool| fault.then_some(0);
    let rows = [
        (11, whole(lists.objectors.len() != lists.targets.len())),
        (6, whole(lists.marks.len() > MOST_STATEMENTS)),
        (9, whole(lists.objectors.len() > MOST_OBJECTIONS)),
        (12, lists.marks.iter().position(|mark| *mark > 1)),
        (13, first_outside(lists)),
        (8, first_repeat(lists)),
    ];
    let refusal = |(number, place): (u32, Option<usize>)| {
        place.map(|entry| Refusal {
            number,
            place: entry as u32,
        })
    };
    rows.into_iter().find_map(refusal)
}

fn first_outside(lists: &Lists) -> Option<usize> {
    let outside = |place: u32| place as usize >= lists.marks.len();
    lists
        .pairs()
        .position(|(objector, target)| outside(objector) || outside(target))
}

fn first_repeat(lists: &Lists) -> Option<usize> {
    let mut seen = HashSet::new();
    lists.pairs().position(|pair| !seen.insert(pair))
}
