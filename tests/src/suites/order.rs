//! Lists with several faults at once. Every set of faults is tried, in every arrangement of which
//! comes early and which late, and the first in 01's order must win whatever the places.

use super::Test;
use crate::inputs::lists::Lists;
use crate::inputs::rooms;
use crate::library::array::Room;
use crate::library::call::{ListCall, LIST_CALLS};
use crate::library::session::Session;
use crate::second::expected::Expected;

/// The refusals of lists in 01's order. A set of faults has bit i for the one that ORDER[i] is.
pub const ORDER: [u32; 7] = [11, 6, 9, 12, 13, 8, 10];
const SETS: usize = 1 << ORDER.len();

/// The statements and pairs where their number is no fault, and where it is.
const STATEMENTS: [usize; 2] = [70, 1_025];
const PAIRS: [usize; 2] = [40, 4_097];

/// Which of the faults that have a place come late in the lists, and which list or room is the
/// shorter one: a bit for each.
#[derive(Clone, Copy)]
pub struct Arrangement(pub usize);

impl Arrangement {
    pub const COUNT: usize = 32;

    fn says(self, bit: usize) -> bool {
        self.0 >> bit & 1 == 1
    }

    /// An entry near the start of a list, or one near its end.
    fn entry(self, bit: usize, early: usize, length: usize) -> usize {
        if self.says(bit) {
            length - 1 - early
        } else {
            early
        }
    }
}

pub fn tests() -> Vec<Test> {
    let test = |call: &'static ListCall| {
        let name = format!("every set of faults: {}", call.name);
        Test::new(name, move |session| hold_sets(session, call))
    };
    LIST_CALLS.iter().map(test).collect()
}

fn hold_sets(session: &mut Session, call: &ListCall) -> Result<(), String> {
    for set in 0..SETS {
        for arrangement in (0..Arrangement::COUNT).map(Arrangement) {
            let lists = faulty(set, arrangement);
            let expected = Expected::of_lists(&lists);
            let fitting = call.fitting(&lists, &expected);
            let rooms = rooms_for(set, arrangement, fitting);
            let answer = expected.answer(call.question, &rooms::lengths(&rooms));
            let answered = answer.refusal;
            if answered != first_in_order(set) {
                return Err(format!(
                    "{lists}: the second solver has {answered}, the set {set:07b}"
                ));
            }
            session.hold_list_call(call, &lists, &expected, &rooms)?;
        }
    }
    Ok(())
}

fn has(set: usize, number: u32) -> bool {
    (0..ORDER.len()).any(|at| ORDER[at] == number && set >> at & 1 == 1)
}

/// The refusal that wins, or 0 where the set is empty.
pub fn first_in_order(set: usize) -> u32 {
    let mut order = ORDER.into_iter();
    order.find(|number| has(set, *number)).unwrap_or(0)
}

/// Lists with just these faults.
pub fn faulty(set: usize, arrangement: Arrangement) -> Lists {
    let statements = STATEMENTS[usize::from(has(set, 6))];
    let length = PAIRS[usize::from(has(set, 9))];
    let pair = |entry: usize| ((entry % 70) as u32, (entry / 70) as u32);
    let pairs: Vec<(u32, u32)> = (0..length).map(pair).collect();
    let mut lists = Lists::new(vec![0; statements], &pairs);
    if has(set, 12) {
        let at = arrangement.entry(0, 4, statements);
        lists.marks[at] = 2;
    }
    if has(set, 8) {
        // the pair of the entry before comes again
        let again = arrangement.entry(1, 6, length);
        lists.set_pair(again, pairs[again - 1]);
    }
    if has(set, 13) {
        let at = arrangement.entry(2, 10, length);
        lists.targets[at] = statements as u32;
    }
    if has(set, 11) && arrangement.says(3) {
        lists.objectors.pop();
    } else if has(set, 11) {
        lists.targets.pop();
    }
    lists
}

/// These rooms, which fit, or of which one is made too short.
fn rooms_for(set: usize, arrangement: Arrangement, mut rooms: Vec<Room>) -> Vec<Room> {
    if has(set, 10) {
        let at = usize::from(arrangement.says(4)) % rooms.len();
        rooms[at] = Room::Of(rooms[at].length() - 1);
    }
    rooms
}
