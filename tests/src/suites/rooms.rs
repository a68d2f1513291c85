//! Rooms of every length around the right one, for registers small and large: refusal 10 exactly if
//! a room is shorter than the answer, and no entry written that is not the answer's.

use super::Test;
use crate::inputs::draft::Draft;
use crate::inputs::lists::Lists;
use crate::inputs::rooms;
use crate::library::array::Room;
use crate::library::call::{ListCall, LIST_CALLS};
use crate::library::session::Session;
use crate::random::Random;
use crate::second::expected::Expected;
use crate::second::refusals::{MOST_OBJECTIONS, MOST_STATEMENTS};

pub fn tests() -> Vec<Test> {
    let mut tests = Vec::new();
    for call in &LIST_CALLS {
        let name = format!("rooms of every length, small registers: {}", call.name);
        tests.push(Test::new(name, move |session| small(session, call)));
        let name = format!("rooms of many lengths, at the limits: {}", call.name);
        tests.push(Test::new(name, move |session| at_limits(session, call)));
    }
    tests
}

fn small(session: &mut Session, call: &ListCall) -> Result<(), String> {
    let mut random = Random::for_test("rooms of small registers");
    for statements in 1..=8 {
        for pairs in [0, 1, statements / 2 + 1, statements + 1] {
            let lists = register(&mut random, statements, pairs);
            let expected = Expected::of_lists(&lists);
            let most = call.answer_length(&lists, &expected) + 3;
            let mut lengths: Vec<Room> = (0..=most).map(Room::Of).collect();
            lengths.push(Room::Null);
            hold_each(session, call, &lists, &lengths)?;
        }
    }
    hold_each(session, call, &Lists::default(), &[Room::Null, Room::Of(3)])
}

fn at_limits(session: &mut Session, call: &ListCall) -> Result<(), String> {
    let mut random = Random::for_test("rooms at the limits");
    let sizes = [
        (MOST_STATEMENTS, 300),
        (100, MOST_OBJECTIONS),
        (MOST_STATEMENTS, MOST_OBJECTIONS),
    ];
    for (statements, pairs) in sizes {
        let lists = register(&mut random, statements, pairs);
        let expected = Expected::of_lists(&lists);
        let right = call.answer_length(&lists, &expected);
        // 65,536 would be an empty room if it were cut down to 16 bits
        let lengths = [0, 1, right - 1, right, right + 1, 65_535, 65_536];
        let few = [right - 1, right, 65_536];
        let lengths = if call.rooms() > 1 {
            &few[..]
        } else {
            &lengths[..]
        };
        let rooms: Vec<Room> = lengths.iter().copied().map(Room::Of).collect();
        hold_each(session, call, &lists, &rooms)?;
    }
    Ok(())
}

fn register(random: &mut Random, statements: usize, pairs: usize) -> Lists {
    let mut draft = Draft::new(statements, pairs);
    draft.leave_unread(random, 7);
    draft.add_random(random, pairs);
    draft.mixed(random)
}

/// Every room takes every one of the lengths, whatever the other has.
fn hold_each(
    session: &mut Session,
    call: &ListCall,
    lists: &Lists,
    lengths: &[Room],
) -> Result<(), String> {
    let expected = Expected::of_lists(lists);
    for rooms in rooms::combined(lengths, call.rooms()) {
        session.hold_list_call(call, lists, &expected, &rooms)?;
    }
    Ok(())
}
