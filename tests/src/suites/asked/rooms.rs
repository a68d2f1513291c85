//! Rooms of every length around that of a line of argument: refusal 10 exactly if the room is
//! shorter than the line, and no entry written that is not the line's.

use super::Test;
use crate::inputs::crafted::{braid, chain};
use crate::inputs::handed::Handed;
use crate::inputs::lists::Lists;
use crate::library::array::Room;
use crate::library::session::Session;
use crate::random::Random;
use crate::second::expected::Expected;
use crate::second::refusals::MOST_STATEMENTS;

pub fn tests() -> Vec<Test> {
    vec![
        Test::new("rooms of every length: line", small),
        Test::new("rooms of many lengths: the longest line", at_limits),
    ]
}

fn small(session: &mut Session) -> Result<(), String> {
    let mut random = Random::for_test("rooms of lines");
    for layers in 1..=9 {
        for width in 1..=3 {
            let lists = braid(&mut random, width, layers).mixed(&mut random);
            for handed in Handed::both(&mut random, &lists) {
                let expected = Expected::of(&handed);
                for statement in &expected.register.numbers {
                    hold_up_to(session, &handed, &expected, *statement)?;
                }
            }
        }
    }
    Ok(())
}

/// Holds the line of this statement with no room, and with every length up to a few more than its.
fn hold_up_to(
    session: &mut Session,
    handed: &Handed,
    expected: &Expected,
    statement: u32,
) -> Result<(), String> {
    session.hold_line(handed, expected, statement, Room::Null)?;
    for length in 0..=expected.line(statement).len() + 3 {
        session.hold_line(handed, expected, statement, Room::Of(length))?;
    }
    Ok(())
}

fn at_limits(session: &mut Session) -> Result<(), String> {
    let mut random = Random::for_test("rooms of the longest line");
    let lists: Lists = chain(MOST_STATEMENTS).in_draft_order();
    for handed in Handed::both(&mut random, &lists) {
        let expected = Expected::of(&handed);
        let numbers = &expected.register.numbers;
        for (statement, right) in [(numbers[0], MOST_STATEMENTS), (numbers[1_000], 24)] {
            // 65,536 would be an empty room if it were cut down to 16 bits
            for length in [0, 1, right - 1, right, right + 1, 1_500, 65_535, 65_536] {
                session.hold_line(&handed, &expected, statement, Room::Of(length))?;
            }
        }
    }
    Ok(())
}
