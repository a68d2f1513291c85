//! The tests of the calls that ask something of one statement, of lists and of texts alike: its
//! line of argument, and the class exercise.

mod crafted;
mod examples;
mod order;
mod rooms;
mod shapes;
mod small;
mod unknown;

use super::Test;
use crate::inputs::handed::Handed;
use crate::library::array::Room;
use crate::library::session::Session;
use crate::second::expected::Expected;

/// Every number of turns that may be asked, two more, and the greatest that can be handed over.
pub const TURNS: [u32; 10] = [0, 1, 2, 3, 4, 5, 6, 7, 8, u32::MAX];

pub fn tests() -> Vec<Test> {
    let suites = [
        examples::tests(),
        small::tests(),
        shapes::tests(),
        crafted::tests(),
        unknown::tests(),
        rooms::tests(),
        order::tests(),
    ];
    suites.into_iter().flatten().collect()
}

/// Holds the line of each of these statements, in a room of just its length.
pub fn hold_lines(
    session: &mut Session,
    handed: &Handed,
    expected: &Expected,
    statements: &[u32],
) -> Result<(), String> {
    for statement in statements {
        let fitting = Room::Of(expected.line(*statement).len());
        session.hold_line(handed, expected, *statement, fitting)?;
    }
    Ok(())
}

/// Holds the exercise on each of these statements with each number of turns.
pub fn hold_exercises(
    session: &mut Session,
    handed: &Handed,
    expected: &Expected,
    statements: &[u32],
    turns: &[u32],
) -> Result<(), String> {
    for statement in statements {
        for turns in turns {
            session.hold_exercise(handed, expected, *statement, *turns)?;
        }
    }
    Ok(())
}
