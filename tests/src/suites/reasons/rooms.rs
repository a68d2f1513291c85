//! Rooms of every length around that of a reason: refusal 10 exactly if the room is shorter than
//! the reason, and no byte written that is not the reason's.

use super::Test;
use crate::inputs::crafted::{chain, ladder};
use crate::inputs::numbers;
use crate::inputs::page::Page;
use crate::inputs::text::Text;
use crate::library::array::Room;
use crate::library::session::Session;
use crate::random::Random;
use crate::second::expected::Expected;
use crate::second::refusals::MOST_STATEMENTS;

pub fn tests() -> Vec<Test> {
    vec![
        Test::new("rooms of every length: reason", small),
        Test::new("rooms of many lengths: the largest reasons", at_limits),
    ]
}

fn small(session: &mut Session) -> Result<(), String> {
    let mut random = Random::for_test("rooms of reasons");
    for statements in 1..=6 {
        for objections in [0, 1, statements, 2 * statements] {
            let text = Page::random(&mut random, statements, objections).text();
            let expected = Expected::of_text(&text);
            for statement in &expected.register.numbers {
                let right = expected.reason(*statement).len();
                session.hold_reason(&text, &expected, *statement, Room::Null)?;
                for length in 0..=right + 3 {
                    session.hold_reason(&text, &expected, *statement, Room::Of(length))?;
                }
            }
        }
    }
    Ok(())
}

/// One reason has fewer than 65,536 bytes, and the other has more.
fn at_limits(session: &mut Session) -> Result<(), String> {
    let mut random = Random::for_test("rooms of the largest reasons");
    let drafts = [chain(MOST_STATEMENTS), ladder(MOST_STATEMENTS, 1)];
    for (draft, is_long) in drafts.into_iter().zip([false, true]) {
        let lists = draft.in_draft_order();
        let text = Text::written(&lists, &numbers::fitting(&mut random, &lists));
        let expected = Expected::of_text(&text);
        let statement = expected.register.numbers[0];
        let right = expected.reason(statement).len();
        if (right > 65_536) != is_long {
            return Err(format!("{text}: a reason of {right} bytes"));
        }
        // 65,536 would be an empty room if it were cut down to 16 bits
        for length in [0, 1, right - 1, right, right + 1, 65_535, 65_536, 131_072] {
            session.hold_reason(&text, &expected, statement, Room::Of(length))?;
        }
    }
    Ok(())
}
