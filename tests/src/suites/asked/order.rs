//! Faults of what is asked beside faults of the register: the register is refused first, then comes
//! 14, then 15, then 10, whatever else is wrong. What is refused is told from how it was made.

use super::Test;
use crate::inputs::handed::Handed;
use crate::inputs::rooms;
use crate::inputs::text::Text;
use crate::library::array::Room;
use crate::library::session::Session;
use crate::random::Random;
use crate::second::expected::{Asked, Expected, Question};
use crate::second::text::{self, Line};
use crate::suites::order::{faulty, first_in_order, Arrangement, ORDER};
use crate::suites::texts::order::{faulty as faulty_lines, whole};

/// A statement that is on no register.
const UNKNOWN: u32 = u32::MAX;

pub fn tests() -> Vec<Test> {
    vec![
        Test::new("refusals of lists and of what is asked", of_lists),
        Test::new("refusals of texts and of what is asked", of_texts),
    ]
}

/// Every set of the faults that lists have by themselves; 10, the last in the order, is not one.
fn of_lists(session: &mut Session) -> Result<(), String> {
    for set in 0..1 << (ORDER.len() - 1) {
        for arrangement in [0, Arrangement::COUNT / 2, Arrangement::COUNT - 1] {
            let lists = Handed::Lists(faulty(set, Arrangement(arrangement)));
            hold_faults(session, &lists, first_in_order(set), 0)?;
        }
    }
    Ok(())
}

/// No fault, and each that a text has by itself, at several lines.
fn of_texts(session: &mut Session) -> Result<(), String> {
    let mut random = Random::for_test("refusals of texts and of what is asked");
    for refusal in 0..=9 {
        let set = (1 << refusal) >> 1;
        for _ in 0..3 {
            let text = whole(set, &faulty_lines(&mut random, set));
            let known = first_number(&text);
            hold_reasons(session, &text, refusal, known)?;
            hold_faults(session, &Handed::Text(text), refusal, known)?;
        }
    }
    Ok(())
}

fn first_number(text: &Text) -> u32 {
    let number = |line| match line {
        Some(Line::Statement { number, .. }) => Some(number.code()),
        _ => None,
    };
    let mut numbers = text::lines(&text.0).into_iter().filter_map(number);
    numbers.next().expect("a statement line")
}

/// Asks of a statement that is there and of one that is not, with turns and rooms that are enough
/// and that are not. The register itself has this refusal, or 0.
fn hold_faults(
    session: &mut Session,
    handed: &Handed,
    refusal: u32,
    known: u32,
) -> Result<(), String> {
    let expected = Expected::of(handed);
    for (statement, unknown) in [(known, 0), (UNKNOWN, 14)] {
        for (turns, too_many) in [(6, 0), (7, 15), (u32::MAX, 15)] {
            let asked = Question::Of(Asked::Exercise { statement, turns });
            refused_as(&expected, asked, &[], [refusal, unknown, too_many])?;
            session.hold_exercise(handed, &expected, statement, turns)?;
        }
        for (room, short) in [(Room::Of(1_024), 0), (Room::Of(0), 10), (Room::Null, 10)] {
            let asked = Question::Of(Asked::Line { statement });
            refused_as(&expected, asked, &[room], [refusal, unknown, short])?;
            session.hold_line(handed, &expected, statement, room)?;
        }
    }
    Ok(())
}

/// The same for the reason, which is asked of texts only.
fn hold_reasons(
    session: &mut Session,
    text: &Text,
    refusal: u32,
    known: u32,
) -> Result<(), String> {
    let expected = Expected::of_text(text);
    let nobodys = [0, 100_000_000, 119_870_000, UNKNOWN].map(|code| (code, 14));
    for (statement, unknown) in [(known, 0)].into_iter().chain(nobodys) {
        for (room, short) in [(Room::Of(131_072), 0), (Room::Of(3), 10), (Room::Null, 10)] {
            let asked = Question::Reason { statement };
            refused_as(&expected, asked, &[room], [refusal, unknown, short])?;
            session.hold_reason(text, &expected, statement, room)?;
        }
    }
    Ok(())
}

/// The second solver must have come to the first of these refusals that is not 0, or to 0.
fn refused_as(
    expected: &Expected,
    asked: Question,
    rooms: &[Room],
    refusals: [u32; 3],
) -> Result<(), String> {
    let answered = expected.answer(asked, &rooms::lengths(rooms)).refusal;
    let first = refusals.into_iter().find(|refusal| *refusal > 0);
    if answered == first.unwrap_or(0) {
        return Ok(());
    }
    Err(format!(
        "{asked:?}: the second solver has {answered}, the first of {refusals:?} is right"
    ))
}
