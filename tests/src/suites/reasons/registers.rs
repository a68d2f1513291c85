//! The reasons for the statements of many registers: of every one of up to three statements, with
//! rooms of many lengths, and of random ones of every shape, up to the limits. The numbers and the
//! order of the objections are random.

use super::{hold_reasons, Test};
use crate::inputs::shapes::{Shape, SHAPES};
use crate::inputs::text::Text;
use crate::inputs::{numbers, rooms, small};
use crate::library::session::Session;
use crate::random::Random;
use crate::second::expected::Expected;
use crate::second::refusals::{MOST_OBJECTIONS, MOST_STATEMENTS};

/// How many rooms each statement of a small register gets, beside the one that fits.
const ROOMS: usize = 2;

/// How many registers there are, of how many statements and pairs at the most, and of how many
/// statements of each the reason is asked.
const SIZES: [(usize, (usize, usize), usize); 4] = [
    (60, (12, 40), 12),
    (10, (120, 400), 120),
    (2, (600, 1_600), 60),
    (1, (MOST_STATEMENTS, MOST_OBJECTIONS), 12),
];

pub fn tests() -> Vec<Test> {
    let every = Test::new("every register up to 3 statements: reason", hold_small);
    let shape = |shape: &'static Shape| {
        let name = format!("reasons, random registers: {}", shape.name);
        Test::new(name, move |session| hold_shape(session, shape))
    };
    let shapes = SHAPES.iter().map(shape);
    std::iter::once(every).chain(shapes).collect()
}

fn hold_small(session: &mut Session) -> Result<(), String> {
    let mut random = Random::for_test("reasons of small registers");
    for statements in 1..=3 {
        for register in 0..small::count(statements) {
            let lists = small::register(statements, register).reordered(&mut random);
            let numbers = numbers::fitting(&mut random, &lists);
            let text = Text::written(&lists, &numbers);
            let expected = Expected::of_text(&text);
            hold_reasons(session, &text, &expected, &expected.register.numbers)?;
            hold_rooms(session, &mut random, &text, &expected)?;
        }
    }
    Ok(())
}

/// Holds the reason for every statement with some rooms that are too short or too long.
fn hold_rooms(
    session: &mut Session,
    random: &mut Random,
    text: &Text,
    expected: &Expected,
) -> Result<(), String> {
    for statement in &expected.register.numbers {
        let mut rooms = rooms::around(&[expected.reason(*statement).len()]).concat();
        random.shuffle(&mut rooms);
        for room in &rooms[..ROOMS] {
            session.hold_reason(text, expected, *statement, *room)?;
        }
    }
    Ok(())
}

fn hold_shape(session: &mut Session, shape: &Shape) -> Result<(), String> {
    let mut random = Random::for_test(&format!("reasons of {}", shape.name));
    for (count, (most_statements, pairs), asked) in SIZES {
        for _ in 0..count {
            let lists = shape.up_to(&mut random, most_statements, pairs);
            let numbers = numbers::fitting(&mut random, &lists);
            let text = Text::written(&lists, &numbers);
            let expected = Expected::of_text(&text);
            let mut statements = expected.register.numbers.clone();
            random.shuffle(&mut statements);
            statements.truncate(asked);
            hold_reasons(session, &text, &expected, &statements)?;
        }
    }
    Ok(())
}
