//! Registers come back byte for byte, with an empty report: every one of up to three statements, and
//! random ones of every shape, up to the limits.

use super::{hold_fates, Test};
use crate::inputs::lists::Lists;
use crate::inputs::shapes::{Shape, SHAPES};
use crate::inputs::text::Text;
use crate::inputs::{numbers, small};
use crate::library::session::Session;
use crate::random::Random;
use crate::second::refusals::{MOST_OBJECTIONS, MOST_STATEMENTS};

/// How many registers there are of each size, and the largest of that size: statements and pairs.
const SIZES: [(usize, usize, usize); 4] = [
    (100, 12, 40),
    (20, 120, 400),
    (3, 600, 1_600),
    (1, MOST_STATEMENTS, MOST_OBJECTIONS),
];

pub fn tests() -> Vec<Test> {
    let every = Test::new("mending every register up to 3 statements", hold_small);
    let shape = |shape: &'static Shape| {
        let name = format!("mending random registers: {}", shape.name);
        Test::new(name, move |session| hold_shape(session, shape))
    };
    let shapes = SHAPES.iter().map(shape);
    std::iter::once(every).chain(shapes).collect()
}

fn hold_small(session: &mut Session) -> Result<(), String> {
    let mut random = Random::for_test("mending small registers");
    for statements in 0..=3 {
        for register in 0..small::count(statements) {
            let lists = small::register(statements, register).reordered(&mut random);
            hold_unchanged(session, &mut random, &lists)?;
        }
    }
    Ok(())
}

fn hold_shape(session: &mut Session, shape: &Shape) -> Result<(), String> {
    let mut random = Random::for_test(&format!("mending registers of {}", shape.name));
    for (count, most_statements, most_pairs) in SIZES {
        for _ in 0..count {
            let lists = shape.up_to(&mut random, most_statements, most_pairs);
            hold_unchanged(session, &mut random, &lists)?;
        }
    }
    Ok(())
}

fn hold_unchanged(session: &mut Session, random: &mut Random, lists: &Lists) -> Result<(), String> {
    let text = Text::written(lists, &numbers::fitting(random, lists));
    let mending = hold_fates(session, &text, &[])?;
    session.count();
    if mending.text.0 != text.0 || !mending.report.is_empty() {
        return Err(format!("{text}: the second solver mends a register"));
    }
    Ok(())
}
