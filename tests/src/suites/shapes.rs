//! Random registers of every shape: many small ones, fewer middling ones, and some with as many
//! statements or pairs as there may be.

use super::Test;
use crate::inputs::shapes::{Shape, SHAPES};
use crate::library::session::Session;
use crate::random::Random;
use crate::second::refusals::{MOST_OBJECTIONS, MOST_STATEMENTS};

/// How many registers there are of each size, and the largest of that size: statements and pairs.
const SIZES: [(usize, usize, usize); 3] = [(150, 12, 40), (40, 120, 400), (8, 600, 1_600)];
/// How many there are at the limits.
const AT_LIMITS: usize = 3;

pub fn tests() -> Vec<Test> {
    let test = |shape: &'static Shape| {
        let name = format!("random registers: {}", shape.name);
        Test::new(name, move |session| hold(session, shape))
    };
    SHAPES.iter().map(test).collect()
}

fn hold(session: &mut Session, shape: &Shape) -> Result<(), String> {
    let mut random = Random::for_test(shape.name);
    for (count, most_statements, most_pairs) in SIZES {
        for _ in 0..count {
            let statements = random.between(1, most_statements);
            session.hold_lists(&shape.register(&mut random, statements, most_pairs))?;
        }
    }
    for _ in 0..AT_LIMITS {
        let lists = shape.register(&mut random, MOST_STATEMENTS, MOST_OBJECTIONS);
        session.hold_lists(&lists)?;
    }
    Ok(())
}
