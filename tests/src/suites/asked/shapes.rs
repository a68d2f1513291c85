//! Statements of random registers of every shape, as lists and as texts: all statements of small
//! registers, and a few of larger ones up to the limits, where a call takes long.

use super::{hold_exercises, hold_lines, Test, TURNS};
use crate::inputs::handed::Handed;
use crate::inputs::shapes::{Shape, SHAPES};
use crate::library::call::of_longest;
use crate::library::session::Session;
use crate::random::Random;
use crate::second::expected::{Expected, Question};
use crate::second::refusals::{MOST_OBJECTIONS, MOST_STATEMENTS};

/// How many registers there are, of how many statements and pairs at the most, and how many
/// statements of each are asked for how many numbers of turns.
struct Size {
    registers: usize,
    statements: usize,
    pairs: usize,
    asked: usize,
    turns: usize,
}

const SIZES: [Size; 4] = [
    size(40, (12, 40), 12, 5),
    size(8, (120, 400), 4, 5),
    size(1, (600, 1_600), 4, 4),
    size(1, (MOST_STATEMENTS, MOST_OBJECTIONS), 2, 2),
];

const fn size(
    registers: usize,
    (statements, pairs): (usize, usize),
    asked: usize,
    turns: usize,
) -> Size {
    Size {
        registers,
        statements,
        pairs,
        asked,
        turns,
    }
}

pub fn tests() -> Vec<Test> {
    let test = |shape: &'static Shape| {
        let name = format!("line and exercise, random registers: {}", shape.name);
        Test::new(name, move |session| hold(session, shape))
    };
    SHAPES.iter().map(test).collect()
}

fn hold(session: &mut Session, shape: &Shape) -> Result<(), String> {
    let mut random = Random::for_test(&format!("asked of {}", shape.name));
    for size in &SIZES {
        for _ in 0..size.registers {
            let lists = shape.up_to(&mut random, size.statements, size.pairs);
            for handed in Handed::both(&mut random, &lists) {
                hold_some(session, &mut random, &handed, size)?;
            }
        }
    }
    Ok(())
}

/// Asks of the statement with the greatest length, and of others at random; and so many turns as
/// suffice for it, and others at random.
fn hold_some(
    session: &mut Session,
    random: &mut Random,
    handed: &Handed,
    size: &Size,
) -> Result<(), String> {
    let expected = Expected::of(handed);
    let [_, longest] = of_longest(&expected);
    let (statement, enough) = Question::Of(longest).numbers();
    let statements = first_of(random, &expected.register.numbers, statement, size.asked);
    let turns = first_of(random, &TURNS, enough, size.turns);
    hold_lines(session, handed, &expected, &statements)?;
    hold_exercises(session, handed, &expected, &statements, &turns)
}

/// So many of these, in a random order but for the one that comes first, or all.
fn first_of(random: &mut Random, all: &[u32], first: u32, count: usize) -> Vec<u32> {
    let mut some = all.to_vec();
    random.shuffle(&mut some);
    some.sort_by_key(|one| *one != first);
    some.truncate(count);
    some
}
