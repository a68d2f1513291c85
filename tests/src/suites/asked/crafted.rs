//! Registers that were made to be hard: the longest lines, lines that could go on by many objectors
//! at every step, and objections without end for the exercise, in several orders of statements and
//! pairs. A call that asks the same question again and again would not come to an end here.

use super::{hold_exercises, hold_lines, Test, TURNS};
use crate::inputs::crafted::{braid, chain, knot, staircase};
use crate::inputs::handed::Handed;
use crate::inputs::lists::Lists;
use crate::library::session::Session;
use crate::random::Random;
use crate::second::expected::Expected;
use crate::second::refusals::MOST_STATEMENTS;

/// The lengths that are asked for in a chain of 1,024: the least and the greatest, and those around
/// what is left of them in 8 bits.
const LENGTHS: [usize; 14] = [
    0, 1, 5, 6, 7, 255, 256, 257, 262, 511, 512, 768, 1_022, 1_023,
];

pub fn tests() -> Vec<Test> {
    vec![
        Test::new("the longest lines: chains of 1,024", longest_lines),
        Test::new("many objectors that fit a line", many_fit),
        Test::new("lengths around the turns", around_turns),
        Test::new("the exercise on small knots", small_knots),
        Test::new("the exercise on 92 statements, 4,051 pairs", large_knot),
        Test::new(
            "the exercise on 90 statements, 3,960 pairs",
            large_staircase,
        ),
    ]
}

/// Every line is the end of the longest, and so there is a statement for each of the lengths.
fn longest_lines(session: &mut Session) -> Result<(), String> {
    let mut random = Random::for_test("the longest lines");
    let mixed = chain(MOST_STATEMENTS).mixed(&mut random);
    for lists in [
        chain(MOST_STATEMENTS).in_draft_order(),
        chain(MOST_STATEMENTS).reversed(),
        mixed,
    ] {
        for handed in Handed::both(&mut random, &lists) {
            let expected = Expected::of(&handed);
            let longest = longest_line(&expected, MOST_STATEMENTS)?;
            let asked = LENGTHS.map(|length| longest[MOST_STATEMENTS - 1 - length]);
            hold_lines(session, &handed, &expected, &asked)?;
            hold_exercises(session, &handed, &expected, &asked, &[5, 6])?;
        }
    }
    Ok(())
}

/// The longest line of the register, which must have so many entries.
fn longest_line(expected: &Expected, entries: usize) -> Result<Vec<u32>, String> {
    let lines = expected.register.numbers.iter().map(|x| expected.line(*x));
    match lines.max_by_key(Vec::len) {
        Some(line) if line.len() == entries => Ok(line),
        _ => Err(format!("no line has {entries} entries")),
    }
}

fn many_fit(session: &mut Session) -> Result<(), String> {
    let mut random = Random::for_test("many objectors that fit");
    for (width, layers) in [(2, 2), (2, 9), (3, 6), (5, 4), (3, 40), (8, 8), (25, 3)] {
        for _ in 0..4 {
            let mixed = braid(&mut random, width, layers).mixed(&mut random);
            for lists in [braid(&mut random, width, layers).reversed(), mixed] {
                hold_braid(session, &mut random, &lists, layers)?;
            }
        }
    }
    Ok(())
}

/// Asks of the first and the last statement, and of those on the longest line.
fn hold_braid(
    session: &mut Session,
    random: &mut Random,
    lists: &Lists,
    layers: usize,
) -> Result<(), String> {
    for handed in Handed::both(random, lists) {
        let expected = Expected::of(&handed);
        let longest = longest_line(&expected, layers)?;
        let ends = [longest[0], longest[layers - 1]];
        let numbers = &expected.register.numbers;
        let asked = [numbers[0], numbers[numbers.len() - 1]];
        hold_lines(session, &handed, &expected, &longest)?;
        hold_lines(session, &handed, &expected, &asked)?;
        hold_exercises(session, &handed, &expected, &ends, &[3, 6])?;
        hold_exercises(session, &handed, &expected, &asked, &[2, 5])?;
    }
    Ok(())
}

/// Statements of every length from 0 to 9, each with every number of turns.
fn around_turns(session: &mut Session) -> Result<(), String> {
    let mut random = Random::for_test("lengths around the turns");
    for width in [1, 2, 4] {
        for _ in 0..4 {
            let lists = braid(&mut random, width, 10).mixed(&mut random);
            for handed in Handed::both(&mut random, &lists) {
                let expected = Expected::of(&handed);
                let numbers = &expected.register.numbers;
                hold_exercises(session, &handed, &expected, numbers, &TURNS)?;
            }
        }
    }
    Ok(())
}

fn small_knots(session: &mut Session) -> Result<(), String> {
    let mut random = Random::for_test("small knots");
    for width in 1..=7 {
        for lists in [
            knot(width).in_draft_order(),
            knot(width).reversed(),
            knot(width).mixed(&mut random),
            staircase(2 * width).reversed(),
            staircase(2 * width + 1).mixed(&mut random),
        ] {
            for handed in Handed::both(&mut random, &lists) {
                let expected = Expected::of(&handed);
                let numbers = &expected.register.numbers;
                hold_lines(session, &handed, &expected, numbers)?;
                hold_exercises(session, &handed, &expected, numbers, &TURNS)?;
            }
        }
    }
    Ok(())
}

fn large_knot(session: &mut Session) -> Result<(), String> {
    let mut random = Random::for_test("a large knot");
    let mixed = knot(45).mixed(&mut random);
    let orders = [knot(45).in_draft_order(), knot(45).reversed(), mixed];
    hold_large(session, &mut random, &orders)
}

fn large_staircase(session: &mut Session) -> Result<(), String> {
    let mut random = Random::for_test("a large staircase");
    let mixed = staircase(90).mixed(&mut random);
    let orders = [
        staircase(90).in_draft_order(),
        staircase(90).reversed(),
        mixed,
    ];
    hold_large(session, &mut random, &orders)
}

/// Asks of the first statement, the middle one and the last, with the most turns and some others.
fn hold_large(session: &mut Session, random: &mut Random, orders: &[Lists]) -> Result<(), String> {
    for lists in orders {
        for handed in Handed::both(random, lists) {
            let expected = Expected::of(&handed);
            let numbers = &expected.register.numbers;
            let asked = [0, numbers.len() / 2, numbers.len() - 1].map(|at| numbers[at]);
            hold_lines(session, &handed, &expected, &asked)?;
            hold_exercises(session, &handed, &expected, &asked, &[1, 5, 6])?;
        }
    }
    Ok(())
}
