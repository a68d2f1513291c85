//! The sheets of many registers. Those of up to three statements are updated from every sound sheet
//! there is; random ones of every shape, up to the limits, from old sheets of several origins. Afresh
//! and updated, a sheet is held against the same bytes, so the one equals the other.

use super::{Case, Test};
use crate::inputs::shapes::{Shape, SHAPES};
use crate::inputs::sheet::Sheet;
use crate::inputs::{sheets, small};
use crate::library::session::Session;
use crate::random::Random;
use crate::second::expected::Expected;
use crate::second::refusals::{MOST_OBJECTIONS, MOST_STATEMENTS};

/// How many registers there are of each size, and the largest of that size: statements and pairs.
const SIZES: [(usize, usize, usize); 4] = [
    (120, 12, 40),
    (30, 120, 400),
    (4, 600, 1_600),
    (1, MOST_STATEMENTS, MOST_OBJECTIONS),
];

pub fn tests() -> Vec<Test> {
    let every = |statements: usize| {
        let name = format!("every old sheet, every register: {statements} statements");
        Test::new(name, move |session| hold_small(session, statements))
    };
    let shape = |shape: &'static Shape| {
        let name = format!("sheets, random registers: {}", shape.name);
        Test::new(name, move |session| hold_shape(session, shape))
    };
    let shapes = SHAPES.iter().map(shape);
    (0..=3).map(every).chain(shapes).collect()
}

fn hold_small(session: &mut Session, statements: usize) -> Result<(), String> {
    let mut random = Random::for_test("sheets of small registers");
    let every = sheets::every(statements);
    for register in 0..small::count(statements) {
        let case = Case::written(&mut random, &small::register(statements, register));
        case.hold_fresh(session)?;
        for old in &every {
            case.hold_updated(session, old)?;
        }
    }
    Ok(())
}

fn hold_shape(session: &mut Session, shape: &Shape) -> Result<(), String> {
    let mut random = Random::for_test(&format!("sheets of {}", shape.name));
    for (count, most_statements, most_pairs) in SIZES {
        for _ in 0..count {
            let lists = shape.up_to(&mut random, most_statements, most_pairs);
            let case = Case::written(&mut random, &lists);
            hold_updates(session, &mut random, &case, most_pairs)?;
        }
    }
    Ok(())
}

/// Holds the sheet afresh, and its update from old sheets: its own, of which every byte then is as
/// found; that of another register of so many statements; one on which all is open; a random one.
fn hold_updates(
    session: &mut Session,
    random: &mut Random,
    case: &Case,
    most_pairs: usize,
) -> Result<(), String> {
    case.hold_fresh(session)?;
    for old in [
        case.expected.sheet(),
        of_another(random, case.statements, most_pairs),
        sheets::all(0, case.statements),
        sheets::random(random, case.statements),
    ] {
        case.hold_updated(session, &old)?;
    }
    Ok(())
}

/// The sheet of some other register of so many statements.
fn of_another(random: &mut Random, statements: usize, most_pairs: usize) -> Sheet {
    let shape = &SHAPES[random.below(SHAPES.len())];
    let lists = shape.register(random, statements, most_pairs);
    Expected::of_lists(&lists).sheet()
}
