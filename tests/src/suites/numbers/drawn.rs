//! The numbers that other tests draw for their registers: plain ones only, year numbers only, and
//! both. A test that drew one form alone would try less than it says.

use super::Test;
use crate::inputs::draft::Draft;
use crate::inputs::numbers::fitting;
use crate::inputs::text::Text;
use crate::library::session::Session;
use crate::random::Random;
use crate::second::refusals::{MOST_OBJECTIONS, MOST_STATEMENTS};
use crate::second::register::MOST_BYTES;

/// How many registers are drawn of each size.
const DRAWN: usize = 60;

/// Registers by the forms of their numbers.
#[derive(Debug, Default)]
struct Met {
    plain: usize,
    years: usize,
    both: usize,
}

pub fn tests() -> Vec<Test> {
    vec![
        Test::new("registers are drawn with both forms of numbers", small),
        Test::new("the largest registers are drawn with both forms", largest),
    ]
}

fn small(session: &mut Session) -> Result<(), String> {
    let met = met(session, 12, 40)?;
    match met.plain.min(met.years).min(met.both) {
        0..=9 => Err(format!("the forms are too much alike: {met:?}")),
        _ => Ok(()),
    }
}

/// Year numbers alone have no space there.
fn largest(session: &mut Session) -> Result<(), String> {
    let met = met(session, MOST_STATEMENTS, MOST_OBJECTIONS)?;
    match met.both {
        0..=29 => Err(format!("year numbers hardly ever come: {met:?}")),
        _ => Ok(()),
    }
}

/// Draws numbers for registers of so many statements and objections, each of which has a text.
fn met(session: &mut Session, statements: usize, objections: usize) -> Result<Met, String> {
    let mut random = Random::for_test("the forms of drawn numbers");
    let mut met = Met::default();
    for _ in 0..DRAWN {
        session.count();
        let mut draft = Draft::new(statements, objections);
        draft.add_random(&mut random, objections);
        let lists = draft.mixed(&mut random);
        let numbers = fitting(&mut random, &lists);
        let bytes = Text::written(&lists, &numbers).0.len();
        if bytes > MOST_BYTES {
            return Err(format!("a text of {bytes} bytes"));
        }
        let is_year = |written: String| written.contains('.');
        let years = numbers.iter().filter(|number| is_year(number.to_string()));
        match years.count() {
            0 => met.plain += 1,
            count if count == statements => met.years += 1,
            _ => met.both += 1,
        }
    }
    Ok(met)
}
