//! The tests of the sheet: made afresh, and updated in its two rooms. What an old sheet is refused for
//! is said by the test itself, so that the second solver's own look at it is tried too.

mod case;
mod edits;
mod examples;
mod meaning;
mod order;
mod registers;
mod rooms;
mod sizes;
mod totals;
mod unsound;

use super::Test;
use crate::inputs::sheets::SIZES;
use crate::library::session::Session;
use crate::random::Random;
use case::Case;

/// The refusals of an update, beside those of its text.
const UNSOUND: u32 = 16;
const SHORT: u32 = 10;

/// What is held of one register.
type Hold = fn(&mut Session, &mut Random, &Case) -> Result<(), String>;

pub fn tests() -> Vec<Test> {
    let suites = [
        meaning::tests(),
        examples::tests(),
        registers::tests(),
        edits::tests(),
        sizes::tests(),
        unsound::tests(),
        totals::tests(),
        rooms::tests(),
        order::tests(),
    ];
    suites.into_iter().flatten().collect()
}

/// A test that is made on a register of each size.
fn at_sizes(name: &'static str, hold: Hold) -> Test {
    Test::new(name, move |session| {
        let mut random = Random::for_test(name);
        for statements in SIZES {
            let case = Case::random(&mut random, statements);
            hold(session, &mut random, &case)?;
        }
        Ok(())
    })
}
