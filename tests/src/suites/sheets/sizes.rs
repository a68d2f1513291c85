//! Registers of no statements up to three bytes of them, and of as many as there may be: all open, all
//! standing, all but one falling, and the old sheet one of the others. Then old sheets of another
//! number of statements, which often have as many bytes.

use super::{at_sizes, Case, Test, UNSOUND};
use crate::inputs::draft::Draft;
use crate::inputs::lists::Lists;
use crate::inputs::sheets::{self, SIZES};
use crate::library::session::Session;
use crate::random::Random;
use crate::second::refusals::MOST_OBJECTIONS;

pub fn tests() -> Vec<Test> {
    vec![
        Test::new("sheets of one label", one_label),
        at_sizes("old sheets of another size: refusal 16", other_sizes),
    ]
}

fn one_label(session: &mut Session) -> Result<(), String> {
    let mut random = Random::for_test("sheets of one label");
    for lists in SIZES.into_iter().flat_map(uniform) {
        let case = Case::written(&mut random, &lists);
        case.hold_fresh(session)?;
        for code in 0..3 {
            case.hold_updated(session, &sheets::all(code, case.statements))?;
        }
    }
    Ok(())
}

/// Registers of so many statements: all unread, all read, and all read but the last objects to all
/// others.
fn uniform(statements: usize) -> [Lists; 3] {
    let mut draft = Draft::new(statements, MOST_OBJECTIONS);
    for target in 1..statements {
        draft.add(statements - 1, target - 1);
    }
    [
        Lists::new(vec![1; statements], &[]),
        Lists::new(vec![0; statements], &[]),
        draft.in_draft_order(),
    ]
}

/// The totals are right for the number of statements that the sheet is of.
fn other_sizes(session: &mut Session, random: &mut Random, case: &Case) -> Result<(), String> {
    for other in SIZES {
        let is_right = other == case.statements;
        let refusal = if is_right { 0 } else { UNSOUND };
        for old in [
            sheets::all(0, other),
            sheets::all(1, other),
            sheets::all(2, other),
            sheets::random(random, other),
        ] {
            case.hold_update(session, &old, refusal)?;
        }
    }
    Ok(())
}
