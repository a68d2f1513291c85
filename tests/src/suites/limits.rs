//! Registers at the limits and past them: just as large as is accepted, one entry more, and so much
//! more that a length cut down to 16 bits would look small again.

use super::Test;
use crate::inputs::draft::Draft;
use crate::inputs::lists::Lists;
use crate::library::session::Session;
use crate::random::Random;
use crate::second::expected::Expected;
use crate::second::refusals::{MOST_OBJECTIONS, MOST_STATEMENTS};

const CUT: usize = 1 << 16;

pub fn tests() -> Vec<Test> {
    vec![
        Test::new("1,024 statements are accepted", most_statements),
        Test::new("4,096 pairs are accepted", most_pairs),
        Test::new("more than 1,024 marks: refusal 6", too_many_marks),
        Test::new("more than 4,096 pairs: refusal 9", too_many_pairs),
    ]
}

fn most_statements(session: &mut Session) -> Result<(), String> {
    let mut random = Random::for_test("most statements");
    for pairs in [0, 1, 100, 1_024, 2_000] {
        let lists = sound(&mut random, MOST_STATEMENTS, pairs);
        answered(session, &lists, 0)?;
        answered(session, &sound(&mut random, MOST_STATEMENTS - 1, pairs), 0)?;
    }
    Ok(())
}

fn most_pairs(session: &mut Session) -> Result<(), String> {
    let mut random = Random::for_test("most pairs");
    for statements in [64, 65, 300, MOST_STATEMENTS] {
        let lists = sound(&mut random, statements, MOST_OBJECTIONS);
        answered(session, &lists, 0)?;
    }
    let one_less = sound(&mut random, MOST_STATEMENTS, MOST_OBJECTIONS - 1);
    answered(session, &one_less, 0)
}

fn too_many_marks(session: &mut Session) -> Result<(), String> {
    let mut random = Random::for_test("too many marks");
    let cut = [CUT - 1, CUT, CUT + 1, CUT + 5, CUT + MOST_STATEMENTS];
    let few = [MOST_STATEMENTS + 1, MOST_STATEMENTS + 2, 2_048, 4_097];
    for statements in [few.as_slice(), &cut].concat() {
        for pairs in [0, 7, 2_000] {
            let lists = sound(&mut random, statements, pairs);
            answered(session, &lists, 6)?;
        }
    }
    Ok(())
}

fn too_many_pairs(session: &mut Session) -> Result<(), String> {
    let mut random = Random::for_test("too many pairs");
    let cut = [CUT - 1, CUT, CUT + 1, CUT + 5, CUT + MOST_OBJECTIONS];
    let few = [MOST_OBJECTIONS + 1, MOST_OBJECTIONS + 2, 8_192];
    for pairs in [few.as_slice(), &cut].concat() {
        for statements in [300, MOST_STATEMENTS] {
            let lists = sound(&mut random, statements, pairs);
            answered(session, &lists, 9)?;
        }
    }
    Ok(())
}

/// A register that has no fault but perhaps its size.
fn sound(random: &mut Random, statements: usize, pairs: usize) -> Lists {
    let mut draft = Draft::new(statements, pairs);
    draft.leave_unread(random, 9);
    draft.add_random(random, pairs);
    draft.mixed(random)
}

/// Holds every call; the second solver must have come to this refusal, or 0 for none.
fn answered(session: &mut Session, lists: &Lists, number: u32) -> Result<(), String> {
    let refusal = Expected::of_lists(lists).refusal;
    if refusal.map_or(0, |refusal| refusal.number) != number {
        return Err(format!(
            "{lists}: the second solver has {refusal:?} and not {number}"
        ));
    }
    session.hold_lists(lists)
}
