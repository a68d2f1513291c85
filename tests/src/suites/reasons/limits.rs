//! Reasons at the limits: all of 1,024 statements and 4,096 objections in one reason, by standoffs
//! alone, by delaying objections of the longest lengths, and by felling ones among them; and the
//! reasons of a chain of 1,024, each of which goes on to its end and nowhere else.

use super::{hold_reasons, Test};
use crate::inputs::crafted::{chain, circle, ladder, tower};
use crate::inputs::draft::Draft;
use crate::inputs::numbers;
use crate::inputs::text::Text;
use crate::library::session::Session;
use crate::random::Random;
use crate::second::expected::Expected;
use crate::second::refusals::{MOST_OBJECTIONS, MOST_STATEMENTS};
use crate::second::verdict::NO_LENGTH;

/// The lengths that are asked for in a chain of 1,024: the least and the greatest, and those around
/// what is left of them in 8 bits.
const LENGTHS: [usize; 8] = [0, 1, 2, 255, 256, 257, 1_022, 1_023];

pub fn tests() -> Vec<Test> {
    vec![
        Test::new("the largest reasons: one circle", circles),
        Test::new("the largest reasons: what falls and what stands", ladders),
        Test::new("the reasons of chains of 1,024", chains),
        Test::new("late felling objections are in no reason", towers),
    ]
}

fn circles(session: &mut Session) -> Result<(), String> {
    let mut random = Random::for_test("the largest reasons: one circle");
    for statements in [64, 65, 500, MOST_STATEMENTS] {
        let draft = |random: &mut Random| circle(random, statements);
        for text in orders(&mut random, draft) {
            let expected = Expected::of_text(&text);
            let numbers = &expected.register.numbers;
            let asked = [0, statements / 2, statements - 1].map(|place| numbers[place]);
            hold_sized(session, &text, &expected, &asked, MOST_OBJECTIONS)?;
        }
    }
    Ok(())
}

/// The first statement has the greatest length, which is the number of layers behind it, and every
/// objection in its reason. An odd number makes it fall: 1,023 layers of one, and 341 of three. An
/// even one makes it stand: 512 layers of two, the last with one, and 256 of four, the last with
/// three. Layers of five would take more objections than there may be.
fn ladders(session: &mut Session) -> Result<(), String> {
    let mut random = Random::for_test("the largest reasons: what falls and what stands");
    for (width, layers) in [(1, 1_023), (2, 512), (3, 341), (4, 256)] {
        for text in orders(&mut random, |_| ladder(MOST_STATEMENTS, width)) {
            let expected = Expected::of_text(&text);
            let asked = with_length(&expected, layers)?;
            hold_sized(session, &text, &expected, &[asked], MOST_OBJECTIONS)?;
        }
    }
    Ok(())
}

fn chains(session: &mut Session) -> Result<(), String> {
    hold_chained(session, "the reasons of chains", chain)
}

/// A tower has 3,073 objections beside its chain. The objector of each stands later than the target
/// falls, so that it is longer than its target and belongs to no reason. What is left is the chain.
fn towers(session: &mut Session) -> Result<(), String> {
    hold_chained(session, "late felling objections", tower)
}

/// Holds reasons that have the objections of a chain and no other: from a statement to the end of
/// the chain there are as many as its length.
fn hold_chained(
    session: &mut Session,
    name: &str,
    draft: fn(usize) -> Draft,
) -> Result<(), String> {
    let mut random = Random::for_test(name);
    for text in orders(&mut random, |_| draft(MOST_STATEMENTS)) {
        let expected = Expected::of_text(&text);
        for length in LENGTHS {
            let asked = with_length(&expected, length)?;
            hold_sized(session, &text, &expected, &[asked], length)?;
        }
    }
    Ok(())
}

/// The drafted register as texts: in its own order, the objections turned round, and all mixed.
fn orders(random: &mut Random, draft: impl Fn(&mut Random) -> Draft) -> [Text; 3] {
    let lists = [
        draft(random).in_draft_order(),
        draft(random).reversed(),
        draft(random).mixed(random),
    ];
    lists.map(|lists| Text::written(&lists, &numbers::fitting(random, &lists)))
}

/// The number of a statement that has this length, of which there must be one.
fn with_length(expected: &Expected, length: usize) -> Result<u32, String> {
    let has = |length_is: u32| length_is != NO_LENGTH && length_is as usize == length;
    let mut verdicts = expected.verdicts.iter();
    let place = verdicts.position(|verdict| has(verdict.length()));
    let number = place.map(|place| expected.register.numbers[place]);
    number.ok_or(format!("no statement has the length {length}"))
}

/// Holds these reasons, each of which must have so many objections.
fn hold_sized(
    session: &mut Session,
    text: &Text,
    expected: &Expected,
    asked: &[u32],
    objections: usize,
) -> Result<(), String> {
    for number in asked {
        let rows = expected.reason(*number).lines().count();
        if rows != 1 + objections {
            return Err(format!("{text}: {rows} rows in the reason for {number}"));
        }
    }
    hold_reasons(session, text, expected, asked)
}
