//! Round trips: every register of up to three statements, in many orders of its objections, and random
//! ones of every shape, up to the limits, grouped and not. What both forms must be is written from the
//! lists themselves. Labels, lengths and kinds are asked of the register before and after.

use super::{hold, hold_there, Test};
use crate::inputs::lists::Lists;
use crate::inputs::page::Page;
use crate::inputs::shapes::{Shape, SHAPES};
use crate::inputs::text::Text;
use crate::inputs::{numbers, small};
use crate::library::call::{KINDS, LABELS, LENGTHS, LISTING};
use crate::library::session::Session;
use crate::random::Random;
use crate::second::expected::Expected;
use crate::second::number::Number;
use crate::second::refusals::{MOST_OBJECTIONS, MOST_STATEMENTS};
use crate::second::register::Register;

/// How many registers there are of each size, and the largest of that size: statements and pairs.
const SIZES: [(usize, usize, usize); 4] = [
    (150, 12, 40),
    (30, 120, 400),
    (4, 600, 1_600),
    (2, MOST_STATEMENTS, MOST_OBJECTIONS),
];

/// In how many orders the objections of each small register stand, beside the grouped one.
const ORDERS: usize = 3;

/// Registers by whether their objections stood as going back groups them.
#[derive(Debug, Default)]
struct Met {
    grouped: usize,
    others: usize,
}

pub fn tests() -> Vec<Test> {
    let every = |statements: usize| {
        let name = format!("there and back: every register of {statements} statements");
        Test::new(name, move |session| hold_small(session, statements))
    };
    let shape = |shape: &'static Shape| {
        let name = format!("there and back: {}", shape.name);
        Test::new(name, move |session| hold_shape(session, shape))
    };
    let shapes = SHAPES.iter().map(shape);
    (0..=3).map(every).chain(shapes).collect()
}

fn hold_small(session: &mut Session, statements: usize) -> Result<(), String> {
    let mut random = Random::for_test("small registers there and back");
    let mut met = Met::default();
    for register in 0..small::count(statements) {
        let lists = small::register(statements, register);
        hold_register(session, &mut random, &lists.grouped(), &mut met)?;
        for _ in 0..ORDERS {
            let mixed = lists.reordered(&mut random);
            hold_register(session, &mut random, &mixed, &mut met)?;
        }
    }
    // with one statement or none there is nothing to be grouped
    match met.others == 0 && statements > 1 {
        true => Err(format!("all of them are grouped: {met:?}")),
        false => Ok(()),
    }
}

fn hold_shape(session: &mut Session, shape: &Shape) -> Result<(), String> {
    let mut random = Random::for_test(&format!("there and back: {}", shape.name));
    let mut met = Met::default();
    for (count, most_statements, most_pairs) in SIZES {
        for _ in 0..count {
            let lists = shape.up_to(&mut random, most_statements, most_pairs);
            hold_register(session, &mut random, &lists, &mut met)?;
            hold_register(session, &mut random, &lists.grouped(), &mut met)?;
            let mixed = lists.reordered(&mut random);
            hold_register(session, &mut random, &mixed, &mut met)?;
        }
    }
    match met.grouped.min(met.others) {
        0..=99 => Err(format!("too much alike: {met:?}")),
        _ => Ok(()),
    }
}

fn hold_register(
    session: &mut Session,
    random: &mut Random,
    lists: &Lists,
    met: &mut Met,
) -> Result<(), String> {
    let numbers = numbers::fitting(random, lists);
    let (text, catalogue) = (
        Text::written(lists, &numbers),
        Page::catalogue(lists, &numbers).text(),
    );
    let grouped = lists.grouped();
    hold_there(session, &text, &catalogue)?;
    let back = hold(session, &catalogue)?.text;
    session.count();
    if back.0 != Text::written(&grouped, &numbers).0 {
        return Err(format!("{text}: the second solver goes back to {back}"));
    }
    hold_kept(session, &text, &catalogue, &back, lists, &numbers)?;
    hold_meaning(session, lists, &text, &back)?;
    *match lists.is_grouped() {
        true => &mut met.grouped,
        false => &mut met.others,
    } += 1;
    Ok(())
}

/// What 02 says of the bytes: they are the same exactly if the objections were grouped. The length and
/// the statement lines are the same in any case, and of each objection the catalogue leaves out the
/// target's number and 3 bytes.
fn hold_kept(
    session: &mut Session,
    text: &Text,
    catalogue: &Text,
    back: &Text,
    lists: &Lists,
    numbers: &[Number],
) -> Result<(), String> {
    session.count();
    let left_out = |(_, target): (usize, usize)| numbers[target].to_string().len() + 3;
    let left_out: usize = lists.objections().map(left_out).sum();
    let statements = |text: &Text| -> Vec<Vec<u8>> {
        let lines = text.0.split_inclusive(|byte| *byte == b'\n');
        lines.take(numbers.len()).map(<[u8]>::to_vec).collect()
    };
    let is_right = (text.0 == back.0) == lists.is_grouped()
        && text.0.len() == back.0.len()
        && text.0.len() == catalogue.0.len() + left_out
        && statements(text) == statements(back);
    match is_right {
        true => Ok(()),
        false => Err(format!("{text}: {catalogue}, and back {back}")),
    }
}

/// Labels, lengths and kinds are the same, place by place and objection by objection. What is expected
/// of the register that came back is made from the verdicts on the one that went there.
fn hold_meaning(
    session: &mut Session,
    lists: &Lists,
    text: &Text,
    back: &Text,
) -> Result<(), String> {
    let before = Expected::of_text(text);
    let kinds = lists
        .by_target()
        .into_iter()
        .map(|entry| before.kinds[entry]);
    let after = Expected {
        refusal: None,
        register: Register {
            numbers: before.register.numbers.clone(),
            lists: lists.grouped(),
        },
        verdicts: before.verdicts.clone(),
        kinds: kinds.collect(),
    };
    for (text, expected) in [(text, &before), (back, &after)] {
        for call in [LABELS, LENGTHS, LISTING] {
            let rooms = call.fitting(text, expected);
            session.hold_text_call(&call, text, expected, &rooms)?;
        }
        let lists = &expected.register.lists;
        session.hold_list_call(&KINDS, lists, expected, &KINDS.fitting(lists, expected))?;
    }
    Ok(())
}
