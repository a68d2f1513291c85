//! Registers written as texts: every one of up to three statements, with rooms of many lengths, and
//! random ones of every shape. The numbers are random, so that they are in no order.

use super::Test;
use crate::inputs::lists::Lists;
use crate::inputs::shapes::{Shape, SHAPES};
use crate::inputs::text::Text;
use crate::inputs::{numbers, rooms, small};
use crate::library::call::{TextCall, TEXT_CALLS};
use crate::library::session::Session;
use crate::random::Random;
use crate::second::expected::Expected;
use crate::second::number::Number;
use crate::second::refusals::{MOST_OBJECTIONS, MOST_STATEMENTS};
use crate::second::register;

/// How many texts there are of each size, and the largest of that size: statements and objections.
const SIZES: [(usize, usize, usize); 4] = [
    (300, 12, 40),
    (40, 120, 400),
    (6, 600, 1_600),
    (1, MOST_STATEMENTS, MOST_OBJECTIONS),
];

pub fn tests() -> Vec<Test> {
    let every = |call: &'static TextCall| {
        let name = format!("every register up to 3 statements: {}", call.name);
        Test::new(name, move |session| hold_small(session, call))
    };
    let shape = |shape: &'static Shape| {
        let name = format!("random registers as texts: {}", shape.name);
        Test::new(name, move |session| hold_shape(session, shape))
    };
    let shapes = SHAPES.iter().map(shape);
    TEXT_CALLS.iter().map(every).chain(shapes).collect()
}

fn hold_small(session: &mut Session, call: &TextCall) -> Result<(), String> {
    let mut random = Random::for_test("numbers of small registers");
    for statements in 0..=3 {
        for register in 0..small::count(statements) {
            let lists = small::register(statements, register);
            let text = written(&mut random, &lists)?;
            let expected = Expected::of_text(&text);
            for rooms in rooms::around(&call.answer_lengths(&text, &expected)) {
                session.hold_text_call(call, &text, &expected, &rooms)?;
            }
        }
    }
    Ok(())
}

fn hold_shape(session: &mut Session, shape: &Shape) -> Result<(), String> {
    let mut random = Random::for_test(shape.name);
    for (count, most_statements, most_pairs) in SIZES {
        for _ in 0..count {
            // the last size is the limits, and there all of it is wanted
            let statements = match count {
                1 => most_statements,
                _ => random.between(1, most_statements),
            };
            let lists = shape.register(&mut random, statements, most_pairs);
            session.hold_text(&written(&mut random, &lists)?)?;
        }
    }
    Ok(())
}

/// The register as a text, from which the second solver must read what was written.
fn written(random: &mut Random, lists: &Lists) -> Result<Text, String> {
    let numbers = numbers::fitting(random, lists);
    let text = Text::written(lists, &numbers);
    let codes: Vec<u32> = numbers.into_iter().map(Number::code).collect();
    match register::read(&text.0) {
        Ok(read) if read.numbers == codes && read.lists == *lists => Ok(text),
        _ => Err(format!("{text}: the second solver reads another register")),
    }
}
