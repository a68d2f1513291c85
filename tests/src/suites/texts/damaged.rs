//! Sound texts that were damaged at random, most of them small. Many are still sound, or are
//! refused for something else than a spoiled line; each test makes sure that it has met them all.

use super::Test;
use crate::inputs::damage::damaged;
use crate::inputs::page::Page;
use crate::inputs::shapes::SHAPES;
use crate::inputs::text::Text;
use crate::library::array::Room;
use crate::library::call::{any_sheet, TextCall};
use crate::library::session::Session;
use crate::random::Random;
use crate::second::expected::Expected;

/// How many of the calls are made on each text, on one in how many a sheet is updated, and one in
/// how many is mended.
const HELD: usize = 2;
const UPDATED: usize = 4;
const MENDED: usize = 2;

/// How many texts there are: damaged ones for each sound one, sound ones, and the most statements
/// and objections of those.
struct Size {
    name: &'static str,
    damaged: usize,
    sound: usize,
    statements: usize,
    objections: usize,
}

/// More than 200,000 damaged texts in all.
const SIZES: [Size; 4] = [
    size("tens of bytes", 12, 8_000, 3, 4),
    size("a hundred bytes", 12, 8_000, 8, 10),
    size("some hundred bytes", 12, 1_000, 25, 40),
    size("thousands of bytes", 10, 30, 300, 900),
];

const fn size(
    name: &'static str,
    damaged: usize,
    sound: usize,
    statements: usize,
    objections: usize,
) -> Size {
    Size {
        name,
        damaged,
        sound,
        statements,
        objections,
    }
}

pub fn tests() -> Vec<Test> {
    let test = |size: &'static Size| {
        let name = format!("damaged texts: {}", size.name);
        Test::new(name, move |session| hold(session, size))
    };
    SIZES.iter().map(test).collect()
}

fn hold(session: &mut Session, size: &Size) -> Result<(), String> {
    let mut random = Random::for_test(size.name);
    let mut met = [0_usize; 10];
    for _ in 0..size.sound {
        let shape = &SHAPES[random.below(SHAPES.len())];
        let statements = random.between(1, size.statements);
        let lists = shape.register(&mut random, statements, size.objections);
        let sound = Page::of(&mut random, &lists).text();
        for _ in 0..size.damaged {
            let text = damaged(&mut random, &sound);
            let refusal = hold_text(session, &mut random, &text)?;
            met[refusal as usize] += 1;
        }
    }
    // 1, 6 and 9 are for texts far larger than these
    let rare = |refusal: &&usize| met[**refusal] < size.sound / 20;
    match [0, 2, 3, 4, 5, 7, 8].iter().find(rare) {
        Some(refusal) => Err(format!("refusal {refusal} hardly ever comes: {met:?}")),
        None => Ok(()),
    }
}

/// Holds some of the calls, now and then with a room that is a little longer or shorter than the
/// answer, and now and then an update or the mending. Answers the refusal of the text, or 0.
fn hold_text(session: &mut Session, random: &mut Random, text: &Text) -> Result<u32, String> {
    let expected = Expected::of_text(text);
    let mut calls = TextCall::every(&expected);
    random.shuffle(&mut calls);
    for call in calls.into_iter().take(HELD) {
        let mut rooms = call.fitting(text, &expected);
        for room in &mut rooms {
            *room = nearly(random, *room);
        }
        session.hold_text_call(&call, text, &expected, &rooms)?;
    }
    if random.once_in(UPDATED) {
        session.hold_update(text, &expected, &any_sheet(text, &expected))?;
    }
    if random.once_in(MENDED) {
        session.hold_mended(text)?;
    }
    Ok(expected.refused_as().0)
}

fn nearly(random: &mut Random, fitting: Room) -> Room {
    let length = fitting.length();
    match random.below(8) {
        0 => Room::Of(length + random.below(4)),
        1 => Room::Of(length.saturating_sub(1)),
        _ => fitting,
    }
}
