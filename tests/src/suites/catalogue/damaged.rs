//! Sound catalogues that were damaged at random, most of them small. Many are still sound, or are
//! refused for something else than a spoiled line; each test makes sure that it has met them all.

use super::{hold, Test};
use crate::inputs::damage::damaged_catalogue;
use crate::inputs::numbers;
use crate::inputs::page::Page;
use crate::inputs::shapes::SHAPES;
use crate::inputs::text::Text;
use crate::library::array::Room;
use crate::library::session::Session;
use crate::random::Random;

/// How many catalogues there are: damaged ones for each sound one, sound ones, and the most statements
/// and objections of those.
struct Size {
    name: &'static str,
    damaged: usize,
    sound: usize,
    statements: usize,
    objections: usize,
}

/// More than 150,000 damaged catalogues in all.
const SIZES: [Size; 4] = [
    size("tens of bytes", 12, 6_000, 3, 4),
    size("a hundred bytes", 12, 6_000, 8, 12),
    size("some hundred bytes", 12, 800, 25, 60),
    size("thousands of bytes", 10, 30, 300, 1_200),
];

const fn size(
    name: &'static str,
    damaged: usize,
    sound: usize,
    statements: usize,
    objections: usize,
) -> Size {
    Size {
        name,
        damaged,
        sound,
        statements,
        objections,
    }
}

pub fn tests() -> Vec<Test> {
    let test = |size: &'static Size| {
        let name = format!("damaged catalogues: {}", size.name);
        Test::new(name, move |session| hold_size(session, size))
    };
    SIZES.iter().map(test).collect()
}

fn hold_size(session: &mut Session, size: &Size) -> Result<(), String> {
    let mut random = Random::for_test(&format!("damaged catalogues: {}", size.name));
    let mut met = [0_usize; 10];
    for _ in 0..size.sound {
        let shape = &SHAPES[random.below(SHAPES.len())];
        let statements = random.between(1, size.statements);
        let lists = shape.register(&mut random, statements, size.objections);
        let numbers = numbers::fitting(&mut random, &lists);
        let sound = Page::catalogue(&lists, &numbers).text();
        for _ in 0..size.damaged {
            let text = damaged_catalogue(&mut random, &sound);
            met[hold_damaged(session, &mut random, &text)?] += 1;
        }
    }
    // 1, 6 and 9 are for texts far larger than these
    let rare = |refusal: &&usize| met[**refusal] < size.sound / 20;
    match [0, 2, 3, 5, 7, 8].iter().find(rare) {
        Some(refusal) => Err(format!("refusal {refusal} hardly ever comes: {met:?}")),
        None => Ok(()),
    }
}

/// Holds there and back, and now and then with a room that is a little longer or shorter. Answers the
/// refusal, or 0.
fn hold_damaged(session: &mut Session, random: &mut Random, text: &Text) -> Result<usize, String> {
    let old = hold(session, text)?;
    let right = old.answer_length();
    let room = match random.below(8) {
        0 => Some(right + 1 + random.below(4)),
        1 => right.checked_sub(1),
        _ => None,
    };
    if let Some(length) = room {
        session.hold_old_form(text, &old, Room::Of(length))?;
    }
    Ok(old.refused_as().0 as usize)
}
