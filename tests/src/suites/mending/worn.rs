//! Random registers of every shape as an old system leaves them, worn in a few places or in many. The
//! numbers of the causes are counted: each test makes sure that it has met all that short texts have.

use super::{hold, Test};
use crate::inputs::page::Page;
use crate::inputs::shapes::{Shape, SHAPES};
use crate::inputs::worn::worn;
use crate::library::session::Session;
use crate::random::Random;
use crate::second::mend::Fate;
use crate::second::refusals::{MOST_OBJECTIONS, MOST_STATEMENTS};

/// How many texts there are of each size, the largest of that size, in statements and pairs, and the
/// most places in which one is worn.
const SIZES: [(usize, (usize, usize), usize); 4] = [
    (700, (12, 30), 12),
    (60, (120, 400), 60),
    (6, (600, 1_600), 300),
    (2, (MOST_STATEMENTS, MOST_OBJECTIONS), 400),
];

pub fn tests() -> Vec<Test> {
    let test = |shape: &'static Shape| {
        let name = format!("mending old exports: {}", shape.name);
        Test::new(name, move |session| hold_shape(session, shape))
    };
    SHAPES.iter().map(test).collect()
}

fn hold_shape(session: &mut Session, shape: &Shape) -> Result<(), String> {
    let mut random = Random::for_test(&format!("old exports of {}", shape.name));
    let mut met = [0_usize; 10];
    for (count, (most_statements, pairs), most_worn) in SIZES {
        for _ in 0..count {
            let statements = random.between(most_statements / 2, most_statements);
            let lists = shape.register(&mut random, statements, pairs);
            let page = Page::of(&mut random, &lists);
            let places = random.between(1, most_worn);
            let text = worn(&mut random, &page, places);
            for fate in hold(session, &text)?.fates {
                met[number_of(fate)] += 1;
            }
        }
    }
    // 6 and 9 come of the limits only
    let rare = |cause: &&usize| met[**cause] < 100;
    match [2, 3, 4, 5, 7, 8].iter().find(rare) {
        Some(cause) => Err(format!("cause {cause} hardly ever comes: {met:?}")),
        None => Ok(()),
    }
}

/// 01's number for what became of a line, or 0.
fn number_of(fate: Fate) -> usize {
    match fate {
        Fate::Kept => 0,
        Fate::Moved => 4,
        Fate::Dropped(cause) => cause as usize,
    }
}
