//! Short catalogues of a few different lines, in every order: statements and second ones, objectors
//! that are known, named before their line, unknown or named twice, and lines that are spoiled; each
//! with its last line ended and without.

use super::{hold, hold_rooms, Test};
use crate::inputs::few_lines::FewLines;
use crate::library::session::Session;
use crate::random::Random;

/// 1987.10 has no line of its own.
pub const LINES: FewLines = FewLines(&[
    "S 1 R",
    "S 1 U 1 2",
    "S 1 R 2 1987.1 1",
    "S 2 R 1",
    "S 2 U 2 1 2",
    "S 2 R 1987.1",
    "S 1987.1 R",
    "S 1987.1 U 2 2",
    "S 1987.1 R 1987.10 1",
    "S 3 R 1 1987.1 2 3",
    "S 1 R ",
    "S 2  1",
    "O 1 2",
    "",
]);

/// The most lines of which every catalogue is tried, and of which it is tried with many rooms.
pub const ALL_OF: u32 = 4;
const ROOMS_OF: u32 = 2;

/// How many longer catalogues are tried, the most lines of those, and how often each refusal must
/// come of them, and acceptance.
const SAMPLED: usize = 25_000;
pub const MOST_LINES: usize = 7;
const LEAST: usize = 30;

pub fn tests() -> Vec<Test> {
    let every = |first: usize| {
        let name = format!("every short catalogue: {:?} first", LINES.0[first]);
        Test::new(name, move |session| every(session, first))
    };
    let others = [
        Test::new("very short catalogues: rooms", very_short),
        Test::new("short catalogues, sampled", sampled),
    ];
    (0..LINES.0.len()).map(every).chain(others).collect()
}

fn every(session: &mut Session, first: usize) -> Result<(), String> {
    for lines in 1..=ALL_OF {
        for catalogue in LINES.beginning(first, lines) {
            hold(session, &catalogue)?;
        }
    }
    Ok(())
}

fn very_short(session: &mut Session) -> Result<(), String> {
    for lines in 0..=ROOMS_OF {
        for catalogue in LINES.every(lines) {
            hold_rooms(session, &catalogue)?;
        }
    }
    Ok(())
}

fn sampled(session: &mut Session) -> Result<(), String> {
    let mut random = Random::for_test("short catalogues");
    let mut met = [0_usize; 10];
    for _ in 0..SAMPLED {
        let lines = random.between(2, MOST_LINES) as u32;
        let catalogue = LINES.text(lines, random.below(LINES.count(lines)));
        let (refusal, _) = hold(session, &catalogue)?.refused_as();
        met[refusal as usize] += 1;
    }
    let rare = |refusal: &&usize| met[**refusal] < LEAST;
    match [0, 3, 5, 7, 8].iter().find(rare) {
        Some(refusal) => Err(format!("refusal {refusal} hardly ever comes: {met:?}")),
        None => Ok(()),
    }
}
