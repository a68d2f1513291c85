//! Short texts of a few different lines, in every order: statements and second ones, objections of
//! known and unknown numbers, repeats, spoiled and blank lines, each text with its last line ended and
//! without. Most lines are late, or name a number before its statement.

use super::{hold, hold_rooms, Test};
use crate::inputs::few_lines::FewLines;
use crate::library::session::Session;
use crate::random::Random;

/// 1987.10 is on no statement line, and 1987.1 is on one of them.
pub const LINES: FewLines = FewLines(&[
    "S 1 R",
    "S 1 U",
    "S 2 R",
    "S 1987.1 R",
    "O 1 2",
    "O 2 1",
    "O 1 1",
    "O 1987.1 2",
    "O 2 1987.1",
    "O 1987.10 1987.1",
    "",
    "O 1",
]);

/// The most lines of which every text is tried, and of which it is tried with many rooms.
pub const ALL_OF: u32 = 4;
const ROOMS_OF: u32 = 2;

/// How many longer texts are tried, and the most lines of those.
const SAMPLED: usize = 25_000;
pub const MOST_LINES: usize = 12;

pub fn tests() -> Vec<Test> {
    let every = |first: usize| {
        let name = format!("mending every short text: {:?} first", LINES.0[first]);
        Test::new(name, move |session| every(session, first))
    };
    let others = [
        Test::new("mending very short texts: rooms", very_short),
        Test::new("mending short texts, sampled", sampled),
    ];
    (0..LINES.0.len()).map(every).chain(others).collect()
}

fn every(session: &mut Session, first: usize) -> Result<(), String> {
    for lines in 1..=ALL_OF {
        for text in LINES.beginning(first, lines) {
            hold(session, &text)?;
        }
    }
    Ok(())
}

fn very_short(session: &mut Session) -> Result<(), String> {
    for lines in 0..=ROOMS_OF {
        for text in LINES.every(lines) {
            hold_rooms(session, &text)?;
        }
    }
    Ok(())
}

fn sampled(session: &mut Session) -> Result<(), String> {
    let mut random = Random::for_test("short texts to be mended");
    for _ in 0..SAMPLED {
        let lines = random.between(ALL_OF as usize + 1, MOST_LINES) as u32;
        let text = LINES.text(lines, random.below(LINES.count(lines)));
        hold(session, &text)?;
    }
    Ok(())
}
