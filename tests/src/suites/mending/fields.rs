//! Mending goes by what is a number: every line with a field that is none is dropped as spoiled, and
//! every number at the edges of its form is kept, told from the others and written as it was.

use super::{hold_fates, Test};
use crate::inputs::numbers::EDGES;
use crate::inputs::spoiled::NO_NUMBERS;
use crate::inputs::text::Text;
use crate::library::session::Session;
use crate::second::mend::Fate::{Dropped, Moved};
use crate::second::mend::{REPEATED, SECOND, SPOILED, UNKNOWN};

pub fn tests() -> Vec<Test> {
    vec![
        Test::new("mending: fields that are no number", no_numbers),
        Test::new("mending: numbers at the edges", edges),
    ]
}

/// The lines around the spoiled ones stay, and nothing is late behind a spoiled objection.
fn no_numbers(session: &mut Session) -> Result<(), String> {
    for field in NO_NUMBERS.into_iter().flatten() {
        let lines = [
            "S\t1\tR",
            &format!("O\t{field}\t1"),
            &format!("S\t{field}\tR"),
            "S\t1987.14\tR",
            &format!("O\t1987.14\t{field}"),
            &format!("O\t{field}\t{field}"),
            "S\t1987\tR",
            "O\t1987.14\t1",
        ];
        let spoiled = [1, 2, 4, 5].map(|at| (at, Dropped(SPOILED)));
        hold_fates(session, &Text::of_lines(&lines), &spoiled)?;
    }
    Ok(())
}

fn edges(session: &mut Session) -> Result<(), String> {
    for one in EDGES {
        for other in EDGES.into_iter().filter(|other| *other != one) {
            hold_beside(session, one, other)?;
        }
    }
    Ok(())
}

/// The one number is kept, repeated and named before its statement; the other is unknown, and then
/// issued as well.
fn hold_beside(session: &mut Session, one: &str, other: &str) -> Result<(), String> {
    let (first, second) = (format!("S\t{one}\tR"), format!("S\t{other}\tR"));
    let (there, back) = (format!("O\t{one}\t{other}"), format!("O\t{other}\t{one}"));
    let unknown = [&there, &first, &back, &first];
    let right = [
        (0, Dropped(UNKNOWN)),
        (1, Moved),
        (2, Dropped(UNKNOWN)),
        (3, Dropped(SECOND)),
    ];
    hold_fates(session, &Text::of_lines(&unknown), &right)?;
    let known = [&first, &there, &back, &second, &there];
    let right = [(3, Moved), (4, Dropped(REPEATED))];
    let mended = hold_fates(session, &Text::of_lines(&known), &right)?.text;
    match mended.0 == Text::of_lines(&[first, second, there, back]).0 {
        true => Ok(()),
        false => Err(format!("the second solver leaves {mended}")),
    }
}
