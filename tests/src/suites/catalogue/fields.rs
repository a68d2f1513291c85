//! The fields of a catalogue: those that are no number, numbers at the edges, and those that a careless
//! comparison would take for each other.

use super::{answered, Test, ACCEPTED};
use crate::inputs::numbers::EDGES;
use crate::inputs::spoiled::NO_NUMBERS;
use crate::inputs::text::Text;
use crate::library::session::Session;
use crate::suites::texts::numbers::{ALIKE, LIKE_YEARS};

pub fn tests() -> Vec<Test> {
    vec![
        Test::new("catalogue: fields that are no number", no_numbers),
        Test::new("catalogue: numbers at the edges", |session| {
            hold_all(session, &EDGES)
        }),
        Test::new("catalogue: numbers that look alike", |session| {
            hold_all(session, &ALIKE)
        }),
        Test::new(
            "catalogue: numbers that look like year numbers",
            |session| hold_all(session, &LIKE_YEARS),
        ),
    ]
}

/// In every field, and with numbers issued that a field comes near to.
fn no_numbers(session: &mut Session) -> Result<(), String> {
    let issued = ["1", "14", "1987", "1987.1", "1987.14", "198714"];
    let issued = issued.map(|number| format!("S\t{number}\tR"));
    for field in NO_NUMBERS.into_iter().flatten() {
        for line in [
            format!("S\t{field}\tR"),
            format!("S\t{field}\tU\t1987.14"),
            format!("S\t9\tR\t{field}"),
            format!("S\t9\tR\t{field}\t1"),
            format!("S\t9\tR\t1\t{field}\t14"),
            format!("S\t9\tR\t1\t{field}"),
            format!("S\t{field}\tR\t{field}"),
        ] {
            let text = Text::of_lines(&[&issued[..], &[line]].concat());
            answered(session, &text, (3, issued.len() + 1))?;
        }
    }
    Ok(())
}

fn hold_all(session: &mut Session, numbers: &[&str]) -> Result<(), String> {
    for one in numbers {
        hold_alone(session, one)?;
        for other in numbers.iter().filter(|other| *other != one) {
            hold_beside(session, one, other)?;
        }
    }
    let line = |number: &&str| format!("S\t{number}\tR\t{}", numbers.join("\t"));
    let every: Vec<String> = numbers.iter().map(line).collect();
    answered(session, &Text::of_lines(&every), ACCEPTED)
}

fn hold_alone(session: &mut Session, number: &str) -> Result<(), String> {
    for (words, refusal) in [
        (format!("S {number} R\n"), ACCEPTED),
        (format!("S {number} U {number}\n"), ACCEPTED),
        (format!("S {number} R {number} {number}\n"), (8, 1)),
        (format!("S {number} R {number}\nS {number} R\n"), (5, 2)),
    ] {
        answered(session, &Text::typed(&words), refusal)?;
    }
    Ok(())
}

/// The one is unknown where only the other is issued; and where both are, each may name both, and
/// neither of them twice.
fn hold_beside(session: &mut Session, one: &str, other: &str) -> Result<(), String> {
    for (words, refusal) in [
        (format!("S {one} R {other}\n"), (7, 1)),
        (format!("S {one} R {one} {other}\n"), (7, 1)),
        (format!("S {one} R {other} {one}\n"), (7, 1)),
        (format!("S {one} R\nS {other} U\n"), ACCEPTED),
        (format!("S {one} R {other}\nS {other} U\n"), ACCEPTED),
        (format!("S {one} R\nS {other} U {one}\n"), ACCEPTED),
        (
            format!("S {one} R {other} {one}\nS {other} U {other} {one}\n"),
            ACCEPTED,
        ),
        (
            format!("S {one} R {other} {one} {other}\nS {other} U\n"),
            (8, 1),
        ),
        (
            format!("S {one} R\nS {other} U {other} {one} {one}\n"),
            (8, 2),
        ),
        (format!("S {one} R\nS {other} U\nS {one} U\n"), (5, 3)),
    ] {
        answered(session, &Text::typed(&words), refusal)?;
    }
    Ok(())
}
