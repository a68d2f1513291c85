//! Numbers: fields that are none, those at the edges, and those that a careless comparison would
//! take for each other.

use super::{answered, Test, ACCEPTED};
use crate::inputs::numbers::EDGES;
use crate::inputs::spoiled::NO_NUMBERS;
use crate::inputs::text::Text;
use crate::library::session::Session;

/// Numbers that share their lowest bits, their digits, or the start or end of their digits.
pub const ALIKE: [&str; 24] = [
    "1", "257", "65537", "16777217", "2", "258", "65538", "10", "100", "1000", "10000", "10000000",
    "11", "111", "101", "11111111", "12", "21", "12345678", "87654321", "2345678", "1234567",
    "99999999", "99999998",
];

/// Year numbers, and others that share their digits, their year, their serial, or the digits or the
/// lowest bits of their codes.
pub const LIKE_YEARS: [&str; 28] = [
    "1987.14",
    "198714",
    "1987",
    "14",
    "1987.1",
    "1987.4",
    "1987.10",
    "1987.140",
    "1987.1400",
    "1987.114",
    "1987.41",
    "19871",
    "198710",
    "19870014",
    "1988.14",
    "1977.14",
    "1887.14",
    "1087.14",
    "1978.14",
    "1987.270",
    "1993.5550",
    "1000.1",
    "10001",
    "1000",
    "10000001",
    "1001.1",
    "2099.9999",
    "20999999",
];

pub fn tests() -> Vec<Test> {
    vec![
        Test::new("fields that are no number: refusal 3", no_numbers),
        Test::new("numbers at the edges", |session| hold_all(session, &EDGES)),
        Test::new("numbers that look alike", |session| {
            hold_all(session, &ALIKE)
        }),
        Test::new("numbers that look like year numbers", |session| {
            hold_all(session, &LIKE_YEARS)
        }),
        Test::new("objections by oneself and each other", mutual),
    ]
}

/// In every field of a line, and with numbers issued that a field comes near to.
fn no_numbers(session: &mut Session) -> Result<(), String> {
    let issued = ["1", "14", "1987", "1987.1", "1987.14", "198714"];
    let issued = issued.map(|number| format!("S\t{number}\tR"));
    for field in NO_NUMBERS.into_iter().flatten() {
        for line in [
            format!("S\t{field}\tR"),
            format!("O\t{field}\t1987.14"),
            format!("O\t1987.14\t{field}"),
            format!("O\t{field}\t{field}"),
        ] {
            let text = Text::of_lines(&[&issued[..], &[line]].concat());
            answered(session, &text, (3, issued.len() + 1))?;
        }
        let first = [format!("S\t{field}\tU")];
        answered(
            session,
            &Text::of_lines(&[&first, &issued[..]].concat()),
            (3, 1),
        )?;
    }
    Ok(())
}

/// Each of these is issued beside all others, and held by itself and beside each other one.
fn hold_all(session: &mut Session, numbers: &[&str]) -> Result<(), String> {
    let statements: Vec<String> = numbers.iter().map(|n| format!("S\t{n}\tR")).collect();
    answered(session, &Text::of_lines(&statements), ACCEPTED)?;
    for one in numbers {
        hold_twice(session, one)?;
        for other in numbers.iter().filter(|other| *other != one) {
            hold_beside(session, one, other)?;
        }
    }
    Ok(())
}

/// A number is in every field, and neither its statement nor its objection may come twice.
fn hold_twice(session: &mut Session, number: &str) -> Result<(), String> {
    let statement = format!("S\t{number}\tR");
    let objection = format!("O\t{number}\t{number}");
    for (lines, refusal) in [
        (vec![&statement, &statement], (5, 2)),
        (vec![&statement, &objection], ACCEPTED),
        (vec![&statement, &objection, &objection], (8, 3)),
    ] {
        answered(session, &Text::of_lines(&lines), refusal)?;
    }
    Ok(())
}

/// The one is unknown where only the other is issued; and where both are, an objection of the one
/// against the other is another one than back, and may not come twice.
fn hold_beside(session: &mut Session, one: &str, other: &str) -> Result<(), String> {
    let (first, second) = (format!("S\t{one}\tR"), format!("S\t{other}\tU"));
    let (there, back) = (format!("O\t{other}\t{one}"), format!("O\t{one}\t{other}"));
    for (lines, refusal) in [
        (vec![&first, &there], (7, 2)),
        (vec![&first, &back], (7, 2)),
        (vec![&first, &second, &there, &back], ACCEPTED),
        (vec![&first, &second, &there, &back, &there], (8, 5)),
    ] {
        answered(session, &Text::of_lines(&lines), refusal)?;
    }
    Ok(())
}

/// All objections that two statements can have, in every order of listing them.
fn mutual(session: &mut Session) -> Result<(), String> {
    let objections = ["O\t5\t5", "O\t5\t6", "O\t6\t5", "O\t6\t6"];
    for marks in [["R", "R"], ["R", "U"], ["U", "R"], ["U", "U"]] {
        let statements = [format!("S\t5\t{}", marks[0]), format!("S\t6\t{}", marks[1])];
        for first in 0..4 {
            for second in 0..4 {
                let chosen = [
                    objections[first].to_string(),
                    objections[second].to_string(),
                ];
                let text = Text::of_lines(&[statements.clone(), chosen].concat());
                let refusal = if first == second { (8, 4) } else { ACCEPTED };
                answered(session, &text, refusal)?;
            }
        }
    }
    Ok(())
}
