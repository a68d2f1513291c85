//! A year number with one byte changed, put in or lost, in every field: each byte there is in the
//! place of the point, beside it, and everywhere else. What comes of it is told from the byte.

use super::{answered, Test, ACCEPTED};
use crate::inputs::text::Text;
use crate::library::session::Session;

const NUMBER: &[u8] = b"1987.14";

const DIGITS: &[u8] = b"0123456789";

/// The bytes that leave a number where they are in the place of each byte.
const REPLACED: [&[u8]; NUMBER.len()] = [
    b"1",
    DIGITS,
    DIGITS,
    DIGITS,
    b".0123456789",
    b"123456789",
    DIGITS,
];

/// The bytes that leave a number where they are put in before each byte, and behind the last.
const PUT_IN: [&[u8]; NUMBER.len() + 1] = [b"", b"", b"", b"", b"", b"123456789", DIGITS, DIGITS];

/// Whether a number is left where each byte is lost.
const LOST: [bool; NUMBER.len()] = [false, false, false, false, true, true, true];

pub fn tests() -> Vec<Test> {
    vec![
        Test::new(
            "every byte in the place of the point, and beside it",
            replaced,
        ),
        Test::new("every byte put in before the point, and behind it", put_in),
        Test::new("a year number without its point, or another byte", lost),
    ]
}

fn replaced(session: &mut Session) -> Result<(), String> {
    for (at, left) in REPLACED.iter().enumerate() {
        for byte in 0..=255 {
            let field = [&NUMBER[..at], &[byte], &NUMBER[at + 1..]].concat();
            hold(session, &field, left.contains(&byte))?;
        }
    }
    Ok(())
}

fn put_in(session: &mut Session) -> Result<(), String> {
    for (at, left) in PUT_IN.iter().enumerate() {
        for byte in 0..=255 {
            let field = [&NUMBER[..at], &[byte], &NUMBER[at..]].concat();
            hold(session, &field, left.contains(&byte))?;
        }
    }
    Ok(())
}

fn lost(session: &mut Session) -> Result<(), String> {
    for (at, left) in LOST.into_iter().enumerate() {
        let field = [&NUMBER[..at], &NUMBER[at + 1..]].concat();
        hold(session, &field, left)?;
    }
    Ok(())
}

/// Holds texts in which one field is this one, and all other fields are sound.
fn hold(session: &mut Session, field: &[u8], is_number: bool) -> Result<(), String> {
    // the line of the field, and the first objection line that then has an unknown number
    for (at, line, unknown) in [(0, 2, 3), (1, 3, 3), (2, 4, 4)] {
        let mut fields = [NUMBER; 3];
        fields[at] = field;
        let text = text_with(fields);
        let refusal = match is_number {
            _ if field == NUMBER => ACCEPTED,
            true => (7, unknown),
            false => (3, line),
        };
        // the byte that ends a line may leave a sound line before it
        match field.contains(&b'\n') {
            true => session.hold_text(&text)?,
            false => answered(session, &text, refusal)?,
        }
    }
    Ok(())
}

/// A text of two statements that object to each other, with these for the number of one of them: on
/// its statement line, as an objector and as a target.
fn text_with([issued, objector, target]: [&[u8]; 3]) -> Text {
    Text::of_lines(&[
        b"S\t5\tR".to_vec(),
        [b"S\t", issued, b"\tU"].concat(),
        [b"O\t", objector, b"\t5"].concat(),
        [b"O\t5\t", target].concat(),
    ])
}
