//! Single lines: every byte in every place of a text, and lines that are spoiled in every way a
//! field can be missing, doubled, misspelt or parted wrongly.

use super::{answered, Test, ACCEPTED};
use crate::inputs::numbers::written_as;
use crate::inputs::page::{ends, Page};
use crate::inputs::spoiled::SPOILED_LINES;
use crate::inputs::text::Text;
use crate::library::session::Session;
use crate::random::Random;

/// A sound text that has every kind of line, numbers of one digit and of several, and a year number
/// in every field.
const SOUND: &[u8] = b"S\t12\tR\nS\t7\tU\nS\t1987.14\tR\nO\t7\t12\nO\t1987.14\t7\nO\t12\t1987.14\n";

/// Bytes that are in no sound line: each spoils the line wherever it is.
const STRANGE: [u8; 4] = [0, 13, 32, 255];

pub fn tests() -> Vec<Test> {
    vec![
        Test::new("every byte in the place of another", every_byte_replaced),
        Test::new("every byte put in between", every_byte_put_in),
        Test::new("every byte lost, and every end", every_byte_lost),
        Test::new("bytes 0, 13, 32 and 255 anywhere", strange_bytes),
        Test::new("every mark of one byte", every_mark),
        Test::new("spoiled lines: refusal 3", spoiled_lines),
        Test::new("blank lines: refusal 3", blank_lines),
        Test::new("lines ended by bytes 13 and 10", lines_for_another_system),
    ]
}

fn replaced(at: usize, byte: u8) -> Text {
    let mut bytes = SOUND.to_vec();
    bytes[at] = byte;
    Text(bytes)
}

fn put_in(at: usize, byte: u8) -> Text {
    let mut bytes = SOUND.to_vec();
    bytes.insert(at, byte);
    Text(bytes)
}

fn every_byte_replaced(session: &mut Session) -> Result<(), String> {
    for at in 0..SOUND.len() {
        for byte in 0..=255 {
            session.hold_text(&replaced(at, byte))?;
        }
    }
    Ok(())
}

fn every_byte_put_in(session: &mut Session) -> Result<(), String> {
    for at in 0..=SOUND.len() {
        for byte in 0..=255 {
            session.hold_text(&put_in(at, byte))?;
        }
    }
    Ok(())
}

fn every_byte_lost(session: &mut Session) -> Result<(), String> {
    for at in 0..SOUND.len() {
        session.hold_text(&Text([&SOUND[..at], &SOUND[at + 1..]].concat()))?;
        session.hold_text(&Text(SOUND[..at].to_vec()))?;
        session.hold_text(&Text(SOUND[at..].to_vec()))?;
    }
    Ok(())
}

fn strange_bytes(session: &mut Session) -> Result<(), String> {
    for byte in STRANGE {
        for at in 0..SOUND.len() {
            let line = 1 + SOUND[..at].iter().filter(|byte| **byte == b'\n').count();
            answered(session, &put_in(at, byte), (3, line))?;
            let refusal = if at + 1 < SOUND.len() {
                (3, line)
            } else {
                (2, 0)
            };
            answered(session, &replaced(at, byte), refusal)?;
        }
        answered(session, &put_in(SOUND.len(), byte), (2, 0))?;
    }
    Ok(())
}

fn every_mark(session: &mut Session) -> Result<(), String> {
    for mark in 0..=255 {
        let text = Text([b"S\t1\tR\nS\t2\t", &[mark][..], b"\nS\t3\tU\n"].concat());
        let refusal = match mark {
            b'R' | b'U' => ACCEPTED,
            _ => (3, 2),
        };
        answered(session, &text, refusal)?;
    }
    Ok(())
}

/// A page for the spoiled lines: 1 and 2 are issued and 9 is not.
fn page() -> Page {
    let lines = ["S\t1\tR", "S\t2\tU", "S\t3\tR", "O\t2\t3", "O\t3\t3"];
    Page {
        numbers: ["1", "2", "3"].map(written_as).to_vec(),
        lines: lines.map(String::from).to_vec(),
    }
}

fn spoiled_lines(session: &mut Session) -> Result<(), String> {
    let page = page();
    for spoiled in SPOILED_LINES.into_iter().flatten() {
        answered(session, &Text::of_lines(&[spoiled]), (3, 1))?;
        for at in 0..=page.lines.len() {
            answered(session, &page.with(at, spoiled), (3, at + 1))?;
        }
    }
    Ok(())
}

fn blank_lines(session: &mut Session) -> Result<(), String> {
    let mut random = Random::for_test("blank lines");
    for count in [1, 2, 3, 255, 256, 257, 4_097, 65_535] {
        answered(session, &Text(vec![b'\n'; count]), (3, 1))?;
    }
    for (statements, objections) in [(1, 1), (9, 20), (300, 1_000)] {
        let page = Page::random(&mut random, statements, objections);
        for at in ends(0, page.lines.len() + 1) {
            answered(session, &page.with(at, ""), (3, at + 1))?;
        }
    }
    Ok(())
}

fn lines_for_another_system(session: &mut Session) -> Result<(), String> {
    let page = page();
    let lines: Vec<String> = page.lines.iter().map(|line| format!("{line}\r")).collect();
    answered(session, &Text::of_lines(&lines), (3, 1))?;
    answered(session, &Text(page.lines.join("\r").into_bytes()), (2, 0))?;
    for (at, line) in lines.iter().enumerate() {
        answered(session, &page.replaced(at, line), (3, at + 1))?;
    }
    Ok(())
}
