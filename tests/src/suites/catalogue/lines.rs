//! Single lines of a catalogue: every byte in every place, and lines that are spoiled in every way a
//! field can be missing, doubled, misspelt or parted wrongly.

use super::{answered, hold, Test, ACCEPTED};
use crate::inputs::numbers::written_as;
use crate::inputs::page::{ends, Page};
use crate::inputs::spoiled::{SPOILED_CARDS, SPOILED_LINES};
use crate::inputs::text::Text;
use crate::library::session::Session;
use crate::random::Random;

/// A sound catalogue that has lines of no objector, of one and of several, numbers of one digit and of
/// several, and a year number in every field.
const SOUND: &[u8] = b"S\t12\tR\t7\nS\t7\tU\nS\t1987.14\tR\t12\t1987.14\t7\n";

/// Bytes that are in no sound line: each spoils the line wherever it is.
const STRANGE: [u8; 4] = [0, 13, 32, 255];

/// The one line of those that are spoiled in the old form which is sound here.
const OBJECTED: &str = "S\t9\tR\t9";

pub fn tests() -> Vec<Test> {
    vec![
        Test::new("catalogue: every byte in the place of another", replaced),
        Test::new("catalogue: every byte put in between", put_in),
        Test::new("catalogue: every byte lost, and every end", lost),
        Test::new("catalogue: bytes 0, 13, 32 and 255 anywhere", strange),
        Test::new("catalogue: a tab anywhere", tabs),
        Test::new("catalogue: every mark of one byte", every_mark),
        Test::new("catalogue: spoiled lines", spoiled_lines),
        Test::new("catalogue: blank lines", blank_lines),
        Test::new("catalogue: lines ended by bytes 13 and 10", ended_by_two),
    ]
}

fn with(at: usize, lost: usize, bytes: &[u8]) -> Text {
    Text([&SOUND[..at], bytes, &SOUND[at + lost..]].concat())
}

/// The line that the byte at this place is on.
fn line_of(at: usize) -> usize {
    1 + SOUND[..at].iter().filter(|byte| **byte == b'\n').count()
}

fn replaced(session: &mut Session) -> Result<(), String> {
    for at in 0..SOUND.len() {
        for byte in 0..=255 {
            hold(session, &with(at, 1, &[byte]))?;
        }
    }
    Ok(())
}

fn put_in(session: &mut Session) -> Result<(), String> {
    for at in 0..=SOUND.len() {
        for byte in 0..=255 {
            hold(session, &with(at, 0, &[byte]))?;
        }
    }
    Ok(())
}

fn lost(session: &mut Session) -> Result<(), String> {
    for at in 0..SOUND.len() {
        hold(session, &with(at, 1, b""))?;
        hold(session, &Text(SOUND[..at].to_vec()))?;
        hold(session, &Text(SOUND[at..].to_vec()))?;
    }
    Ok(())
}

fn strange(session: &mut Session) -> Result<(), String> {
    for byte in STRANGE {
        for at in 0..SOUND.len() {
            answered(session, &with(at, 0, &[byte]), (3, line_of(at)))?;
            let refusal = match at + 1 < SOUND.len() {
                true => (3, line_of(at)),
                false => (2, 0),
            };
            answered(session, &with(at, 1, &[byte]), refusal)?;
        }
        answered(session, &with(SOUND.len(), 0, &[byte]), (2, 0))?;
    }
    Ok(())
}

/// Only between two digits does a tab leave a sound line, which then names another number.
fn tabs(session: &mut Session) -> Result<(), String> {
    for at in 0..SOUND.len() {
        let is_digit = |at: usize| SOUND[at].is_ascii_digit();
        let is_parted = at > 0 && is_digit(at - 1) && is_digit(at);
        match is_parted {
            true => drop(hold(session, &with(at, 0, b"\t"))?),
            false => answered(session, &with(at, 0, b"\t"), (3, line_of(at)))?,
        }
        if SOUND[at] == b'\t' {
            answered(session, &with(at, 1, b"\t\t"), (3, line_of(at)))?;
            answered(session, &with(at, 1, b"\t\t\t"), (3, line_of(at)))?;
        }
    }
    // the number 12 as an objector of its own line, parted into 1 and 2
    let parted = Text::typed("S 12 R 1 2\nS 1 R\nS 2 R\n");
    answered(session, &parted, ACCEPTED)
}

fn every_mark(session: &mut Session) -> Result<(), String> {
    for mark in 0..=255 {
        for behind in [&b""[..], b"\t1", b"\t3\t1"] {
            let line = [b"S\t2\t", &[mark][..], behind, b"\n"].concat();
            let text = Text([b"S\t1\tR\n", &line[..], b"S\t3\tU\n"].concat());
            let refusal = match mark {
                b'R' | b'U' => ACCEPTED,
                _ => (3, 2),
            };
            answered(session, &text, refusal)?;
        }
    }
    Ok(())
}

/// A page for the spoiled lines: 1 and 2 are issued and 9 is not.
fn page() -> Page {
    let lines = ["S\t1\tR", "S\t2\tU\t3\t1", "S\t3\tR\t3"];
    Page {
        numbers: ["1", "2", "3"].map(written_as).to_vec(),
        lines: lines.map(String::from).to_vec(),
    }
}

fn spoiled_lines(session: &mut Session) -> Result<(), String> {
    let page = page();
    let lines = SPOILED_LINES.into_iter().flatten();
    let lines = lines.filter(|line| **line != OBJECTED);
    for spoiled in lines.chain(SPOILED_CARDS).chain(&["O\t1\t2"]) {
        answered(session, &Text::of_lines(&[spoiled]), (3, 1))?;
        for at in 0..=page.lines.len() {
            answered(session, &page.with(at, spoiled), (3, at + 1))?;
        }
    }
    answered(session, &page.with(1, OBJECTED), ACCEPTED)
}

fn blank_lines(session: &mut Session) -> Result<(), String> {
    let mut random = Random::for_test("blank lines of catalogues");
    for count in [1, 2, 3, 255, 256, 257, 4_097, 65_535] {
        answered(session, &Text(vec![b'\n'; count]), (3, 1))?;
    }
    for (statements, objections) in [(1, 1), (9, 20), (300, 1_000)] {
        let page = Page::random_catalogue(&mut random, statements, objections);
        for at in ends(0, page.lines.len() + 1) {
            answered(session, &page.with(at, ""), (3, at + 1))?;
        }
    }
    Ok(())
}

fn ended_by_two(session: &mut Session) -> Result<(), String> {
    let page = page();
    let lines: Vec<String> = page.lines.iter().map(|line| format!("{line}\r")).collect();
    answered(session, &Text::of_lines(&lines), (3, 1))?;
    answered(session, &Text(page.lines.join("\r").into_bytes()), (2, 0))?;
    for (at, line) in lines.iter().enumerate() {
        answered(session, &page.replaced(at, line), (3, at + 1))?;
    }
    Ok(())
}
