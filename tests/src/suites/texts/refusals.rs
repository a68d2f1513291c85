//! Texts with one fault, at the first line that can have it, in the middle and at the last: the
//! refusal's number and line, through every call.

use super::{answered, Test};
use crate::inputs::page::{ends, Page};
use crate::inputs::text::Text;
use crate::library::session::Session;
use crate::random::Random;

/// Statements and objections of the texts that get a fault.
const SIZES: [(usize, usize); 5] = [(2, 2), (3, 5), (9, 30), (60, 300), (1_000, 2_000)];

pub fn tests() -> Vec<Test> {
    vec![
        Test::new("a text that is not ended: refusal 2", not_ended),
        Test::new("a spoiled line among others: refusal 3", spoiled),
        Test::new("a statement after an objection: refusal 4", late),
        Test::new("a number issued twice: refusal 5", issued_twice),
        Test::new("an unknown number: refusal 7", unknown),
        Test::new("an objection before its statements: refusal 7", too_early),
        Test::new("a repeated objection: refusal 8", repeated),
    ]
}

fn not_ended(session: &mut Session) -> Result<(), String> {
    let mut random = Random::for_test("not ended");
    for (statements, objections) in SIZES {
        let whole = Page::random(&mut random, statements, objections).text();
        let cut = Text(whole.0[..whole.0.len() - 1].to_vec());
        answered(session, &cut, (2, 0))?;
        for byte in [0, 9, 11, 13, 32, b'1', b'R', 255] {
            answered(session, &Text([&cut.0[..], &[byte]].concat()), (2, 0))?;
            answered(session, &Text([&whole.0[..], &[byte]].concat()), (2, 0))?;
        }
    }
    for byte in (0..=255).filter(|byte| *byte != b'\n') {
        answered(session, &Text(vec![byte]), (2, 0))?;
    }
    Ok(())
}

fn spoiled(session: &mut Session) -> Result<(), String> {
    let mut random = Random::for_test("spoiled");
    for (statements, objections) in SIZES {
        let page = Page::random(&mut random, statements, objections);
        for at in ends(0, page.lines.len()) {
            let line = &page.lines[at];
            for spoiled in [
                &line[1..],
                &line[..line.len() - 1].replace(|digit: char| digit.is_ascii_digit(), ""),
                &line.replace('\t', " "),
                &line.to_lowercase(),
                &format!("{line}\t"),
            ] {
                answered(session, &page.replaced(at, spoiled), (3, at + 1))?;
            }
        }
    }
    Ok(())
}

fn late(session: &mut Session) -> Result<(), String> {
    let mut random = Random::for_test("late");
    for (statements, objections) in SIZES {
        let page = Page::random(&mut random, statements, objections);
        for before in page.objection_lines() {
            let number = page.unissued(&mut random);
            for mark in ["R", "U"] {
                let text = page.with(before + 1, &format!("S\t{number}\t{mark}"));
                answered(session, &text, (4, before + 2))?;
            }
        }
    }
    Ok(())
}

/// The second issue has the same mark or the other one, and the number's objections are in the
/// text.
fn issued_twice(session: &mut Session) -> Result<(), String> {
    let mut random = Random::for_test("issued twice");
    for (statements, objections) in SIZES {
        let page = Page::random(&mut random, statements, objections);
        for first in ends(0, statements) {
            for again in [first + 1, (first + 1 + statements) / 2, statements] {
                for mark in ["R", "U"] {
                    let text = page.with(again, &format!("S\t{}\t{mark}", page.numbers[first]));
                    answered(session, &text, (5, again + 1))?;
                }
            }
        }
    }
    Ok(())
}

fn unknown(session: &mut Session) -> Result<(), String> {
    let mut random = Random::for_test("unknown");
    for (statements, objections) in SIZES {
        let page = Page::random(&mut random, statements, objections);
        for at in page.objection_lines() {
            let (unknown, other) = (page.unissued(&mut random), page.unissued(&mut random));
            let known = page.numbers[random.below(statements)];
            for (objector, target) in [
                (unknown, known),
                (known, unknown),
                (unknown, unknown),
                (unknown, other),
            ] {
                let text = page.replaced(at, &format!("O\t{objector}\t{target}"));
                answered(session, &text, (7, at + 1))?;
            }
        }
    }
    Ok(())
}

/// A number is on the register once its statement line was read, and not before.
fn too_early(session: &mut Session) -> Result<(), String> {
    let mut random = Random::for_test("too early");
    for (statements, objections) in SIZES {
        let page = Page::random(&mut random, statements, objections);
        for at in ends(0, statements) {
            let first = page.numbers[0];
            let next = page.numbers[at];
            for (objector, target) in [(next, first), (first, next), (next, next)] {
                let text = page.with(at, &format!("O\t{objector}\t{target}"));
                answered(session, &text, (7, at + 1))?;
            }
        }
    }
    let alone = Text::of_lines(&["O\t1\t2"]);
    answered(session, &alone, (7, 1))
}

fn repeated(session: &mut Session) -> Result<(), String> {
    let mut random = Random::for_test("repeated");
    for (statements, objections) in SIZES {
        let page = Page::random(&mut random, statements, objections);
        for first in page.objection_lines() {
            for again in [
                first + 1,
                (first + 1 + page.lines.len()) / 2,
                page.lines.len(),
            ] {
                let text = page.with(again, &page.lines[first].clone());
                answered(session, &text, (8, again + 1))?;
            }
        }
    }
    Ok(())
}
