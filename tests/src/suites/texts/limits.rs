//! Texts at the limits and past them: 65,535 bytes, 1,024 statements, 4,096 objections, and one
//! more of each. With numbers of at most four digits all the statements and all the objections fit
//! one text: 1,024 lines of 9 bytes and 4,096 lines of 12 are 58,368 bytes.

use super::{answered, Test, ACCEPTED};
use crate::inputs::page::Page;
use crate::inputs::sized::FORMS;
use crate::inputs::text::Text;
use crate::library::session::Session;
use crate::random::Random;
use crate::second::register::MOST_BYTES;

/// A length cut down to 16 bits would take this one for nothing.
const CUT: usize = 1 << 16;

pub fn tests() -> Vec<Test> {
    vec![
        Test::new("the empty text is accepted", empty),
        Test::new("65,535 bytes are read", most_bytes),
        Test::new("more than 65,535 bytes: refusal 1", too_many_bytes),
        Test::new("1,024 statement lines are accepted", most_statements),
        Test::new("1,024 of the longest year numbers", longest_numbers),
        Test::new("4,096 objection lines are accepted", most_objections),
        Test::new("the 1,025th statement: refusal 6", too_many_statements),
        Test::new("the 4,097th objection: refusal 9", too_many_objections),
    ]
}

fn empty(session: &mut Session) -> Result<(), String> {
    answered(session, &Text::default(), ACCEPTED)
}

/// A sound text of just so many bytes, 60,000 or more. It has statements of 13 bytes, then
/// objections of 20 bytes up to the length or a little over it; what is over is taken from the
/// first statements, which nobody objects to, by giving them shorter numbers.
fn sound(bytes: usize) -> Text {
    const STATEMENTS: usize = 1_000;
    let objections = (bytes - 13 * STATEMENTS).div_ceil(20);
    let mut over = 13 * STATEMENTS + 20 * objections - bytes;
    let number = |place: usize| 10_000_000 * (1 + place % 9) + 37 * place;
    let mut lines = Vec::new();
    for place in 0..STATEMENTS {
        let shorter = over.min(7);
        over -= shorter;
        lines.push(format!(
            "S\t{}\tR",
            number(place) / 10_usize.pow(shorter as u32)
        ));
    }
    for entry in 0..objections {
        let target = 3 + entry % (STATEMENTS - 3);
        let objector = 3 + (target + 5 * (entry / (STATEMENTS - 3))) % (STATEMENTS - 3);
        lines.push(format!("O\t{}\t{}", number(objector), number(target)));
    }
    Text::of_lines(&lines)
}

/// The same with the longest numbers of each form.
fn sized(bytes: usize) -> impl Iterator<Item = Text> {
    FORMS.iter().map(move |form| {
        let (lists, numbers) = form.register(bytes);
        Text::written(&lists, &numbers)
    })
}

fn most_bytes(session: &mut Session) -> Result<(), String> {
    for bytes in [MOST_BYTES - 1, MOST_BYTES] {
        for text in sized(bytes).chain([sound(bytes)]) {
            if text.0.len() != bytes {
                return Err(format!("{} bytes instead of {bytes}", text.0.len()));
            }
            answered(session, &text, ACCEPTED)?;
        }
    }
    for text in sized(MOST_BYTES).chain([sound(MOST_BYTES)]) {
        hold_spoiled(session, text)?;
    }
    Ok(())
}

/// A text of as many bytes as there may be: its last line spoiled, then the text not ended, and then
/// a line that goes on to the end.
fn hold_spoiled(session: &mut Session, mut text: Text) -> Result<(), String> {
    let lines = text.ended_lines();
    text.0[MOST_BYTES - 2] = b'R';
    answered(session, &text, (3, lines))?;
    text.0[MOST_BYTES - 1] = b'R';
    answered(session, &text, (2, 0))?;
    text.0 = vec![b'1'; MOST_BYTES];
    answered(session, &text, (2, 0))?;
    text.0[MOST_BYTES - 1] = b'\n';
    answered(session, &text, (3, 1))
}

fn too_many_bytes(session: &mut Session) -> Result<(), String> {
    for text in sized(MOST_BYTES + 1).chain([sound(MOST_BYTES + 1)]) {
        answered(session, &text, (1, 0))?;
    }
    for bytes in [CUT, CUT + 1, CUT + 8, 2 * CUT - 1, 2 * CUT, 200_000] {
        for byte in [b'\n', b'S', 0] {
            answered(session, &Text(vec![byte; bytes]), (1, 0))?;
        }
        // what would be left after a cut is sound
        let mut text = Text::of_lines(&["S\t1\tR", "S\t2\tU", "O\t1\t2"]);
        text.0 = text.0.repeat(bytes.div_ceil(text.0.len()));
        answered(session, &text, (1, 0))?;
        text.0.truncate(bytes);
        answered(session, &text, (1, 0))?;
    }
    Ok(())
}

fn most_statements(session: &mut Session) -> Result<(), String> {
    let mut random = Random::for_test("most statement lines");
    for objections in [0, 1, 1_024] {
        for statements in [1_023, 1_024] {
            let page = Page::random(&mut random, statements, objections);
            answered(session, &page.text(), ACCEPTED)?;
        }
    }
    Ok(())
}

/// As many statements as there may be, their numbers of nine bytes each, and as many objections as
/// there is space for; then one more.
fn longest_numbers(session: &mut Session) -> Result<(), String> {
    const STATEMENTS: usize = 1_024;
    let number = |place: usize| format!("{}.{}", 2_099 - place, 1_000 + 7 * place);
    let statement = |place: usize| format!("S\t{}\tR", number(place));
    let objection = |entry: usize| {
        let target = entry % STATEMENTS;
        let objector = (target + 1 + entry / STATEMENTS) % STATEMENTS;
        format!("O\t{}\t{}", number(objector), number(target))
    };
    let objections = (MOST_BYTES - 14 * STATEMENTS) / 22;
    let statements = (0..STATEMENTS).map(statement);
    let mut lines: Vec<String> = statements.chain((0..objections).map(objection)).collect();
    answered(session, &Text::of_lines(&lines), ACCEPTED)?;
    lines.push(objection(objections));
    answered(session, &Text::of_lines(&lines), (1, 0))
}

/// 64 statements have no more than 4,096 objections: each against each, itself included.
fn most_objections(session: &mut Session) -> Result<(), String> {
    let mut random = Random::for_test("most objection lines");
    for statements in [64, 65, 300, 1_024] {
        let page = Page::random(&mut random, statements, 4_096);
        answered(session, &page.text(), ACCEPTED)?;
    }
    let page = Page::random(&mut random, 1_024, 4_095);
    answered(session, &page.text(), ACCEPTED)
}

fn too_many_statements(session: &mut Session) -> Result<(), String> {
    let mut random = Random::for_test("too many statement lines");
    for statements in [1_025, 1_026, 2_049] {
        for objections in [0, 3, 900] {
            let page = Page::random(&mut random, statements, objections);
            answered(session, &page.text(), (6, 1_025))?;
        }
    }
    Ok(())
}

fn too_many_objections(session: &mut Session) -> Result<(), String> {
    let mut random = Random::for_test("too many objection lines");
    for (statements, objections) in [(65, 4_097), (90, 5_000), (1_024, 4_097)] {
        let page = Page::random(&mut random, statements, objections);
        answered(session, &page.text(), (9, statements + 4_097))?;
    }
    Ok(())
}
