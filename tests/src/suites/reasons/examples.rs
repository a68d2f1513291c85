//! Reasons that are written out: the second solver must print them, and so must the library. Then
//! every statement of the examples of document 01, of those with year numbers and of the folder
//! examples.

use super::{hold_reasons, Test};
use crate::inputs::examples::{Example, EXAMPLES};
use crate::inputs::files::{File, FILES};
use crate::inputs::reasons::{Reasons, REASONS};
use crate::inputs::text::Text;
use crate::inputs::years::YEARS;
use crate::library::session::Session;
use crate::second::expected::Expected;

pub fn tests() -> Vec<Test> {
    let written = |reasons: &'static Reasons| {
        let name = format!("reasons, written out: {}", reasons.name);
        Test::new(name, move |session| hold_written(session, reasons))
    };
    let example = |origin: &'static str| {
        move |example: &'static Example| {
            let name = format!("reasons, {origin}: {}", example.name);
            Test::new(name, move |session| hold(session, &example.text()))
        }
    };
    let file = |file: &'static File| {
        let name = format!("reasons, example file: {}", file.name);
        Test::new(name, move |session| {
            hold(session, &Text(file.text.to_vec()))
        })
    };
    let all = REASONS.iter().map(written);
    all.chain(EXAMPLES.iter().map(example("example of 01")))
        .chain(YEARS.iter().map(example("example with year numbers")))
        .chain(FILES.iter().map(file))
        .collect()
}

fn hold_written(session: &mut Session, reasons: &Reasons) -> Result<(), String> {
    let text = reasons.text();
    let expected = Expected::of_text(&text);
    let numbers = &expected.register.numbers;
    if reasons.rows.len() != numbers.len() {
        return Err("not every statement has a reason".to_string());
    }
    for (words, number) in reasons.rows.iter().zip(numbers) {
        session.count();
        let (right, printed) = (words.replace(' ', "\t"), expected.reason(*number));
        if printed != right {
            return Err(format!(
                "the second solver prints {printed:?} and not {right:?}"
            ));
        }
    }
    hold(session, &text)
}

/// Holds the reason for every statement; a refused text has none, and is refused.
fn hold(session: &mut Session, text: &Text) -> Result<(), String> {
    session.hold_text(text)?;
    let expected = Expected::of_text(text);
    match expected.refusal {
        None => hold_reasons(session, text, &expected, &expected.register.numbers),
        Some(_) => Ok(()),
    }
}
