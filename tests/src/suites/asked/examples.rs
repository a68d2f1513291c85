//! Registers for which every line of argument and every answer to the exercise is written out, those
//! of document 01 among them: the second solver must come to what is written, and so must the
//! library, for texts and for lists.

use super::{hold_exercises, hold_lines, Test, TURNS};
use crate::inputs::handed::Handed;
use crate::inputs::written::{Row, Written, WRITTEN};
use crate::library::session::Session;
use crate::second::exercise::MOST_TURNS;
use crate::second::expected::Expected;

pub fn tests() -> Vec<Test> {
    let test = |written: &'static Written<Row>| {
        let name = format!("line and exercise, written out: {}", written.name);
        Test::new(name, move |session| hold(session, written))
    };
    WRITTEN.iter().map(test).collect()
}

fn hold(session: &mut Session, written: &Written<Row>) -> Result<(), String> {
    let text = Handed::Text(written.text());
    let expected = Expected::of(&text);
    let lists = Handed::Lists(expected.register.lists.clone());
    if written.rows.len() != expected.register.numbers.len() {
        return Err("not every statement has a row".to_string());
    }
    for (row, number) in written.rows.iter().zip(&expected.register.numbers) {
        session.count();
        agree(&expected, *number, row)?;
    }
    hold_all(session, &text)?;
    hold_all(session, &lists)
}

/// Holds everything that can be asked of the statements of a register.
fn hold_all(session: &mut Session, handed: &Handed) -> Result<(), String> {
    let expected = Expected::of(handed);
    let statements = &expected.register.numbers;
    hold_lines(session, handed, &expected, statements)?;
    hold_exercises(session, handed, &expected, statements, &TURNS)
}

/// The second solver must have come to this row.
fn agree(expected: &Expected, number: u32, row: &Row) -> Result<(), String> {
    let line = expected.line(number);
    let answer = |turns| expected.within(number, turns);
    let within: Vec<u32> = (0..=MOST_TURNS).map(answer).collect();
    if (&line, &within) == (&row.line(), &row.within()) {
        return Ok(());
    }
    Err(format!(
        "the second solver has {line:?} and {within:?} for {number}"
    ))
}
