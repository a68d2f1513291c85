//! The register of a reason alone, cut out of a text by what the reason's rows say: its statements
//! with their marks, and its objections. Its listing, which the library gives as the second solver
//! does, must have no row that the whole listing lacks, and so the same one for the statement.

use super::{hold_listing, rows};
use crate::inputs::text::Text;
use crate::library::call::TextCall;
use crate::library::session::Session;
use crate::second::expected::{Expected, Question};
use crate::second::listing;
use std::collections::HashSet;

/// Holds the register of the reason for this statement. The listed rows are those of the whole text.
pub fn hold(
    session: &mut Session,
    text: &Text,
    listed: &HashSet<&str>,
    (statement, reason): (u32, &str),
) -> Result<(), String> {
    let alone = cut_out(text, reason)?;
    let expected = Expected::of_text(&alone);
    let part = hold_listing(session, &alone, &expected)?;
    let other = part.lines().skip(1).find(|row| !listed.contains(row));
    if let Some(row) = other {
        return Err(format!("{text}: {row}, by the reason for {statement}"));
    }
    hold_again(session, &alone, &expected, (statement, reason))
}

/// Holds the reason for the statement in a register of this reason alone: it is the same reason.
fn hold_again(
    session: &mut Session,
    alone: &Text,
    expected: &Expected,
    (statement, reason): (u32, &str),
) -> Result<(), String> {
    let call = TextCall::reason(statement);
    let rooms = call.fitting(alone, expected);
    session.hold_text_call(&call, alone, expected, &rooms)?;
    session.count();
    let again = listing::print(expected, Question::Reason { statement });
    if again == reason.as_bytes() {
        return Ok(());
    }
    let again = again.escape_ascii();
    Err(format!("{alone}: another reason for {statement}: {again}"))
}

/// The lines of a sound text that this reason is about.
fn cut_out(text: &Text, reason: &str) -> Result<Text, String> {
    let (asked, _) = rows::asked(reason)?;
    let mut numbers = HashSet::from([asked]);
    let mut objections = HashSet::new();
    for row in rows::objections(reason) {
        numbers.extend([row.objector, row.target]);
        objections.insert((row.objector, row.target));
    }
    let is_kept = |line: &&str| match line.split('\t').collect::<Vec<_>>()[..] {
        ["S", number, _] => numbers.contains(number),
        ["O", objector, target] => objections.contains(&(objector, target)),
        _ => false,
    };
    let lines = std::str::from_utf8(&text.0).expect("a sound text").lines();
    Ok(Text::of_lines(&lines.filter(is_kept).collect::<Vec<_>>()))
}
