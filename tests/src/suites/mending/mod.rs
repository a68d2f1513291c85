//! The tests of mending. Beside what the second solver writes and reports there is what a mended text
//! is good for: it is accepted, it is mended no further, and what it says is not overturned when lost
//! statements come back. What becomes of the lines is said by the test itself where it can be said
//! beforehand.

mod examples;
mod fields;
mod limits;
mod meaning;
mod registers;
mod restored;
mod rooms;
mod short;
mod worn;

use super::Test;
use crate::inputs::rooms::around;
use crate::inputs::text::Text;
use crate::library::array::Room;
use crate::library::call::LABELS;
use crate::library::session::Session;
use crate::second::expected::Expected;
use crate::second::mend::{Fate, Mending};

pub fn tests() -> Vec<Test> {
    let suites = [
        meaning::tests(),
        examples::tests(),
        short::tests(),
        registers::tests(),
        worn::tests(),
        fields::tests(),
        limits::tests(),
        rooms::tests(),
        restored::tests(),
    ];
    suites.into_iter().flatten().collect()
}

/// Holds the mending of a text, and of the text that comes of it, which must stay as it is; and the
/// labels of that text, which must be accepted. Answers the mending.
fn hold(session: &mut Session, text: &Text) -> Result<Mending, String> {
    let mending = Mending::of(text);
    session.hold_mending(text, &mending, mending.answer_lengths().map(Room::Of))?;
    let mended = &mending.text;
    let (again, expected) = (Mending::of(mended), Expected::of_text(mended));
    session.count();
    if again.text.0 != mended.0 || !again.report.is_empty() || expected.refusal.is_some() {
        return Err(format!("{text}: the second solver leaves {mended}"));
    }
    if mended.0.len() > text.0.len() {
        return Err(format!("{text}: mended it is longer, {mended}"));
    }
    session.hold_mended(mended)?;
    let rooms = LABELS.fitting(mended, &expected);
    session.hold_text_call(&LABELS, mended, &expected, &rooms)?;
    Ok(mending)
}

/// Holds the mending of a text with rooms of many lengths.
pub fn hold_rooms(session: &mut Session, text: &Text) -> Result<(), String> {
    let mending = Mending::of(text);
    for rooms in around(&mending.answer_lengths()) {
        session.hold_mending(text, &mending, [rooms[0], rooms[1]])?;
    }
    Ok(())
}

/// Holds the same as `hold`. The second solver must have come to these fates, each with the index of
/// its line, and every other line must be kept.
fn hold_fates(
    session: &mut Session,
    text: &Text,
    right: &[(usize, Fate)],
) -> Result<Mending, String> {
    let mending = hold(session, text)?;
    let fates = mending.fates.iter().copied().enumerate();
    let told: Vec<(usize, Fate)> = fates.filter(|(_, fate)| *fate != Fate::Kept).collect();
    session.count();
    match told.iter().zip(right).find(|(is, should)| is != should) {
        Some((is, should)) => Err(format!("the second solver has {is:?} and not {should:?}")),
        None if told.len() == right.len() => Ok(mending),
        None => Err(format!("{} lines, not {}", told.len(), right.len())),
    }
}
