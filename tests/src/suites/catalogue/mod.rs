//! The tests of the catalogue: the way there from the old form, and the way back. Each catalogue that
//! is accepted goes back and comes again, and must be the same; what it is refused for is said by the
//! test itself where it can be said beforehand.

mod damaged;
mod examples;
mod fields;
mod largest;
mod limits;
mod lines;
mod meaning;
mod order;
mod refusals;
mod registers;
mod rooms;
mod short;

use super::Test;
use crate::inputs::rooms::around;
use crate::inputs::text::Text;
use crate::library::array::Room;
use crate::library::call::CATALOGUE;
use crate::library::session::Session;
use crate::second::catalogue::OldForm;
use crate::second::expected::Expected;

/// The refusal and line of a catalogue that is accepted.
const ACCEPTED: (u32, usize) = (0, 0);

pub fn tests() -> Vec<Test> {
    let suites = [
        meaning::tests(),
        examples::tests(),
        short::tests(),
        registers::tests(),
        lines::tests(),
        fields::tests(),
        refusals::tests(),
        order::tests(),
        limits::tests(),
        largest::tests(),
        rooms::tests(),
        damaged::tests(),
    ];
    suites.into_iter().flatten().collect()
}

/// Holds the way back from a catalogue and, if it is accepted, the way there again, which must bring
/// the same bytes. Answers the old form.
pub fn hold(session: &mut Session, catalogue: &Text) -> Result<OldForm, String> {
    let old = OldForm::of(catalogue);
    session.hold_old_form(catalogue, &old, Room::Of(old.answer_length()))?;
    if old.refusal.is_none() {
        hold_there(session, &old.text, catalogue)?;
    }
    Ok(old)
}

/// Holds the way there from an old form. The second solver must have come to this catalogue.
fn hold_there(session: &mut Session, text: &Text, catalogue: &Text) -> Result<(), String> {
    let expected = Expected::of_text(text);
    session.count();
    if expected.refusal.is_some() || expected.catalogue().as_bytes() != catalogue.0 {
        let (refusal, line) = expected.refused_as();
        return Err(format!(
            "{text}: the second solver has {refusal} {line}, {:?}",
            expected.catalogue()
        ));
    }
    let room = Room::Of(catalogue.0.len());
    session.hold_text_call(&CATALOGUE, text, &expected, &[room])
}

/// Holds the way back from a catalogue with rooms of many lengths.
pub fn hold_rooms(session: &mut Session, catalogue: &Text) -> Result<(), String> {
    let old = OldForm::of(catalogue);
    for rooms in around(&[old.answer_length()]) {
        session.hold_old_form(catalogue, &old, rooms[0])?;
    }
    Ok(())
}

/// Holds the same as `hold`. The second solver must have come to this refusal and this line.
fn answered(session: &mut Session, catalogue: &Text, refusal: (u32, usize)) -> Result<(), String> {
    let (number, line) = hold(session, catalogue)?.refused_as();
    session.count();
    match (number, line as usize) == refusal {
        true => Ok(()),
        false => Err(format!(
            "{catalogue}: the second solver has {number} {line}, and not {refusal:?}"
        )),
    }
}
