//! Rooms of every length around that of the old form: refusal 10 exactly if the room is shorter than
//! it, and no byte written that is not its own. Whatever the room of a refused catalogue, it is the
//! catalogue that is refused.

use super::Test;
use crate::inputs::catalogues::REFUSED;
use crate::inputs::page::Page;
use crate::inputs::text::Text;
use crate::library::array::Room;
use crate::library::session::Session;
use crate::random::Random;
use crate::second::catalogue::OldForm;

pub fn tests() -> Vec<Test> {
    vec![
        Test::new("rooms of every length: small catalogues", small),
        Test::new("rooms of many lengths: large catalogues", large),
        Test::new("rooms of refused catalogues", refused),
    ]
}

fn hold_each(session: &mut Session, catalogue: &Text, rooms: &[Room]) -> Result<(), String> {
    let old = OldForm::of(catalogue);
    for room in rooms {
        session.hold_old_form(catalogue, &old, *room)?;
    }
    Ok(())
}

/// Rooms of every length up to the most, and none.
fn up_to(most: usize) -> Vec<Room> {
    (0..=most).map(Room::Of).chain([Room::Null]).collect()
}

fn small(session: &mut Session) -> Result<(), String> {
    let mut random = Random::for_test("rooms of small catalogues");
    hold_each(session, &Text::default(), &up_to(16))?;
    for statements in 1..=8 {
        for objections in [0, 1, statements, statements * statements] {
            let text = Page::random_catalogue(&mut random, statements, objections).text();
            let right = OldForm::of(&text).answer_length();
            hold_each(session, &text, &up_to(right + 3))?;
        }
    }
    Ok(())
}

/// 65,536 would be an empty room if it were cut down to 16 bits. One as long as the catalogue is too
/// short.
fn large(session: &mut Session) -> Result<(), String> {
    let mut random = Random::for_test("rooms of large catalogues");
    for (statements, objections) in [(1_024, 300), (100, 4_096), (1_024, 4_096)] {
        let text = Page::random_catalogue(&mut random, statements, objections).text();
        let right = OldForm::of(&text).answer_length();
        let rooms = [
            0,
            1,
            text.0.len(),
            right - 1,
            right,
            right + 1,
            65_535,
            65_536,
            131_072,
        ];
        hold_each(session, &text, &rooms.map(Room::Of))?;
    }
    Ok(())
}

fn refused(session: &mut Session) -> Result<(), String> {
    let mut random = Random::for_test("rooms of refused catalogues");
    let page = Page::random_catalogue(&mut random, 1_025, 4_097);
    for text in REFUSED.iter().map(|refused| refused.catalogue()).chain([
        page.text(),
        Text(vec![b'\n'; 65_535]),
        Text(vec![b'\n'; 65_536]),
    ]) {
        hold_each(session, &text, &up_to(40))?;
        hold_each(session, &text, &[65_535, 65_536].map(Room::Of))?;
    }
    Ok(())
}
