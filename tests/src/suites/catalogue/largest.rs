//! Catalogues whose old form is as long as there may be, and longer: they are refused as too long
//! exactly if it has over 65,535 bytes, whatever the room, although they are themselves far shorter.

use super::{answered, hold_there, Test, ACCEPTED};
use crate::inputs::lists::Lists;
use crate::inputs::numbers::written_as;
use crate::inputs::page::Page;
use crate::inputs::sized::{Form, FORMS};
use crate::inputs::text::Text;
use crate::library::array::Room;
use crate::library::session::Session;
use crate::random::Random;
use crate::second::catalogue::OldForm;
use crate::second::number::Number;
use crate::second::refusals::{MOST_OBJECTIONS, MOST_STATEMENTS};
use crate::second::register::MOST_BYTES;

/// How many bytes there are with the longest numbers, with every statement and every objection: in the
/// catalogue, which is the longest without another fault, and in the old form.
const LONGEST: (usize, usize) = (55_296, 104_448);

pub fn tests() -> Vec<Test> {
    vec![
        Test::new("catalogue: old forms of up to 65,535 bytes", fitting),
        Test::new("catalogue: old forms of 65,536 bytes and more", too_long),
        Test::new("catalogue: one byte more of the old form", one_byte_more),
        Test::new("catalogue: the longest there is", longest),
    ]
}

/// The old form, in any order of its objections, and the catalogue of a register of so many bytes.
fn both(random: &mut Random, form: &Form, bytes: usize) -> Result<(Text, Text), String> {
    let (lists, numbers) = form.register(bytes);
    let lists = lists.reordered(random);
    let text = Text::written(&lists, &numbers);
    match text.0.len() == bytes {
        true => Ok((text, Page::catalogue(&lists, &numbers).text())),
        false => Err(format!("{} bytes instead of {bytes}", text.0.len())),
    }
}

fn fitting(session: &mut Session) -> Result<(), String> {
    let mut random = Random::for_test("old forms that fit");
    for form in &FORMS {
        for bytes in [65_000, MOST_BYTES - 2, MOST_BYTES - 1, MOST_BYTES] {
            let (text, catalogue) = both(&mut random, form, bytes)?;
            hold_there(session, &text, &catalogue)?;
            answered(session, &catalogue, ACCEPTED)?;
            let old = OldForm::of(&catalogue);
            for room in [0, bytes - 1, bytes, bytes + 1, 65_535, 65_536, 131_072] {
                session.hold_old_form(&catalogue, &old, Room::Of(room))?;
            }
        }
    }
    Ok(())
}

fn too_long(session: &mut Session) -> Result<(), String> {
    let mut random = Random::for_test("old forms that do not fit");
    for form in &FORMS {
        for bytes in [MOST_BYTES + 1, MOST_BYTES + 2, 66_000, 70_000] {
            let (_, catalogue) = both(&mut random, form, bytes)?;
            answered(session, &catalogue, (1, 0))?;
            hold_no_room(session, &catalogue, bytes)?;
        }
    }
    Ok(())
}

/// It is the old form that is too long, and not the room that is too short.
fn hold_no_room(session: &mut Session, catalogue: &Text, bytes: usize) -> Result<(), String> {
    let old = OldForm::of(catalogue);
    session.hold_old_form(catalogue, &old, Room::Null)?;
    for room in [0, 1, 65_535, 65_536, bytes - 1, bytes, bytes + 1, 131_072] {
        session.hold_old_form(catalogue, &old, Room::Of(room))?;
    }
    Ok(())
}

/// The old form of just 65,535 bytes gets a byte more: one of its numbers does that nobody names. With
/// one of its objections left out it fits again.
fn one_byte_more(session: &mut Session) -> Result<(), String> {
    for form in &FORMS {
        let (lists, numbers) = form.register(MOST_BYTES);
        let mut page = Page::catalogue(&lists, &numbers);
        answered(session, &page.text(), ACCEPTED)?;
        page.lines[0] = format!("S\t{}0\tR", numbers[0]);
        answered(session, &page.text(), (1, 0))?;
        let last = page.lines.len() - 1;
        page.lines[last] = page.naming(last, &page.objectors(last)[1..]);
        answered(session, &page.text(), ACCEPTED)?;
    }
    Ok(())
}

/// With every limit reached, and with numbers of nine bytes.
fn longest(session: &mut Session) -> Result<(), String> {
    let number = |place: usize| written_as(&format!("{}.{}", 1_000 + place, 9_999 - place));
    let numbers: Vec<Number> = (0..MOST_STATEMENTS).map(number).collect();
    let pair = |entry: usize| ((entry % 1_024) as u32, (entry / 4) as u32);
    let pairs: Vec<(u32, u32)> = (0..MOST_OBJECTIONS).map(pair).collect();
    let lists = Lists::new(vec![1; MOST_STATEMENTS], &pairs);
    let catalogue = Page::catalogue(&lists, &numbers).text();
    let old = Text::written(&lists, &numbers);
    session.count();
    if (catalogue.0.len(), old.0.len()) != LONGEST {
        return Err(format!("{} and {} bytes", catalogue.0.len(), old.0.len()));
    }
    answered(session, &catalogue, (1, 0))?;
    hold_no_room(session, &catalogue, LONGEST.1)
}
