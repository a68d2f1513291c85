//! Rooms of every length around those of mended text and report: refusal 10 exactly if either is
//! shorter than what it gets, and then nothing written, not even how many bytes the report has.

use super::Test;
use crate::inputs::mends::MENDS;
use crate::inputs::page::Page;
use crate::inputs::text::Text;
use crate::inputs::worn::worn;
use crate::library::array::Room;
use crate::library::session::Session;
use crate::random::Random;
use crate::second::mend::Mending;

/// The header's room for every report.
const EVERY_REPORT: usize = 16 * 65_535;

pub fn tests() -> Vec<Test> {
    vec![
        Test::new("rooms of every length: mending", small),
        Test::new("rooms of many lengths: mending large texts", large),
        Test::new("rooms of a text that is too long to be mended", too_long),
    ]
}

fn small(session: &mut Session) -> Result<(), String> {
    for mend in &MENDS {
        let text = mend.text();
        let mending = Mending::of(&text);
        let [bytes, told] = mending.answer_lengths();
        let rooms = |right: usize| (0..=right + 2).map(Room::Of).chain([Room::Null]);
        for room in rooms(bytes) {
            for report in rooms(told) {
                session.hold_mending(&text, &mending, [room, report])?;
            }
        }
    }
    Ok(())
}

/// Texts at the limits that are worn in many places, and one of blank lines.
fn large(session: &mut Session) -> Result<(), String> {
    let mut random = Random::for_test("rooms of large texts to be mended");
    let mut texts = vec![Text(vec![b'\n'; 20_000])];
    for (statements, objections) in [(1_024, 300), (100, 4_096), (1_000, 4_000)] {
        let page = Page::random(&mut random, statements, objections);
        texts.push(worn(&mut random, &page, 300));
    }
    for text in texts {
        let mending = Mending::of(&text);
        let [bytes, told] = mending.answer_lengths();
        for room in around(bytes) {
            for report in around(told) {
                session.hold_mending(&text, &mending, [room, report])?;
            }
        }
        let every = [Room::Of(65_535), Room::Of(EVERY_REPORT)];
        session.hold_mending(&text, &mending, every)?;
    }
    Ok(())
}

/// 65,536 would be an empty room if it were cut down to 16 bits.
fn around(right: usize) -> [Room; 6] {
    let short = right.saturating_sub(1);
    [0, short, right, right + 1, 65_535, 65_536].map(Room::Of)
}

/// It is the text that is refused, whatever the rooms.
fn too_long(session: &mut Session) -> Result<(), String> {
    for bytes in [65_536, 65_537, 131_072] {
        let text = Text(vec![b'\n'; bytes]);
        let mending = Mending::of(&text);
        for room in [Room::Null, Room::Of(0), Room::Of(5), Room::Of(65_536)] {
            for report in [Room::Null, Room::Of(0), Room::Of(5), Room::Of(EVERY_REPORT)] {
                session.hold_mending(&text, &mending, [room, report])?;
            }
        }
    }
    Ok(())
}
