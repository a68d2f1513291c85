//! A register as a text, with what the second solver makes of it, for tests that hold many sheets and
//! rooms against the same register.

use crate::inputs::lists::Lists;
use crate::inputs::numbers;
use crate::inputs::page::Page;
use crate::inputs::sheet::Sheet;
use crate::inputs::text::Text;
use crate::library::array::Room;
use crate::library::call::SHEET;
use crate::library::session::Session;
use crate::random::Random;
use crate::second::expected::Expected;

/// The most objections where only the statements matter, so that a call is quick.
const FEW: usize = 100;

pub struct Case {
    pub text: Text,
    pub expected: Expected,
    /// how many statements there are, if the text is not refused
    pub statements: usize,
}

impl Case {
    pub fn of(text: Text) -> Self {
        let expected = Expected::of_text(&text);
        Case {
            statements: expected.verdicts.len(),
            text,
            expected,
        }
    }

    /// A sound register, its statements under random numbers.
    pub fn written(random: &mut Random, lists: &Lists) -> Self {
        let numbers = numbers::fitting(random, lists);
        Case::of(Text::written(lists, &numbers))
    }

    /// A register of so many statements, with about as many objections.
    pub fn random(random: &mut Random, statements: usize) -> Self {
        Case::of(Page::random(random, statements, statements.min(FEW)).text())
    }

    /// Holds the sheet made afresh, in rooms of just its size.
    pub fn hold_fresh(&self, session: &mut Session) -> Result<(), String> {
        self.hold_rooms(session, &SHEET.fitting(&self.text, &self.expected))
    }

    /// Holds the sheet made afresh, in these rooms.
    pub fn hold_rooms(&self, session: &mut Session, rooms: &[Room]) -> Result<(), String> {
        session.hold_text_call(&SHEET, &self.text, &self.expected, rooms)
    }

    /// Holds the update of this sheet, which is accepted.
    pub fn hold_updated(&self, session: &mut Session, old: &Sheet) -> Result<(), String> {
        self.hold_update(session, old, 0)
    }

    /// Holds the update of this sheet; the second solver must have come to this refusal, or 0.
    pub fn hold_update(
        &self,
        session: &mut Session,
        old: &Sheet,
        refusal: u32,
    ) -> Result<(), String> {
        let Case { text, expected, .. } = self;
        let number = expected.updated(old).refusal;
        if number != refusal {
            return Err(format!(
                "{text}; {old}: the second solver has {number}, and not {refusal}"
            ));
        }
        session.hold_update(text, expected, old)
    }
}
