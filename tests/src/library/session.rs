//! A session makes calls and holds everything that comes back against the second solver: the two
//! numbers of the answer, every entry of every room, the guards, and that no input has changed.

use super::array::{Array, Room};
use super::call::{any_sheet, of_longest, room_widths, rooms_for_mending, rooms_with, text_input};
use super::call::{ListCall, TextCall, LIST_CALLS};
use super::call::{MEND, NUMBER, NUMBER_TEXT, SHEET_UPDATE, UNCATALOGUE};
use super::caller::{Caller, Request};
use crate::inputs::handed::Handed;
use crate::inputs::lists::Lists;
use crate::inputs::rooms;
use crate::inputs::sheet::Sheet;
use crate::inputs::text::Text;
use crate::second::answer::{bytes_of, Answer};
use crate::second::catalogue::OldForm;
use crate::second::expected::{Asked, Expected, Question};
use crate::second::mend::Mending;
use crate::second::number;

pub struct Session {
    caller: Caller,
    comparisons: u64,
}

impl Session {
    pub fn new(caller: Caller) -> Self {
        Session {
            caller,
            comparisons: 0,
        }
    }

    /// Counts one comparison: a call held against the second solver, or a solver against another.
    pub fn count(&mut self) {
        self.comparisons += 1;
    }

    /// The comparisons since this was last asked.
    pub fn take_count(&mut self) -> u64 {
        std::mem::take(&mut self.comparisons)
    }

    /// Holds every call on lists, with rooms of just the answer's length.
    pub fn hold_lists(&mut self, lists: &Lists) -> Result<(), String> {
        let expected = Expected::of_lists(lists);
        let asking = of_longest(&expected).map(ListCall::asking);
        for call in LIST_CALLS.iter().chain(&asking) {
            let rooms = call.fitting(lists, &expected);
            self.hold_list_call(call, lists, &expected, &rooms)?;
        }
        Ok(())
    }

    /// Holds every call on a text, with rooms of just the answer's length; it may be a catalogue.
    pub fn hold_text(&mut self, text: &Text) -> Result<(), String> {
        let expected = Expected::of_text(text);
        for call in TextCall::every(&expected) {
            let rooms = call.fitting(text, &expected);
            self.hold_text_call(&call, text, &expected, &rooms)?;
        }
        self.hold_update(text, &expected, &any_sheet(text, &expected))?;
        self.hold_mended(text)?;
        self.hold_uncatalogued(text)
    }

    /// Holds the line of argument of one statement with this room.
    pub fn hold_line(
        &mut self,
        handed: &Handed,
        expected: &Expected,
        statement: u32,
        room: Room,
    ) -> Result<(), String> {
        self.hold_asked(handed, expected, Asked::Line { statement }, &[room])
    }

    /// Holds the class exercise on one statement.
    pub fn hold_exercise(
        &mut self,
        handed: &Handed,
        expected: &Expected,
        statement: u32,
        turns: u32,
    ) -> Result<(), String> {
        let asked = Asked::Exercise { statement, turns };
        self.hold_asked(handed, expected, asked, &[])
    }

    /// Holds the reason for one statement of a text with this room.
    pub fn hold_reason(
        &mut self,
        text: &Text,
        expected: &Expected,
        statement: u32,
        room: Room,
    ) -> Result<(), String> {
        self.hold_text_call(&TextCall::reason(statement), text, expected, &[room])
    }

    /// Holds the update of this sheet from a text.
    pub fn hold_update(
        &mut self,
        text: &Text,
        expected: &Expected,
        old: &Sheet,
    ) -> Result<(), String> {
        let request = Request {
            call: SHEET_UPDATE,
            asked: (0, 0),
        };
        let answer = expected.updated(old);
        self.compare(request, text_input(text), rooms_with(old), &answer)
            .map_err(|what| format!("sheet_update, {text}; {old}: {what}"))
    }

    /// Holds the mending of a text, with rooms of just the answer's lengths.
    pub fn hold_mended(&mut self, text: &Text) -> Result<(), String> {
        let mending = Mending::of(text);
        self.hold_mending(text, &mending, mending.answer_lengths().map(Room::Of))
    }

    /// Holds the mending of a text with these rooms.
    pub fn hold_mending(
        &mut self,
        text: &Text,
        mending: &Mending,
        rooms: [Room; 2],
    ) -> Result<(), String> {
        let request = Request {
            call: MEND,
            asked: (0, 0),
        };
        let answer = mending.answer(&rooms::lengths(&rooms));
        let lent = rooms_for_mending(rooms[0], rooms[1]);
        self.compare(request, text_input(text), lent, &answer)
            .map_err(|what| format!("mend, {text}; rooms {rooms:?}: {what}"))
    }

    /// Holds the way back from a catalogue, with a room of just the answer's length.
    pub fn hold_uncatalogued(&mut self, catalogue: &Text) -> Result<(), String> {
        let old = OldForm::of(catalogue);
        self.hold_old_form(catalogue, &old, Room::Of(old.answer_length()))
    }

    /// Holds the way back from a catalogue with this room.
    pub fn hold_old_form(
        &mut self,
        catalogue: &Text,
        old: &OldForm,
        room: Room,
    ) -> Result<(), String> {
        let request = Request {
            call: UNCATALOGUE,
            asked: (0, 0),
        };
        let (answer, lent) = (old.answer(room.length()), vec![Array::room(1, room)]);
        self.compare(request, text_input(catalogue), lent, &answer)
            .map_err(|what| format!("uncatalogue, {catalogue}; room {room:?}: {what}"))
    }

    /// Holds the reading of a number by itself.
    pub fn hold_number(&mut self, field: &[u8]) -> Result<(), String> {
        let request = Request {
            call: NUMBER,
            asked: (0, 0),
        };
        let input = vec![Array::input(1, bytes_of(field))];
        self.compare(request, input, Vec::new(), &number::reading(field))
            .map_err(|what| format!("number, \"{}\": {what}", field.escape_ascii()))
    }

    /// Holds the writing of the number with this code into this room.
    pub fn hold_number_text(&mut self, code: u32, room: Room) -> Result<(), String> {
        let request = Request {
            call: NUMBER_TEXT,
            asked: (code, 0),
        };
        let answer = number::writing(code, room.length());
        self.compare(request, Vec::new(), vec![Array::room(1, room)], &answer)
            .map_err(|what| format!("number_text, {code}; room {room:?}: {what}"))
    }

    fn hold_asked(
        &mut self,
        handed: &Handed,
        expected: &Expected,
        asked: Asked,
        rooms: &[Room],
    ) -> Result<(), String> {
        match handed {
            Handed::Lists(lists) => {
                self.hold_list_call(&ListCall::asking(asked), lists, expected, rooms)
            }
            Handed::Text(text) => {
                self.hold_text_call(&TextCall::asking(asked), text, expected, rooms)
            }
        }
    }

    /// Holds one call on lists with these rooms.
    pub fn hold_list_call(
        &mut self,
        call: &ListCall,
        lists: &Lists,
        expected: &Expected,
        rooms: &[Room],
    ) -> Result<(), String> {
        let ListCall { name, question, .. } = call;
        self.hold_question(call.number, *question, call.inputs(lists), expected, rooms)
            .map_err(|what| format!("{name}, {question:?}, {lists}; rooms {rooms:?}: {what}"))
    }

    /// Holds one call on a text with these rooms.
    pub fn hold_text_call(
        &mut self,
        call: &TextCall,
        text: &Text,
        expected: &Expected,
        rooms: &[Room],
    ) -> Result<(), String> {
        let TextCall { name, question, .. } = call;
        self.hold_question(call.number, *question, text_input(text), expected, rooms)
            .map_err(|what| format!("{name}, {question:?}, {text}; rooms {rooms:?}: {what}"))
    }

    fn hold_question(
        &mut self,
        call: u32,
        question: Question,
        inputs: Vec<Array>,
        expected: &Expected,
        rooms: &[Room],
    ) -> Result<(), String> {
        let asked = question.numbers();
        let answer = expected.answer(question, &rooms::lengths(rooms));
        let lent = lent(question, rooms);
        self.compare(Request { call, asked }, inputs, lent, &answer)
    }

    /// Makes one call; everything that comes back must be as this answer says.
    fn compare(
        &mut self,
        request: Request,
        inputs: Vec<Array>,
        lent: Vec<Array>,
        answer: &Answer,
    ) -> Result<(), String> {
        self.count();
        let given = [inputs.clone(), lent.clone()].concat();
        let reply = self.caller.call(request, &given)?;
        if (reply.refusal, reply.value) != (answer.refusal, answer.value) {
            return Err(format!(
                "answered {} {} instead of {} {}",
                reply.refusal, reply.value, answer.refusal, answer.value
            ));
        }
        let (inputs_after, rooms_after) = reply.arrays.split_at(inputs.len());
        for (at, (input, after)) in inputs.iter().zip(inputs_after).enumerate() {
            input.held_against(after, &format!("input {at}"))?;
        }
        for (at, (room, after)) in lent.iter().zip(rooms_after).enumerate() {
            let right = room.starting_with(&answer.rooms[at]);
            right.held_against(after, &format!("room {at}"))?;
        }
        Ok(())
    }
}

/// The rooms as arrays, before the call.
fn lent(question: Question, rooms: &[Room]) -> Vec<Array> {
    let rooms = room_widths(question).iter().zip(rooms);
    rooms
        .map(|(width, room)| Array::room(*width, *room))
        .collect()
}
