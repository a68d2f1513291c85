//! The library's calls. Most answer one question about a register that is handed over as lists, in
//! one of two forms, or as a text; one takes a catalogue; two read and write a number by itself.

use super::array::{Array, Room};
use crate::inputs::lists::Lists;
use crate::inputs::rooms;
use crate::inputs::sheet::Sheet;
use crate::inputs::sheets;
use crate::inputs::text::Text;
use crate::second::answer::bytes_of;
use crate::second::exercise::MOST_TURNS;
use crate::second::expected::{Asked, Expected, Question};
use crate::second::verdict::NO_LENGTH;

/// Pairs are handed over as objectors and targets, moves as from (target) and to (objector).
#[derive(Clone, Copy)]
enum Form {
    Pairs,
    Moves,
}

pub struct ListCall {
    pub name: &'static str,
    /// the number by which caller.c knows it
    pub number: u32,
    pub question: Question,
    form: Form,
}

#[derive(Clone, Copy)]
pub struct TextCall {
    pub name: &'static str,
    /// the number by which caller.c knows it
    pub number: u32,
    pub question: Question,
}

pub const KINDS: ListCall = list_call("pairs_kinds", 2, Form::Pairs, Question::Kinds);

pub const LIST_CALLS: [ListCall; 5] = [
    list_call("pairs_labels", 0, Form::Pairs, Question::Labels),
    list_call("pairs_lengths", 1, Form::Pairs, Question::Lengths),
    KINDS,
    list_call("moves_labels", 3, Form::Moves, Question::Labels),
    list_call("moves_lengths", 4, Form::Moves, Question::Lengths),
];

pub const TEXT_CALLS: [TextCall; 5] = [LABELS, LENGTHS, LISTING, SHEET, CATALOGUE];

pub const LABELS: TextCall = text_call("text_labels", 20, Question::Labels);
pub const LENGTHS: TextCall = text_call("text_lengths", 21, Question::Lengths);
pub const LISTING: TextCall = text_call("listing", 22, Question::Listing);
pub const SHEET: TextCall = text_call("sheet", 26, Question::Sheet);
pub const CATALOGUE: TextCall = text_call("catalogue", 29, Question::Catalogue);

/// The number by which caller.c knows the update of a sheet. It is no question: its rooms hold the
/// old sheet before the call.
pub const SHEET_UPDATE: u32 = 27;

/// The number by which caller.c knows mending. It is no question either: a text that is no register
/// is answered too.
pub const MEND: u32 = 28;

/// The number by which caller.c knows the way back from a catalogue, which is no register text.
pub const UNCATALOGUE: u32 = 30;

/// The numbers by which caller.c knows the reading of a number by itself, and the writing.
pub const NUMBER: u32 = 40;
pub const NUMBER_TEXT: u32 = 41;

const fn list_call(name: &'static str, number: u32, form: Form, question: Question) -> ListCall {
    ListCall {
        name,
        number,
        question,
        form,
    }
}

const fn text_call(name: &'static str, number: u32, question: Question) -> TextCall {
    TextCall {
        name,
        number,
        question,
    }
}

/// The width in bytes of an entry of each room that a call with this question takes.
pub fn room_widths(question: Question) -> &'static [usize] {
    match question {
        Question::Labels => &[1],
        Question::Lengths => &[2],
        Question::Kinds => &[1, 2],
        Question::Listing | Question::Catalogue | Question::Reason { .. } => &[1],
        Question::Sheet => &[1, 4],
        Question::Of(Asked::Line { .. }) => &[4],
        Question::Of(Asked::Exercise { .. }) => &[],
    }
}

/// The rooms of an update, which hold the old sheet and its totals.
pub fn rooms_with(old: &Sheet) -> Vec<Array> {
    let widths = room_widths(Question::Sheet).iter().copied();
    let rooms = widths.zip(old.rooms());
    rooms
        .map(|(width, entries)| Array::holding(width, entries))
        .collect()
}

/// The rooms of a mending: for the text, for the report, and for the number of the report's bytes.
pub fn rooms_for_mending(text: Room, report: Room) -> Vec<Array> {
    vec![
        Array::room(1, text),
        Array::room(1, report),
        Array::room(4, Room::Of(1)),
    ]
}

/// The text as it is handed over.
pub fn text_input(text: &Text) -> Vec<Array> {
    vec![Array::input(1, bytes_of(&text.0))]
}

/// What is asked of one statement where any will do: the line and the exercise of the one with the
/// greatest length, and turns that just suffice, if any do. Without statements it is one that is
/// not there.
pub fn of_longest(expected: &Expected) -> [Asked; 2] {
    let lengths = expected.verdicts.iter().map(|verdict| verdict.length());
    let numbers = expected.register.numbers.iter().copied();
    let known = lengths.map(|length| if length == NO_LENGTH { 0 } else { length });
    let (length, statement) = known.zip(numbers).max().unwrap_or((0, 1));
    let turns = length.min(MOST_TURNS);
    [
        Asked::Line { statement },
        Asked::Exercise { statement, turns },
    ]
}

/// A sheet to be updated where any will do: it is sound, and has every code. For a refused text it
/// has a statement for each line and one more, so that there is something to be left as found.
pub fn any_sheet(text: &Text, expected: &Expected) -> Sheet {
    let statements = match expected.refusal {
        None => expected.verdicts.len(),
        Some(_) => text.ended_lines() + 1,
    };
    sheets::in_turn(statements)
}

impl ListCall {
    /// The call that asks this of one statement of pairs.
    pub fn asking(asked: Asked) -> Self {
        let (name, number) = match asked {
            Asked::Line { .. } => ("pairs_line", 5),
            Asked::Exercise { .. } => ("pairs_exercise", 6),
        };
        list_call(name, number, Form::Pairs, Question::Of(asked))
    }

    /// How many rooms it takes.
    pub fn rooms(&self) -> usize {
        room_widths(self.question).len()
    }

    /// How many entries the answer to these lists has in each room. For refused lists it is what it
    /// would be if they were accepted, or more, so that there is something to be left as found.
    pub fn answer_length(&self, lists: &Lists, expected: &Expected) -> usize {
        match (self.question, expected.refusal) {
            (Question::Of(_), None) => expected.answer_lengths(self.question).iter().sum(),
            (Question::Kinds, _) => lists.objectors.len(),
            _ => lists.marks.len(),
        }
    }

    /// The same for every room that it takes.
    pub fn answer_lengths(&self, lists: &Lists, expected: &Expected) -> Vec<usize> {
        vec![self.answer_length(lists, expected); self.rooms()]
    }

    /// Every room just as long as the answer.
    pub fn fitting(&self, lists: &Lists, expected: &Expected) -> Vec<Room> {
        rooms::fitting(&self.answer_lengths(lists, expected))
    }

    /// The lists in the order in which this call takes them.
    pub fn inputs(&self, lists: &Lists) -> Vec<Array> {
        let (first, second) = match self.form {
            Form::Pairs => (&lists.objectors, &lists.targets),
            Form::Moves => (&lists.targets, &lists.objectors),
        };
        let marks = lists.marks.iter().map(|mark| u32::from(*mark)).collect();
        vec![
            Array::input(1, marks),
            Array::input(4, first.clone()),
            Array::input(4, second.clone()),
        ]
    }
}

impl TextCall {
    /// Every call on a text; those that ask of one statement ask of the one with the greatest length.
    pub fn every(expected: &Expected) -> Vec<Self> {
        let asked = of_longest(expected);
        let (statement, _) = Question::Of(asked[0]).numbers();
        let asking = asked.map(TextCall::asking);
        [&TEXT_CALLS[..], &asking, &[TextCall::reason(statement)]].concat()
    }

    /// The call for the reason for the statement with this number.
    pub fn reason(statement: u32) -> Self {
        text_call("reason", 25, Question::Reason { statement })
    }

    /// The call that asks this of one statement of a text.
    pub fn asking(asked: Asked) -> Self {
        let (name, number) = match asked {
            Asked::Line { .. } => ("text_line", 23),
            Asked::Exercise { .. } => ("text_exercise", 24),
        };
        text_call(name, number, Question::Of(asked))
    }

    /// How many rooms it takes.
    pub fn rooms(&self) -> usize {
        room_widths(self.question).len()
    }

    /// How many entries the answer to this text has in each room. For a refused text it is an entry
    /// for each line and one more, so that there is something to be left as found.
    pub fn answer_lengths(&self, text: &Text, expected: &Expected) -> Vec<usize> {
        match expected.refusal {
            None => expected.answer_lengths(self.question),
            Some(_) => vec![text.ended_lines() + 1; self.rooms()],
        }
    }

    /// Every room just as long as the answer.
    pub fn fitting(&self, text: &Text, expected: &Expected) -> Vec<Room> {
        rooms::fitting(&self.answer_lengths(text, expected))
    }
}
