//! What each call ought to answer to one input: worked out once, then asked for every question and
//! every length of the rooms.

use super::answer::{bytes_of, is_short, Answer};
use super::exercise::MOST_TURNS;
use super::refusals::{self, Refusal};
use super::refusals::{SHORT_ROOM, TOO_MANY_TURNS, UNKNOWN_STATEMENT, UNSOUND_SHEET};
use super::register::{self, Register};
use super::verdict::Verdict;
use super::{argument, catalogue, exercise, kinds, listing, reason, rounds, sheet};
use crate::inputs::handed::Handed;
use crate::inputs::lists::Lists;
use crate::inputs::sheet::Sheet;
use crate::inputs::text::Text;

/// What a call is asked for, which decides the rooms it takes and what they get.
#[derive(Clone, Copy, Debug, PartialEq, Eq)]
pub enum Question {
    Labels,
    Lengths,
    Kinds,
    Listing,
    /// the catalogue, of a text only
    Catalogue,
    /// the sheet, of a text only
    Sheet,
    /// the reason for the statement with this number, of a text only
    Reason {
        statement: u32,
    },
    Of(Asked),
}

/// What is asked of one statement, which is told by number for a text and by place for lists.
#[derive(Clone, Copy, Debug, PartialEq, Eq)]
pub enum Asked {
    Line { statement: u32 },
    Exercise { statement: u32, turns: u32 },
}

impl Question {
    /// The statement and the turns that are asked, 0 where none are.
    pub fn numbers(self) -> (u32, u32) {
        match self {
            Question::Reason { statement } | Question::Of(Asked::Line { statement }) => {
                (statement, 0)
            }
            Question::Of(Asked::Exercise { statement, turns }) => (statement, turns),
            _ => (0, 0),
        }
    }
}

/// The answer to one input. All but the refusal is empty where there is one.
#[derive(Default)]
pub struct Expected {
    pub refusal: Option<Refusal>,
    pub register: Register,
    pub verdicts: Vec<Verdict>,
    pub kinds: Vec<(u32, u32)>,
}

impl Expected {
    pub fn of(handed: &Handed) -> Self {
        match handed {
            Handed::Lists(lists) => Expected::of_lists(lists),
            Handed::Text(text) => Expected::of_text(text),
        }
    }

    pub fn of_lists(lists: &Lists) -> Self {
        match refusals::of_lists(lists) {
            Some(refusal) => Expected::refused(refusal),
            None => Expected::accepted(Register::of_places(lists)),
        }
    }

    pub fn of_text(text: &Text) -> Self {
        match register::read(&text.0) {
            Err(refusal) => Expected::refused(refusal),
            Ok(register) => Expected::accepted(register),
        }
    }

    fn refused(refusal: Refusal) -> Self {
        Expected {
            refusal: Some(refusal),
            ..Expected::default()
        }
    }

    fn accepted(register: Register) -> Self {
        let verdicts = rounds::verdicts(&register.lists);
        let kind = |(objector, target): (usize, usize)| -> (u32, u32) {
            kinds::kind(verdicts[target], verdicts[objector])
        };
        let kinds = register.lists.objections().map(kind).collect();
        Expected {
            refusal: None,
            register,
            verdicts,
            kinds,
        }
    }

    /// The number of the refusal and its place, or 0 and 0.
    pub fn refused_as(&self) -> (u32, u32) {
        let numbers = |refusal: Refusal| (refusal.number, refusal.place);
        self.refusal.map_or((0, 0), numbers)
    }

    /// The answer where the rooms have these lengths: the first of 01's rows that applies, each of
    /// which says so whatever else is wrong, or what was asked for.
    pub fn answer(&self, question: Question, room_lengths: &[usize]) -> Answer {
        let rooms = self.entries(question);
        let (_, turns) = question.numbers();
        let rows = [
            self.refusal,
            self.is_unknown(question).then_some(UNKNOWN_STATEMENT),
            (turns > MOST_TURNS).then_some(TOO_MANY_TURNS),
            is_short(&rooms, room_lengths).then_some(SHORT_ROOM),
        ];
        Answer::first_of(&rows, self.value(question, &rooms), rooms)
    }

    /// The answer to an update of this sheet, which lies in the two rooms.
    pub fn updated(&self, old: &Sheet) -> Answer {
        let is_sound = sheet::is_sound(old, self.verdicts.len());
        let rows = [
            self.refusal,
            (!is_sound).then_some(UNSOUND_SHEET),
            (old.totals.len() < sheet::TOTALS).then_some(SHORT_ROOM),
        ];
        let rooms = self.sheet().rooms();
        Answer::first_of(&rows, self.value(Question::Sheet, &rooms), rooms)
    }

    /// How many entries each room gets if the call is accepted.
    pub fn answer_lengths(&self, question: Question) -> Vec<usize> {
        self.entries(question).iter().map(Vec::len).collect()
    }

    /// What each room gets if the call is accepted.
    fn entries(&self, question: Question) -> Vec<Vec<u32>> {
        let verdicts = self.verdicts.iter();
        match question {
            Question::Labels => vec![self.labels()],
            Question::Lengths => vec![verdicts.map(|verdict| verdict.length()).collect()],
            Question::Kinds => {
                let (kinds, lengths) = self.kinds.iter().copied().unzip();
                vec![kinds, lengths]
            }
            Question::Listing => vec![bytes_of(listing::listing(self).as_bytes())],
            Question::Catalogue => vec![bytes_of(self.catalogue().as_bytes())],
            Question::Sheet => self.sheet().rooms(),
            Question::Reason { statement } => vec![bytes_of(self.reason(statement).as_bytes())],
            Question::Of(Asked::Line { statement }) => vec![self.line(statement)],
            Question::Of(Asked::Exercise { .. }) => Vec::new(),
        }
    }

    /// The second number of the answer if the call is accepted and the rooms get this.
    fn value(&self, question: Question, rooms: &[Vec<u32>]) -> u32 {
        match question {
            Question::Of(Asked::Exercise { statement, turns }) => self.within(statement, turns),
            _ => rooms[0].len() as u32,
        }
    }

    pub fn labels(&self) -> Vec<u32> {
        self.verdicts
            .iter()
            .map(|verdict| verdict.label())
            .collect()
    }

    /// The catalogue of the register.
    pub fn catalogue(&self) -> String {
        catalogue::catalogued(&self.register)
    }

    /// The sheet of the register.
    pub fn sheet(&self) -> Sheet {
        sheet::of_codes(&self.labels())
    }

    /// Where this statement is listed, if it is.
    fn place(&self, statement: u32) -> Option<usize> {
        let mut numbers = self.register.numbers.iter();
        numbers.position(|number| *number == statement)
    }

    fn is_unknown(&self, question: Question) -> bool {
        let (statement, _) = question.numbers();
        let is_asked = matches!(question, Question::Reason { .. } | Question::Of(_));
        is_asked && self.place(statement).is_none()
    }

    /// The line of argument of this statement, or nothing where there is no such statement.
    pub fn line(&self, statement: u32) -> Vec<u32> {
        let of_place = |place| argument::line(&self.register.lists, &self.verdicts, place);
        let places = self.place(statement).map_or(Vec::new(), of_place);
        let number = |place: &usize| self.register.numbers[*place];
        places.iter().map(number).collect()
    }

    /// The reason for this statement as it is printed: its row, then those of the reason's
    /// objections. Nothing where there is no such statement.
    pub fn reason(&self, statement: u32) -> String {
        let of_place = |place: usize| {
            let lists = &self.register.lists;
            let entries = reason::entries(lists, &self.verdicts, &self.kinds, place);
            let objections = entries.iter().map(|entry| listing::objection(self, *entry));
            let first = listing::statement(self, place);
            std::iter::once(first).chain(objections).collect()
        };
        self.place(statement).map_or(String::new(), of_place)
    }

    /// The class exercise on this statement, or 0 where there is no such statement.
    pub fn within(&self, statement: u32, turns: u32) -> u32 {
        let of_place = |place: usize| exercise::within(self.verdicts[place], turns);
        self.place(statement).map_or(0, of_place)
    }
}
