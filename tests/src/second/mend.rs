//! Mending, by 02's sentences on it. Every line gets its fate, the statements' first and then the
//! objections'. What is kept is put down anew, and the report is read off the fates.

use super::answer::{bytes_of, is_short, Answer};
use super::number::Number;
use super::refusals::{placeless, Refusal, MOST_OBJECTIONS, MOST_STATEMENTS, SHORT_ROOM};
use super::register::MOST_BYTES;
use super::text::{self, Line};
use crate::inputs::text::Text;
use std::collections::{HashMap, HashSet};

/// The causes by 01's numbers.
pub const UNENDED: u32 = 2;
pub const SPOILED: u32 = 3;
pub const LATE: u32 = 4;
pub const SECOND: u32 = 5;
pub const STATEMENT_TOO_MANY: u32 = 6;
pub const UNKNOWN: u32 = 7;
pub const REPEATED: u32 = 8;
pub const OBJECTION_TOO_MANY: u32 = 9;

/// What becomes of a line; what is dropped has its cause.
#[derive(Clone, Copy, Debug, PartialEq, Eq)]
pub enum Fate {
    Kept,
    Moved,
    Dropped(u32),
}

/// How many statements and how many objections may be kept.
#[derive(Clone, Copy)]
pub struct Most {
    pub statements: usize,
    pub objections: usize,
}

const LIMITS: Most = Most {
    statements: MOST_STATEMENTS,
    objections: MOST_OBJECTIONS,
};

/// What comes of one text. All but the refusal is empty where there is one.
#[derive(Default)]
pub struct Mending {
    pub refusal: Option<Refusal>,
    /// of each line, in the order of the text
    pub fates: Vec<Fate>,
    pub text: Text,
    pub report: String,
}

/// What is kept so far: each statement's number and whether it is unread, and each objection.
struct Kept {
    most: Most,
    statements: Vec<(Number, bool)>,
    places: HashMap<Number, usize>,
    objections: Vec<(Number, Number)>,
    objected: HashSet<(Number, Number)>,
}

impl Mending {
    pub fn of(text: &Text) -> Self {
        Mending::within(text, LIMITS)
    }

    /// The same with other limits on what is kept.
    pub fn within(text: &Text, most: Most) -> Self {
        if text.0.len() > MOST_BYTES {
            return Mending {
                refusal: Some(placeless(1)),
                ..Mending::default()
            };
        }
        let lines = lines(&text.0);
        let mut kept = Kept::new(most);
        let settled = lines.iter().map(|line| match line {
            Ok(_) => Fate::Kept,
            Err(cause) => Fate::Dropped(*cause),
        });
        let mut fates: Vec<Fate> = settled.collect();
        let mut late = false;
        for (line, fate) in lines.iter().zip(&mut fates) {
            match *line {
                Ok(Line::Statement { number, unread }) => {
                    *fate = kept.statement(number, unread, late);
                }
                Ok(Line::Objection { .. }) => late = true,
                Err(_) => (),
            }
        }
        for (line, fate) in lines.iter().zip(&mut fates) {
            if let Ok(Line::Objection { objector, target }) = *line {
                *fate = kept.objection(objector, target);
            }
        }
        Mending {
            refusal: None,
            text: kept.text(),
            report: report(&fates),
            fates,
        }
    }

    /// The answer where the rooms for text and report have these lengths. A third room gets how many
    /// bytes the report has.
    pub fn answer(&self, room_lengths: &[usize]) -> Answer {
        let rooms = vec![
            bytes_of(&self.text.0),
            bytes_of(self.report.as_bytes()),
            vec![self.report.len() as u32],
        ];
        let short = is_short(&rooms, room_lengths).then_some(SHORT_ROOM);
        Answer::first_of(&[self.refusal, short], self.text.0.len() as u32, rooms)
    }

    /// How many bytes text and report have. For a refused text it is a few, so that there is
    /// something to be left as found.
    pub fn answer_lengths(&self) -> [usize; 2] {
        match self.refusal {
            None => [self.text.0.len(), self.report.len()],
            Some(_) => [9; 2],
        }
    }
}

/// Each line, or the cause for which it goes by itself.
fn lines(text: &[u8]) -> Vec<Result<Line, u32>> {
    let line = |line: &[u8]| match line.split_last() {
        Some((b'\n', line)) => text::read(line).ok_or(SPOILED),
        _ => Err(UNENDED),
    };
    text.split_inclusive(|byte| *byte == b'\n')
        .map(line)
        .collect()
}

fn report(fates: &[Fate]) -> String {
    let row = |(at, fate): (usize, &Fate)| match fate {
        Fate::Kept => None,
        Fate::Moved => Some(format!("{}\tmoved\t{LATE}\n", at + 1)),
        Fate::Dropped(cause) => Some(format!("{}\tdropped\t{cause}\n", at + 1)),
    };
    fates.iter().enumerate().filter_map(row).collect()
}

impl Kept {
    fn new(most: Most) -> Self {
        Kept {
            most,
            statements: Vec::new(),
            places: HashMap::new(),
            objections: Vec::new(),
            objected: HashSet::new(),
        }
    }

    fn statement(&mut self, number: Number, unread: bool, late: bool) -> Fate {
        if self.leave_unread(number) {
            return Fate::Dropped(SECOND);
        }
        if self.statements.len() == self.most.statements {
            return Fate::Dropped(STATEMENT_TOO_MANY);
        }
        self.places.insert(number, self.statements.len());
        self.statements.push((number, unread));
        match late {
            true => Fate::Moved,
            false => Fate::Kept,
        }
    }

    fn objection(&mut self, objector: Number, target: Number) -> Fate {
        let known = |number: Number| self.places.contains_key(&number);
        if !known(target) {
            return Fate::Dropped(UNKNOWN);
        }
        if !known(objector) {
            self.leave_unread(target);
            return Fate::Dropped(UNKNOWN);
        }
        if self.objected.contains(&(objector, target)) {
            return Fate::Dropped(REPEATED);
        }
        if self.objections.len() == self.most.objections {
            self.leave_unread(target);
            return Fate::Dropped(OBJECTION_TOO_MANY);
        }
        self.objected.insert((objector, target));
        self.objections.push((objector, target));
        Fate::Kept
    }

    /// Marks the statement with this number as unread, and answers whether there is one.
    fn leave_unread(&mut self, number: Number) -> bool {
        let place = self.places.get(&number);
        if let Some(place) = place {
            self.statements[*place].1 = true;
        }
        place.is_some()
    }

    fn text(&self) -> Text {
        let mark = |unread: bool| if unread { 'U' } else { 'R' };
        let statements = self.statements.iter();
        let statements =
            statements.map(|(number, unread)| format!("S\t{number}\t{}", mark(*unread)));
        let objections = self.objections.iter();
        let objections = objections.map(|(objector, target)| format!("O\t{objector}\t{target}"));
        Text::of_lines(&statements.chain(objections).collect::<Vec<_>>())
    }
}
