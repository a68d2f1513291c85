//! The catalogue, by 02's sentences on it: a line for each statement, with its objectors behind it. A
//! text is cut into lines and a line into its fields, and each row of the refusals says by itself
//! where its fault comes first. To write one, all objections are looked through for every statement.

use super::answer::{bytes_of, is_short, Answer};
use super::number::{self, Number};
use super::refusals::{placeless, Refusal, MOST_OBJECTIONS, MOST_STATEMENTS, SHORT_ROOM};
use super::register::{Register, MOST_BYTES};
use crate::inputs::text::Text;
use std::collections::{HashMap, HashSet};

/// How many bytes a text of either form may have, and how many statements and objectors.
#[derive(Clone, Copy)]
pub struct Most {
    pub bytes: usize,
    pub statements: usize,
    pub objectors: usize,
}

const LIMITS: Most = Most {
    bytes: MOST_BYTES,
    statements: MOST_STATEMENTS,
    objectors: MOST_OBJECTIONS,
};

/// The catalogue of a register: the line of each statement, then its objectors in their order.
pub fn catalogued(register: &Register) -> String {
    let lists = &register.lists;
    let number =
        |place: usize| number::written(register.numbers[place]).expect("the code of a number");
    let line = |place: usize| {
        let against = lists.objections().filter(|(_, target)| *target == place);
        let behind: String = against.map(|(by, _)| format!("\t{}", number(by))).collect();
        format!(
            "S\t{}\t{}{behind}\n",
            number(place),
            mark(lists.marks[place] == 1)
        )
    };
    (0..register.numbers.len()).map(line).collect()
}

fn mark(unread: bool) -> char {
    match unread {
        true => 'U',
        false => 'R',
    }
}

/// The old form of one catalogue. The text is empty where there is a refusal.
#[derive(Default)]
pub struct OldForm {
    pub refusal: Option<Refusal>,
    pub text: Text,
}

/// A line that was read.
struct Card {
    number: Number,
    unread: bool,
    objectors: Vec<Number>,
}

impl OldForm {
    pub fn of(catalogue: &Text) -> Self {
        OldForm::within(catalogue, LIMITS)
    }

    /// The same with other limits.
    pub fn within(catalogue: &Text, most: Most) -> Self {
        match cards(&catalogue.0, most).and_then(|cards| written(&cards, most)) {
            Ok(text) => OldForm {
                refusal: None,
                text,
            },
            Err(refusal) => OldForm {
                refusal: Some(refusal),
                ..OldForm::default()
            },
        }
    }

    /// The number of the refusal and its place, or 0 and 0.
    pub fn refused_as(&self) -> (u32, u32) {
        let numbers = |refusal: Refusal| (refusal.number, refusal.place);
        self.refusal.map_or((0, 0), numbers)
    }

    /// The answer where the room has this length.
    pub fn answer(&self, room_length: usize) -> Answer {
        let rooms = vec![bytes_of(&self.text.0)];
        let short = is_short(&rooms, &[room_length]).then_some(SHORT_ROOM);
        Answer::first_of(&[self.refusal, short], self.text.0.len() as u32, rooms)
    }

    /// How many bytes it has. For a refused catalogue it is a few, so that there is something to be
    /// left as found.
    pub fn answer_length(&self) -> usize {
        match self.refusal {
            None => self.text.0.len(),
            Some(_) => 9,
        }
    }
}

/// The lines of a catalogue that has no fault but, perhaps, too long an old form.
fn cards(text: &[u8], most: Most) -> Result<Vec<Card>, Refusal> {
    if text.len() > most.bytes {
        return Err(placeless(1));
    }
    if text.last().is_some_and(|byte| *byte != b'\n') {
        return Err(placeless(2));
    }
    let lines = text.split_inclusive(|byte| *byte == b'\n');
    let lines: Vec<Option<Card>> = lines.map(|line| card(&line[..line.len() - 1])).collect();
    if let Some(refusal) = first_by_line(&lines, most) {
        return Err(refusal);
    }
    let cards: Vec<Card> = lines.into_iter().flatten().collect();
    match first_over_all(&cards) {
        Some(refusal) => Err(refusal),
        None => Ok(cards),
    }
}

/// A line without the byte that ends it; a spoiled line is None.
fn card(line: &[u8]) -> Option<Card> {
    let fields: Vec<&[u8]> = line.split(|byte| *byte == b'\t').collect();
    let [b"S", number, mark, objectors @ ..] = &fields[..] else {
        return None;
    };
    let unread = match *mark {
        b"R" => false,
        b"U" => true,
        _ => return None,
    };
    let objectors: Option<Vec<Number>> = objectors.iter().map(|by| Number::read(by)).collect();
    Some(Card {
        number: Number::read(number)?,
        unread,
        objectors: objectors?,
    })
}

/// The first line that has one of the faults that are looked for line by line, and the first of its
/// faults in 02's order.
fn first_by_line(lines: &[Option<Card>], most: Most) -> Option<Refusal> {
    let (mut issued, mut named) = (HashMap::new(), 0);
    for (at, line) in lines.iter().enumerate() {
        let rows = match line {
            None => vec![(3, true)],
            Some(card) => {
                named += card.objectors.len();
                vec![
                    (6, at >= most.statements),
                    (5, *issued.entry(card.number).or_insert(at) < at),
                    (9, named > most.objectors),
                ]
            }
        };
        if let Some((number, _)) = rows.into_iter().find(|(_, fault)| *fault) {
            return Some(on_line(number, at));
        }
    }
    None
}

/// The first line that names what no line lists; or, if there is none, the first that names an
/// objector twice.
fn first_over_all(cards: &[Card]) -> Option<Refusal> {
    let listed: HashSet<Number> = cards.iter().map(|card| card.number).collect();
    let is_unknown = |card: &Card| card.objectors.iter().any(|by| !listed.contains(by));
    let names_twice = |card: &Card| {
        let named: HashSet<&Number> = card.objectors.iter().collect();
        named.len() < card.objectors.len()
    };
    let unknown = cards.iter().position(is_unknown);
    let twice = cards.iter().position(names_twice);
    let unknown = unknown.map(|at| on_line(7, at));
    unknown.or(twice.map(|at| on_line(8, at)))
}

/// The refusal of the line at this index.
fn on_line(number: u32, at: usize) -> Refusal {
    let place = at as u32 + 1;
    Refusal { number, place }
}

/// The statement lines, then the objections of each line in their order.
fn written(cards: &[Card], most: Most) -> Result<Text, Refusal> {
    let statement = |card: &Card| format!("S\t{}\t{}", card.number, mark(card.unread));
    let objections = |card: &Card| -> Vec<String> {
        let against = |by: &Number| format!("O\t{by}\t{}", card.number);
        card.objectors.iter().map(against).collect()
    };
    let statements = cards.iter().map(statement);
    let lines: Vec<String> = statements
        .chain(cards.iter().flat_map(objections))
        .collect();
    let text = Text::of_lines(&lines);
    match text.0.len() > most.bytes {
        true => Err(placeless(1)),
        false => Ok(text),
    }
}
