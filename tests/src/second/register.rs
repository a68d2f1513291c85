//! A register text as a whole: refused as the rows of 01's table say, or taken over into lists.
//! Each row says by itself whether a line has its fault, by what comes before that line, whatever
//! else is wrong. The first line that has a fault is refused, for the first fault in 01's order.

use super::number::Number;
use super::refusals::{placeless, Refusal, MOST_OBJECTIONS, MOST_STATEMENTS};
use super::text::{self, Line};
use crate::inputs::lists::Lists;
use std::collections::HashMap;

pub const MOST_BYTES: usize = 65_535;

/// A register that was accepted: the numbers of its statements in listed order, each by its code, and
/// the rest by places.
#[derive(Default)]
pub struct Register {
    pub numbers: Vec<u32>,
    pub lists: Lists,
}

impl Register {
    /// Of lists, in which statements are told by their places.
    pub fn of_places(lists: &Lists) -> Self {
        Register {
            numbers: (0..lists.marks.len() as u32).collect(),
            lists: lists.clone(),
        }
    }
}

/// The lines of a text, and on which of them each number and each pair comes first.
struct Page {
    lines: Vec<Option<Line>>,
    /// for each line, how many of its kind there are up to it and with it
    counts: Vec<usize>,
    first_objection: usize,
    issued: HashMap<Number, usize>,
    objected: HashMap<(Number, Number), usize>,
}

pub fn read(text: &[u8]) -> Result<Register, Refusal> {
    if text.len() > MOST_BYTES {
        return Err(placeless(1));
    }
    if text.last().is_some_and(|byte| *byte != b'\n') {
        return Err(placeless(2));
    }
    let page = Page::of(text::lines(text));
    let refusal = |at: usize| {
        let place = at as u32 + 1;
        page.fault(at).map(|number| Refusal { number, place })
    };
    match (0..page.lines.len()).find_map(refusal) {
        Some(refusal) => Err(refusal),
        None => Ok(page.register()),
    }
}

impl Page {
    fn of(lines: Vec<Option<Line>>) -> Self {
        let mut page = Page {
            counts: Vec::new(),
            first_objection: lines.len(),
            issued: HashMap::new(),
            objected: HashMap::new(),
            lines,
        };
        let (mut statements, mut objections, mut spoiled) = (0, 0, 0);
        for (at, line) in page.lines.iter().enumerate() {
            let count = match *line {
                Some(Line::Statement { number, .. }) => {
                    page.issued.entry(number).or_insert(at);
                    &mut statements
                }
                Some(Line::Objection { objector, target }) => {
                    page.objected.entry((objector, target)).or_insert(at);
                    page.first_objection = page.first_objection.min(at);
                    &mut objections
                }
                None => &mut spoiled,
            };
            *count += 1;
            page.counts.push(*count);
        }
        page
    }

    /// The first of 01's rows that this line has the fault of.
    fn fault(&self, at: usize) -> Option<u32> {
        let issued = |number: Number| self.issued.get(&number).is_some_and(|line| *line < at);
        let rows = match self.lines[at] {
            None => vec![(3, true)],
            Some(Line::Statement { number, .. }) => vec![
                (4, self.first_objection < at),
                (6, self.counts[at] > MOST_STATEMENTS),
                (5, issued(number)),
            ],
            Some(Line::Objection { objector, target }) => vec![
                (9, self.counts[at] > MOST_OBJECTIONS),
                (7, !issued(objector) || !issued(target)),
                (8, self.objected[&(objector, target)] < at),
            ],
        };
        let first = rows.into_iter().find(|(_, fault)| *fault);
        first.map(|(number, _)| number)
    }

    /// The register of a page without faults. Statements come first, so that the line on which a
    /// number is issued, counted from 0, is its place.
    fn register(&self) -> Register {
        let place = |number: Number| self.issued[&number] as u32;
        let (mut numbers, mut marks, mut pairs) = (Vec::new(), Vec::new(), Vec::new());
        for line in self.lines.iter().flatten() {
            match *line {
                Line::Statement { number, unread } => {
                    numbers.push(number.code());
                    marks.push(u8::from(unread));
                }
                Line::Objection { objector, target } => {
                    pairs.push((place(objector), place(target)));
                }
            }
        }
        let lists = Lists::new(marks, &pairs);
        Register { numbers, lists }
    }
}
