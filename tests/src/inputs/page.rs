//! A sound text of either form as lines, so that a test can spoil one or put one in, and know its
//! place.

use super::draft::Draft;
use super::text::{lines_of, Text};
use super::{lists::Lists, numbers};
use crate::random::Random;
use crate::second::number::Number;

#[derive(Clone)]
pub struct Page {
    /// the numbers of the statements in listed order
    pub numbers: Vec<Number>,
    /// the statement lines, then the objection lines, if it is no catalogue
    pub lines: Vec<String>,
}

impl Page {
    pub fn of(random: &mut Random, lists: &Lists) -> Self {
        let numbers = numbers::fitting(random, lists);
        let lines = lines_of(lists, &numbers);
        Page { numbers, lines }
    }

    /// The catalogue of sound lists under these numbers: as the objections come, each objector is put
    /// behind the line of its target.
    pub fn catalogue(lists: &Lists, numbers: &[Number]) -> Self {
        let mut lines = lines_of(&Lists::new(lists.marks.clone(), &[]), numbers);
        for (objector, target) in lists.objections() {
            lines[target] += &format!("\t{}", numbers[objector]);
        }
        let numbers = numbers.to_vec();
        Page { numbers, lines }
    }

    /// So many statements and so many random objections.
    pub fn random(random: &mut Random, statements: usize, objections: usize) -> Self {
        let lists = random_lists(random, statements, objections);
        Page::of(random, &lists)
    }

    /// The same as a catalogue.
    pub fn random_catalogue(random: &mut Random, statements: usize, objections: usize) -> Self {
        let lists = random_lists(random, statements, objections);
        Page::catalogue(&lists, &numbers::fitting(random, &lists))
    }

    pub fn text(&self) -> Text {
        Text::of_lines(&self.lines)
    }

    pub fn statements(&self) -> usize {
        self.numbers.len()
    }

    /// The index of the first objection line, of the middle one and of the last.
    pub fn objection_lines(&self) -> [usize; 3] {
        ends(self.statements(), self.lines.len())
    }

    /// The text with another line in the place of this one.
    pub fn replaced(&self, at: usize, line: &str) -> Text {
        let mut page = self.clone();
        page.lines[at] = line.to_string();
        page.text()
    }

    /// The text with one more line, which gets this index.
    pub fn with(&self, at: usize, line: &str) -> Text {
        let mut page = self.clone();
        page.lines.insert(at, line.to_string());
        page.text()
    }

    /// The objectors on a line of a catalogue.
    pub fn objectors(&self, at: usize) -> Vec<String> {
        self.lines[at]
            .split('\t')
            .skip(3)
            .map(String::from)
            .collect()
    }

    /// The same line with other objectors.
    pub fn naming<N: ToString>(&self, at: usize, objectors: &[N]) -> String {
        let head = self.lines[at].split('\t').take(3).map(String::from);
        let fields = head.chain(objectors.iter().map(N::to_string));
        fields.collect::<Vec<_>>().join("\t")
    }

    /// A number that is not issued here.
    pub fn unissued(&self, random: &mut Random) -> Number {
        loop {
            let number = numbers::any(random);
            if !self.numbers.contains(&number) {
                return number;
            }
        }
    }
}

fn random_lists(random: &mut Random, statements: usize, objections: usize) -> Lists {
    let mut draft = Draft::new(statements, objections);
    draft.leave_unread(random, 6);
    draft.add_random(random, objections);
    draft.mixed(random)
}

/// The first index of a range that is not empty, the middle one and the last.
pub fn ends(from: usize, to: usize) -> [usize; 3] {
    [from, (from + to) / 2, to - 1]
}
