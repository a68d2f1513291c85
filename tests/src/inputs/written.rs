//! Registers with the line of argument and the class exercise of every statement written out: those
//! of document 01 that have statements, and some more. Tabs are shown as spaces, as they are in 01.

use super::examples::Example;
use super::numbers::written_as;
use super::text::Text;

/// What is asked of one statement: its line of argument, which it begins itself, and the answers to
/// the exercise with 0 to 6 turns.
pub struct Row {
    line: &'static str,
    within: &'static str,
}

/// A register, and what is written out of its statements.
pub struct Written<R: 'static> {
    pub name: &'static str,
    /// None for an example of 01, which is found by its name
    text: Option<&'static str>,
    /// a row for each statement, in listed order
    pub rows: &'static [R],
}

pub const WRITTEN: [Written<Row>; 18] = [
    of_01("one read", &[row("1", "1111111")]),
    of_01("one unread", &[row("1", "0000000")]),
    of_01("one read that objects to itself", &[row("1", "0000000")]),
    of_01(
        "two that object to each other",
        &[row("1", "0000000"), row("2", "0000000")],
    ),
    of_01(
        "a circle of three",
        &[
            row("1", "0000000"),
            row("2", "0000000"),
            row("3", "0000000"),
        ],
    ),
    of_01(
        "the listing",
        &[
            row("101", "0000000"),
            row("102", "0000000"),
            row("103 104", "0222222"),
            row("104", "1111111"),
        ],
    ),
    of_01(
        "an unread one falls, and one stands by it",
        &[
            row("1 2", "0222222"),
            row("2", "1111111"),
            row("3 1 2", "0011111"),
        ],
    ),
    of_01(
        "an unread one objects",
        &[row("1", "0000000"), row("2", "0000000")],
    ),
    of_01(
        "a chain down to an unread one",
        &[
            row("1 2 3 4", "0002222"),
            row("2 3 4", "0011111"),
            row("3 4", "0222222"),
            row("4", "1111111"),
        ],
    ),
    of_01(
        "a finish of that chain",
        &[
            row("1 4", "0222222"),
            row("2 3 4", "0011111"),
            row("3 4", "0222222"),
            row("4", "1111111"),
        ],
    ),
    of_01(
        "felling in three turns",
        &[
            row("5", "1111111"),
            row("6 5", "0222222"),
            row("7 6 5", "0011111"),
        ],
    ),
    of_01("the greatest number", &[row("99999999", "0000000")]),
    written(
        "the earliest listed, which is neither the least number nor the first objection",
        "S 8 R\nS 3 R\nS 5 R\nO 3 5\nO 8 5\n",
        &[
            row("8", "1111111"),
            row("3", "1111111"),
            row("5 8", "0222222"),
        ],
    ),
    written(
        "what falls goes on by the least length, though it is listed last",
        "S 1 R\nS 2 R\nS 4 R\nS 3 R\nO 1 4\nO 3 4\nO 2 1\nO 3 2\n",
        &[
            row("1 2 3", "0011111"),
            row("2 3", "0222222"),
            row("4 3", "0222222"),
            row("3", "1111111"),
        ],
    ),
    written(
        "what stands goes on by the greatest length, though it is listed last",
        "S 10 R\nS 20 R\nS 50 R\nS 30 R\nS 40 R\nO 20 50\nO 40 50\nO 10 20\nO 20 30\nO 30 40\n",
        &[
            row("10", "1111111"),
            row("20 10", "0222222"),
            row("50 40 30 20 10", "0000111"),
            row("30 20 10", "0011111"),
            row("40 30 20 10", "0002222"),
        ],
    ),
    written(
        "every length up to 8",
        "S 9 R\nS 8 R\nS 7 R\nS 6 R\nS 5 R\nS 4 R\nS 3 R\nS 2 R\nS 1 R\n\
         O 1 2\nO 2 3\nO 3 4\nO 4 5\nO 5 6\nO 6 7\nO 7 8\nO 8 9\n",
        &[
            row("9 8 7 6 5 4 3 2 1", "0000000"),
            row("8 7 6 5 4 3 2 1", "0000000"),
            row("7 6 5 4 3 2 1", "0000001"),
            row("6 5 4 3 2 1", "0000022"),
            row("5 4 3 2 1", "0000111"),
            row("4 3 2 1", "0002222"),
            row("3 2 1", "0011111"),
            row("2 1", "0222222"),
            row("1", "1111111"),
        ],
    ),
    written(
        "a line with numbers of both forms",
        "S 1987.14 R\nS 1987 R\nS 2099.9999 R\nS 1000.1 U\nO 1987 2099.9999\nO 1987.14 1987\n\
         O 2099.9999 1000.1\n",
        &[
            row("1987.14", "1111111"),
            row("1987 1987.14", "0222222"),
            row("2099.9999 1987 1987.14", "0011111"),
            row("1000.1 2099.9999 1987 1987.14", "0002222"),
        ],
    ),
    written(
        "the earliest listed, which is a year number and has the greatest code",
        "S 1987.14 R\nS 5 R\nS 1987.1 R\nS 7 R\nO 5 7\nO 1987.1 7\nO 1987.14 7\n",
        &[
            row("1987.14", "1111111"),
            row("5", "1111111"),
            row("1987.1", "1111111"),
            row("7 1987.14", "0222222"),
        ],
    ),
];

const fn row(line: &'static str, within: &'static str) -> Row {
    Row { line, within }
}

pub const fn of_01<R>(name: &'static str, rows: &'static [R]) -> Written<R> {
    Written {
        name,
        text: None,
        rows,
    }
}

pub const fn written<R>(name: &'static str, text: &'static str, rows: &'static [R]) -> Written<R> {
    Written {
        name,
        text: Some(text),
        rows,
    }
}

impl Row {
    /// The codes of the numbers on the line.
    pub fn line(&self) -> Vec<u32> {
        let words = self.line.split(' ');
        words.map(|word| written_as(word).code()).collect()
    }

    /// The answers to the exercise, the first with 0 turns.
    pub fn within(&self) -> Vec<u32> {
        let answer = |byte: u8| u32::from(byte - b'0');
        self.within.bytes().map(answer).collect()
    }
}

impl<R> Written<R> {
    pub fn text(&self) -> Text {
        match self.text {
            Some(text) => Text::typed(text),
            None => Example::named(self.name).text(),
        }
    }
}
