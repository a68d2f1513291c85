//! A register text as bytes. Whether it is sound is for the library and the second solver to say,
//! so anything can be put into one of these.

use super::lists::Lists;
use crate::second::number::Number;
use std::fmt;

/// How many bytes of a text are shown where a test failed.
const SHOWN: usize = 240;

#[derive(Clone, Default)]
pub struct Text(pub Vec<u8>);

impl Text {
    /// A text that was typed with spaces for its tabs, as 01 shows it.
    pub fn typed(words: &str) -> Self {
        Text(words.replace(' ', "\t").into_bytes())
    }

    /// These lines, each ended by byte 10.
    pub fn of_lines<L: AsRef<[u8]>>(lines: &[L]) -> Self {
        let ended = |line: &L| [line.as_ref(), b"\n"].concat();
        Text(lines.iter().flat_map(ended).collect())
    }

    /// A sound register, its statements under these numbers in this order.
    pub fn written(lists: &Lists, numbers: &[Number]) -> Self {
        Text::of_lines(&lines_of(lists, numbers))
    }

    /// How many lines are ended.
    pub fn ended_lines(&self) -> usize {
        self.0.iter().filter(|byte| **byte == b'\n').count()
    }
}

/// The lines of a sound register: its statements, then its objections.
pub fn lines_of(lists: &Lists, numbers: &[Number]) -> Vec<String> {
    let mark = |mark: &u8| if *mark == 1 { 'U' } else { 'R' };
    let statement = |(number, unread): (&Number, &u8)| format!("S\t{number}\t{}", mark(unread));
    let objection = |(objector, target): (usize, usize)| {
        let (objector, target) = (numbers[objector], numbers[target]);
        format!("O\t{objector}\t{target}")
    };
    let statements = numbers.iter().zip(&lists.marks).map(statement);
    statements
        .chain(lists.objections().map(objection))
        .collect()
}

impl fmt::Display for Text {
    fn fmt(&self, out: &mut fmt::Formatter) -> fmt::Result {
        let start = &self.0[..self.0.len().min(SHOWN)];
        write!(out, "text[{}] \"{}\"", self.0.len(), start.escape_ascii())?;
        if self.0.len() > SHOWN {
            write!(out, " ..")?;
        }
        Ok(())
    }
}
