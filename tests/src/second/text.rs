//! The lines of a register text, by 01's sentences on them: a line is cut into its fields, and is
//! what its fields are, or is spoiled.

use super::number::Number;

/// A line that was read.
#[derive(Clone, Copy, Debug, PartialEq, Eq)]
pub enum Line {
    Statement { number: Number, unread: bool },
    Objection { objector: Number, target: Number },
}

/// Each line of a text whose last line is ended. A spoiled line is None.
pub fn lines(text: &[u8]) -> Vec<Option<Line>> {
    let lines = text.split_inclusive(|byte| *byte == b'\n');
    lines.map(|line| read(&line[..line.len() - 1])).collect()
}

/// A line without the byte that ends it.
pub fn read(line: &[u8]) -> Option<Line> {
    let fields: Vec<&[u8]> = line.split(|byte| *byte == b'\t').collect();
    let statement = |number: &[u8], unread: bool| {
        Number::read(number).map(|number| Line::Statement { number, unread })
    };
    match fields[..] {
        [b"S", number, b"R"] => statement(number, false),
        [b"S", number, b"U"] => statement(number, true),
        [b"O", objector, target] => Number::read(objector)
            .zip(Number::read(target))
            .map(|(objector, target)| Line::Objection { objector, target }),
        _ => None,
    }
}
