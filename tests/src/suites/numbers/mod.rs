//! The tests of the two calls on a number by itself: the one reads what is written and gives its code,
//! the other writes the number of a code. Each must undo the other.

mod drawn;
mod meaning;
mod read;
mod written;

use super::Test;
use crate::library::array::Room;
use crate::library::session::Session;
use crate::second::number::{self, Number};

pub fn tests() -> Vec<Test> {
    let suites = [
        meaning::tests(),
        drawn::tests(),
        read::tests(),
        written::tests(),
    ];
    suites.into_iter().flatten().collect()
}

/// Holds the reading of this field, and of what it is read as the writing, which must bring it back.
fn hold_field(session: &mut Session, field: &[u8]) -> Result<(), String> {
    session.hold_number(field)?;
    let Some(number) = Number::read(field) else {
        return Ok(());
    };
    if number.to_string().as_bytes() != field {
        let field = field.escape_ascii();
        return Err(format!("the second solver reads {number} in \"{field}\""));
    }
    session.hold_number_text(number.code(), Room::Of(field.len()))
}

/// Holds the writing of the number with this code, and the reading of what is written, which must
/// bring the code back.
fn hold_code(session: &mut Session, code: u32) -> Result<(), String> {
    let written = number::written(code).unwrap_or_default();
    session.hold_number_text(code, Room::Of(written.len()))?;
    match Number::read(written.as_bytes()).map(Number::code) {
        None if written.is_empty() => Ok(()),
        Some(read) if read == code => session.hold_number(written.as_bytes()),
        read => Err(format!("the second solver reads {read:?} for {code}")),
    }
}
