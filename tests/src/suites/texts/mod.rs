//! The tests of the calls on register texts. What a text is refused for is said by the test itself
//! where it can be said beforehand, so that the second solver's reader is tried too.

mod damaged;
mod limits;
mod lines;
pub mod numbers;
pub mod order;
mod points;
mod refusals;
mod registers;
mod rooms;

use super::Test;
use crate::inputs::text::Text;
use crate::library::session::Session;
use crate::second::expected::Expected;

/// The refusal and line of a text that is accepted.
const ACCEPTED: (u32, usize) = (0, 0);

pub fn tests() -> Vec<Test> {
    let suites = [
        registers::tests(),
        lines::tests(),
        numbers::tests(),
        points::tests(),
        refusals::tests(),
        order::tests(),
        limits::tests(),
        rooms::tests(),
        damaged::tests(),
    ];
    suites.into_iter().flatten().collect()
}

/// Holds every call; the second solver must have come to this refusal and this line.
fn answered(session: &mut Session, text: &Text, refusal: (u32, usize)) -> Result<(), String> {
    let (number, line) = Expected::of_text(text).refused_as();
    if (number, line as usize) != refusal {
        return Err(format!(
            "{text}: the second solver has {number} {line}, and not {refusal:?}"
        ));
    }
    session.hold_text(text)
}
