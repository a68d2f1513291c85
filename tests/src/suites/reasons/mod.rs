//! The tests of the call for the reason for a statement, which is asked of texts only. Beside what
//! the second solver answers there is what a reason is good for: it comes to an end where the
//! statement is not open, and a register of that reason alone says the same of the statement.

mod alone;
mod circles;
mod examples;
mod limits;
mod meaning;
mod registers;
mod rooms;
mod rows;
mod wider;

use super::Test;
use crate::inputs::text::Text;
use crate::library::array::Room;
use crate::library::call::LISTING;
use crate::library::session::Session;
use crate::second::expected::Expected;
use crate::second::listing;
use std::collections::HashSet;

pub fn tests() -> Vec<Test> {
    let suites = [
        meaning::tests(),
        examples::tests(),
        registers::tests(),
        limits::tests(),
        rooms::tests(),
    ];
    suites.into_iter().flatten().collect()
}

/// Holds the reason for each of these statements in a room of just its length. Then its bytes, which
/// are the library's, are searched for a circle, held against the wider rule that stood before, and
/// made a register of that reason alone.
pub fn hold_reasons(
    session: &mut Session,
    text: &Text,
    expected: &Expected,
    statements: &[u32],
) -> Result<(), String> {
    let listing = hold_listing(session, text, expected)?;
    let listed: HashSet<&str> = listing.lines().collect();
    for statement in statements {
        let reason = expected.reason(*statement);
        session.hold_reason(text, expected, *statement, Room::Of(reason.len()))?;
        circles::hold(session, &reason)
            .and_then(|()| wider::hold(session, &listing, &reason))
            .map_err(|what| format!("{text}: {what}"))?;
        alone::hold(session, text, &listed, (*statement, &reason))?;
    }
    Ok(())
}

/// Holds the listing, and answers it.
fn hold_listing(session: &mut Session, text: &Text, expected: &Expected) -> Result<String, String> {
    let rooms = LISTING.fitting(text, expected);
    session.hold_text_call(&LISTING, text, expected, &rooms)?;
    Ok(listing::listing(expected))
}
