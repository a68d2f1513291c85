//! The wider rule for reasons that stood before: every objection that is reached along objections
//! which are not idle, those that fell later than need be too. What is printed now has no other
//! objection; and for an open statement, which hangs on standoffs alone, nothing has changed.

use super::rows::{self, Row};
use crate::library::session::Session;
use std::collections::HashSet;

/// Holds a printed reason against the wider rule, which goes by the rows of the whole listing.
pub fn hold(session: &mut Session, listing: &str, reason: &str) -> Result<(), String> {
    session.count();
    let (number, label) = rows::asked(reason)?;
    let wide = rows_before(listing, number);
    let printed: Vec<&str> = rows::objections(reason).map(|row| row.whole).collect();
    if label == "open" && printed != wide {
        return Err(format!("the reason for {number} is not what it was"));
    }
    let wide: HashSet<&str> = wide.into_iter().collect();
    match printed.iter().find(|row| !wide.contains(*row)) {
        None => Ok(()),
        Some(row) => Err(format!("the reason for {number} had no {row:?} before")),
    }
}

/// The rows of the objections that the reason for this statement had by the wider rule.
fn rows_before<'a>(listing: &'a str, asked: &str) -> Vec<&'a str> {
    let is_walked = |row: &Row| row.kind != "idle";
    let walked: Vec<Row> = rows::objections(listing).filter(is_walked).collect();
    let mut reached = HashSet::from([asked]);
    loop {
        let before = reached.len();
        for row in &walked {
            if reached.contains(row.target) {
                reached.insert(row.objector);
            }
        }
        if reached.len() == before {
            break;
        }
    }
    let within = walked.iter().filter(|row| reached.contains(row.target));
    within.map(|row| row.whole).collect()
}
