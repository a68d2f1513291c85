//! The reason for a statement that falls or stands never comes back to a statement that it has
//! passed, so the objections that are printed for it have no circle.

use super::rows::{self, Row};
use crate::library::session::Session;
use std::collections::HashSet;

/// Holds a printed reason: unless the statement is open, no objections of it go in a circle.
pub fn hold(session: &mut Session, reason: &str) -> Result<(), String> {
    let (number, label) = rows::asked(reason)?;
    if label == "open" {
        return Ok(());
    }
    session.count();
    match circle_in(reason).first() {
        None => Ok(()),
        Some(Row { whole, .. }) => Err(format!("the reason for {number} has a circle: {whole:?}")),
    }
}

/// The objections that are left when those go whose objector is no target, over and over. What goes
/// is in no circle; and if any are left, they can be followed from objector to objector without end.
fn circle_in(reason: &str) -> Vec<Row<'_>> {
    let mut left: Vec<Row> = rows::objections(reason).collect();
    loop {
        let before = left.len();
        let targets: HashSet<&str> = left.iter().map(|row| row.target).collect();
        left.retain(|row| targets.contains(row.objector));
        if left.len() == before {
            return left;
        }
    }
}
