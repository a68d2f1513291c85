//! Registers of which both forms are written out, and catalogues of which the refusal is: the second
//! solver must come to them, and so must the library. The loan of the folder examples is one of them.

use super::{answered, hold, hold_rooms, hold_there, Test};
use crate::inputs::catalogues::{Both, Refused, BOTH, REFUSED};
use crate::inputs::text::Text;
use crate::library::session::Session;

const LOAN: &[u8] = include_bytes!("../../../../examples/loan.txt");
const LOAN_CATALOGUE: &[u8] = include_bytes!("../../../../examples/loan.catalogue");

pub fn tests() -> Vec<Test> {
    let both = |both: &'static Both| {
        let name = format!("catalogue, written out: {}", both.name);
        Test::new(name, move |session| hold_both(session, both))
    };
    let refused = |refused: &'static Refused| {
        let name = format!("catalogue, refused: {}", refused.name);
        Test::new(name, move |session| {
            hold_rooms(session, &refused.catalogue())?;
            answered(session, &refused.catalogue(), refused.refusal)
        })
    };
    let file = Test::new("catalogue, example file: loan", hold_loan);
    let refused = REFUSED.iter().map(refused).chain([file]);
    BOTH.iter().map(both).chain(refused).collect()
}

fn hold_both(session: &mut Session, both: &Both) -> Result<(), String> {
    hold_there(session, &both.text(), &both.catalogue())?;
    goes_back(session, &both.catalogue(), &both.back())
}

/// Its second objection and its third change places on the way.
fn hold_loan(session: &mut Session) -> Result<(), String> {
    let (text, catalogue) = (Text(LOAN.to_vec()), Text(LOAN_CATALOGUE.to_vec()));
    let mut lines: Vec<&[u8]> = LOAN.split_inclusive(|byte| *byte == b'\n').collect();
    lines.swap(6, 7);
    hold_there(session, &text, &catalogue)?;
    goes_back(session, &catalogue, &Text(lines.concat()))
}

fn goes_back(session: &mut Session, catalogue: &Text, right: &Text) -> Result<(), String> {
    let back = hold(session, catalogue)?.text;
    session.count();
    match back.0 == right.0 {
        true => hold_rooms(session, catalogue),
        false => Err(format!("the second solver goes back to {back}")),
    }
}
