//! Every register of up to three statements, through every call, with rooms of many lengths; and
//! once more with the pairs in another order.

use super::Test;
use crate::inputs::{rooms, small};
use crate::library::call::{ListCall, LIST_CALLS};
use crate::library::session::Session;
use crate::random::Random;
use crate::second::expected::Expected;

pub fn tests() -> Vec<Test> {
    let test = |call: &'static ListCall| {
        let name = format!("every register up to 3 statements: {}", call.name);
        Test::new(name, move |session| hold_all(session, call))
    };
    LIST_CALLS.iter().map(test).collect()
}

fn hold_all(session: &mut Session, call: &ListCall) -> Result<(), String> {
    let mut random = Random::for_test("the order of the pairs");
    for statements in 0..=3 {
        for number in 0..small::count(statements) {
            let lists = small::register(statements, number);
            let expected = Expected::of_lists(&lists);
            for rooms in rooms::around(&call.answer_lengths(&lists, &expected)) {
                session.hold_list_call(call, &lists, &expected, &rooms)?;
            }
            let lists = lists.reordered(&mut random);
            let expected = Expected::of_lists(&lists);
            let rooms = call.fitting(&lists, &expected);
            session.hold_list_call(call, &lists, &expected, &rooms)?;
        }
    }
    Ok(())
}
