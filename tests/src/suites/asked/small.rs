//! Every statement of every register of up to three: its line of argument with rooms of many
//! lengths, and the exercise with every number of turns. Texts, which take longer, get some of the
//! rooms and turns. The pairs are in a random order, so that the objector which is listed first is
//! often not that of the first pair.

use super::{hold_exercises, Test, TURNS};
use crate::inputs::handed::Handed;
use crate::inputs::{rooms, small};
use crate::library::session::Session;
use crate::random::Random;
use crate::second::expected::Expected;

/// How many rooms, or numbers of turns, each statement of a text gets.
const OF_TEXTS: usize = 3;

/// What is held of one register.
type Hold = fn(&mut Session, &mut Random, &Handed) -> Result<(), String>;

pub fn tests() -> Vec<Test> {
    vec![
        test("every register up to 3 statements: line", hold_rooms),
        test("every register up to 3 statements: exercise", hold_turns),
    ]
}

fn test(name: &'static str, hold: Hold) -> Test {
    Test::new(name, move |session| hold_each(session, name, hold))
}

fn hold_each(session: &mut Session, name: &str, hold: Hold) -> Result<(), String> {
    let mut random = Random::for_test(name);
    for statements in 1..=3 {
        for number in 0..small::count(statements) {
            let lists = small::register(statements, number).reordered(&mut random);
            for handed in Handed::both(&mut random, &lists) {
                hold(session, &mut random, &handed)?;
            }
        }
    }
    Ok(())
}

fn hold_rooms(session: &mut Session, random: &mut Random, handed: &Handed) -> Result<(), String> {
    let expected = Expected::of(handed);
    for statement in &expected.register.numbers {
        let rooms = rooms::around(&[expected.line(*statement).len()]);
        for room in some(random, handed, rooms.concat()) {
            session.hold_line(handed, &expected, *statement, room)?;
        }
    }
    Ok(())
}

fn hold_turns(session: &mut Session, random: &mut Random, handed: &Handed) -> Result<(), String> {
    let expected = Expected::of(handed);
    for statement in &expected.register.numbers {
        let turns = some(random, handed, TURNS.to_vec());
        hold_exercises(session, handed, &expected, &[*statement], &turns)?;
    }
    Ok(())
}

/// All of these for lists, and some at random for a text.
fn some<T>(random: &mut Random, handed: &Handed, mut all: Vec<T>) -> Vec<T> {
    if matches!(handed, Handed::Text(_)) {
        random.shuffle(&mut all);
        all.truncate(OF_TEXTS);
    }
    all
}
