//! Statements that are not on the register, refused as 14 whatever the turns and the room, and more
//! turns than may be asked, refused as 15. Those among them are tried that a cut to fewer bits would
//! bring back, and codes that are nobody's, where the numbers beside them are issued.

use super::{hold_exercises, hold_lines, Test, TURNS};
use crate::inputs::draft::Draft;
use crate::inputs::handed::Handed;
use crate::inputs::lists::Lists;
use crate::inputs::numbers::{self, written_as, EDGES, NOBODYS};
use crate::inputs::text::Text;
use crate::library::array::Room;
use crate::library::session::Session;
use crate::random::Random;
use crate::second::expected::Expected;
use crate::second::number::Number;
use crate::suites::reasons::hold_reasons;
use crate::suites::refusals::outside;

/// More turns than 6; some have 0 to 6 in their lowest bits.
const TOO_MANY: [u32; 12] = [
    7,
    8,
    255,
    256,
    257,
    262,
    65_535,
    65_536,
    65_542,
    1 << 24,
    1 << 31,
    u32::MAX,
];

/// How many statements the registers have.
const SIZES: [usize; 6] = [0, 1, 2, 9, 60, 1_024];

pub fn tests() -> Vec<Test> {
    vec![
        Test::new("an unknown place: refusal 14", unknown_places),
        Test::new("an unknown number: refusal 14", unknown_numbers),
        Test::new("a code that is nobody's: refusal 14", nobodys_codes),
        Test::new("numbers that are places", numbers_as_places),
        Test::new("more than 6 turns: refusal 15", too_many_turns),
    ]
}

fn unknown_places(session: &mut Session) -> Result<(), String> {
    let mut random = Random::for_test("unknown places");
    for statements in SIZES {
        let lists = sound(&mut random, statements);
        for place in outside(statements) {
            hold_unknown(session, &Handed::Lists(lists.clone()), place)?;
        }
    }
    Ok(())
}

/// A register of so many statements, with some objections.
fn sound(random: &mut Random, statements: usize) -> Lists {
    let mut draft = Draft::new(statements, 300);
    draft.leave_unread(random, 5);
    draft.add_random(random, 2 * statements);
    draft.mixed(random)
}

/// Holds what is asked of one statement; the second solver must not know it.
fn hold_unknown(session: &mut Session, handed: &Handed, statement: u32) -> Result<(), String> {
    let expected = Expected::of(handed);
    if expected.register.numbers.contains(&statement) {
        return Err(format!("{statement} is on the register"));
    }
    for room in [Room::Null, Room::Of(0), Room::Of(1), Room::Of(7)] {
        session.hold_line(handed, &expected, statement, room)?;
        if let Handed::Text(text) = handed {
            session.hold_reason(text, &expected, statement, room)?;
        }
    }
    for turns in [0, 1, 6, 7, u32::MAX] {
        session.hold_exercise(handed, &expected, statement, turns)?;
    }
    Ok(())
}

/// The numbers at the edges, and for some that are issued their neighbours, and what is left of
/// them or added to them by a slip.
fn unknown_numbers(session: &mut Session) -> Result<(), String> {
    let mut random = Random::for_test("unknown numbers");
    for statements in SIZES {
        let lists = sound(&mut random, statements);
        let numbers = numbers::fitting(&mut random, &lists);
        let text = Handed::Text(Text::written(&lists, &numbers));
        let issued: Vec<u32> = numbers.into_iter().map(Number::code).collect();
        let mut asked = vec![1, 99_999_999, 110_000_001, 119_870_014, 120_999_999];
        asked.extend(NOBODYS);
        asked.extend(issued.iter().take(3).flat_map(|number| slips(*number)));
        for number in asked.iter().filter(|number| !issued.contains(number)) {
            hold_unknown(session, &text, *number)?;
        }
    }
    Ok(())
}

/// The numbers at the edges are issued, and of each code that is nobody's the plain number that is
/// left of it in eight digits. All of these can be asked.
fn nobodys_codes(session: &mut Session) -> Result<(), String> {
    let mut random = Random::for_test("codes that are nobody's");
    let left = NOBODYS.map(|code| Number::of_code(code % 100_000_000));
    let edges = EDGES.map(|field| Some(written_as(field)));
    let mut numbers: Vec<Number> = left.into_iter().chain(edges).flatten().collect();
    numbers.sort_by_key(|number| number.code());
    numbers.dedup();
    let lists = sound(&mut random, numbers.len());
    let text = Text::written(&lists, &numbers);
    let handed = Handed::Text(text.clone());
    for code in NOBODYS {
        hold_unknown(session, &handed, code)?;
    }
    let expected = Expected::of_text(&text);
    let issued = &expected.register.numbers;
    hold_reasons(session, &text, &expected, issued)?;
    hold_lines(session, &handed, &expected, issued)?;
    hold_exercises(session, &handed, &expected, issued, &TURNS)
}

/// Codes that are near an issued one, or that would be it if they lost a digit or some bits, or that
/// are of the next year or of a plain number in the place of a year number.
fn slips(number: u32) -> [u32; 12] {
    [
        number - 1,
        number + 1,
        number.wrapping_sub(10_000),
        number + 10_000,
        number % 100_000_000,
        number / 10,
        number.wrapping_mul(10),
        number ^ 1 << 8,
        number ^ 1 << 16,
        number ^ 1 << 31,
        number + 100_000_000,
        !number,
    ]
}

/// Of a text whose numbers are places of its register and others, only the numbers are known: 0 is
/// not, and the place that a number would be is another statement's.
fn numbers_as_places(session: &mut Session) -> Result<(), String> {
    let mut random = Random::for_test("numbers that are places");
    for statements in [2, 5, 30] {
        let lists = sound(&mut random, statements);
        let mut issued: Vec<u32> = (2..2 + statements as u32).collect();
        random.shuffle(&mut issued);
        let numbers: Vec<Number> = issued.iter().copied().filter_map(Number::of_code).collect();
        let text = Handed::Text(Text::written(&lists, &numbers));
        for number in [0, 1, 2 + statements as u32] {
            hold_unknown(session, &text, number)?;
        }
        let expected = Expected::of(&text);
        hold_lines(session, &text, &expected, &issued)?;
        hold_exercises(session, &text, &expected, &issued, &TURNS)?;
    }
    Ok(())
}

fn too_many_turns(session: &mut Session) -> Result<(), String> {
    let mut random = Random::for_test("too many turns");
    for statements in [1, 2, 9] {
        let lists = sound(&mut random, statements);
        for handed in Handed::both(&mut random, &lists) {
            let expected = Expected::of(&handed);
            let numbers = &expected.register.numbers;
            hold_exercises(session, &handed, &expected, numbers, &TOO_MANY)?;
        }
    }
    Ok(())
}
