//! Several faults at once: the text is refused first, then the old sheet, then a room that is too
//! short, whatever else is wrong. Every set of faults of an old sheet is tried beside every refusal of
//! a text. What is refused is told from how it was made.

use super::{Case, Test, SHORT, UNSOUND};
use crate::inputs::sheet::{set_code, Sheet};
use crate::inputs::{rooms, sheets};
use crate::library::session::Session;
use crate::random::Random;
use crate::second::sheet::counted;
use crate::suites::texts::order::{faulty as faulty_lines, whole};

/// The faults of an old sheet: a bit for each in a set of them. The last is the one of refusal 10.
const THREE: usize = 1;
const SPARE: usize = 1 << 1;
const SIZE: usize = 1 << 2;
const TOTAL: usize = 1 << 3;
const FEW: usize = 1 << 4;
const SETS: usize = 1 << 5;

/// How many sheets are made for each set.
const ARRANGEMENTS: usize = 20;

/// Numbers of statements that leave bits to spare; the first is that of the faulty texts.
const STATEMENTS: [usize; 6] = [70, 1, 2, 7, 61, 1_023];

pub fn tests() -> Vec<Test> {
    vec![
        Test::new("every set of faults of an old sheet", sets),
        Test::new("refused texts and sheets", refused_texts),
    ]
}

fn sets(session: &mut Session) -> Result<(), String> {
    let mut random = Random::for_test("faults of an old sheet");
    for statements in STATEMENTS {
        let case = Case::random(&mut random, statements);
        for set in (0..SETS).flat_map(|set| [set; ARRANGEMENTS]) {
            let old = faulty(&mut random, statements, set);
            case.hold_update(session, &old, refusal_of(set))?;
        }
    }
    Ok(())
}

fn refusal_of(set: usize) -> u32 {
    match set {
        0 => 0,
        FEW => SHORT,
        _ => UNSOUND,
    }
}

/// An old sheet with just these faults. The totals are counted when the bytes are what they are, and
/// the wrong one is among those that are left.
fn faulty(random: &mut Random, statements: usize, set: usize) -> Sheet {
    let has = |fault: usize| set & fault > 0;
    let mut bytes = sheets::random(random, statements).bytes;
    if has(THREE) {
        set_code(&mut bytes, random.below(statements), 3);
    }
    if has(SPARE) {
        let last = 4 * bytes.len();
        set_code(&mut bytes, random.between(statements, last - 1), 1);
    }
    if has(SIZE) && random.once_in(2) {
        bytes.push(0);
    } else if has(SIZE) {
        bytes.pop();
    }
    let mut sheet = counted(bytes, statements);
    let left = if has(FEW) { random.between(1, 2) } else { 3 };
    sheet.totals.truncate(left);
    if has(TOTAL) {
        sheet.totals[random.below(left)] += 1;
    }
    sheet
}

/// Every refusal that a text has by itself, at several lines.
fn refused_texts(session: &mut Session) -> Result<(), String> {
    let mut random = Random::for_test("refused texts and sheets");
    for refusal in 1..=9 {
        for set in 0..SETS {
            let fault = 1 << (refusal - 1);
            let case = Case::of(whole(fault, &faulty_lines(&mut random, fault)));
            let old = faulty(&mut random, STATEMENTS[0], set);
            case.hold_update(session, &old, refusal)?;
            // a fresh sheet in rooms as long as the old ones, which are too short or not
            let rooms = rooms::fitting(&[old.bytes.len(), old.totals.len()]);
            case.hold_rooms(session, &rooms)?;
        }
    }
    Ok(())
}
