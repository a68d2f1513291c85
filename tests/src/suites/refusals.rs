//! Lists with one kind of fault, at the first entry, in the middle and at the last, alone and
//! twice: the refusal's number and the entry of the first fault, through every call.

use super::Test;
use crate::inputs::draft::Draft;
use crate::inputs::lists::Lists;
use crate::library::session::Session;
use crate::random::Random;

/// Statements and pairs of the registers that are damaged.
const SIZES: [(usize, usize); 5] = [(3, 1), (3, 2), (7, 9), (40, 200), (1_024, 4_096)];

pub fn tests() -> Vec<Test> {
    vec![
        Test::new("empty lists", empty_lists),
        Test::new("unequal lists: refusal 11", unequal),
        Test::new("an unknown mark: refusal 12", unknown_mark),
        Test::new("every unknown mark: refusal 12", every_unknown_mark),
        Test::new("two unknown marks: refusal 12", two_unknown_marks),
        Test::new("a place outside: refusal 13", place_outside),
        Test::new("two places outside: refusal 13", two_places_outside),
        Test::new("a repeated pair: refusal 8", repeated_pair),
        Test::new("two repeated pairs: refusal 8", two_repeated_pairs),
        Test::new("pairs that are nearly repeated", nearly_repeated),
    ]
}

fn sound(random: &mut Random, (statements, pairs): (usize, usize)) -> Lists {
    let mut draft = Draft::new(statements, pairs);
    draft.leave_unread(random, 6);
    draft.add_random(random, pairs);
    draft.mixed(random)
}

/// The first entry, the middle one and the last.
fn ends(length: usize) -> [usize; 3] {
    [0, length / 2, length - 1]
}

fn empty_lists(session: &mut Session) -> Result<(), String> {
    session.hold_lists(&Lists::default())?;
    // without marks every place is outside
    session.hold_lists(&Lists::new(Vec::new(), &[(0, 0)]))?;
    for marks in [vec![0], vec![1], vec![0, 1, 0], vec![0; 1_024], vec![2]] {
        session.hold_lists(&Lists::new(marks, &[]))?;
    }
    Ok(())
}

fn unequal(session: &mut Session) -> Result<(), String> {
    let mut random = Random::for_test("unequal lists");
    for size in SIZES {
        let whole = sound(&mut random, size);
        // lists that differ by 65,536 would be equal if lengths were cut down to 16 bits
        let grown = whole.targets.len() + 65_536;
        for length in [0, whole.targets.len() - 1, whole.targets.len() + 1, grown] {
            let mut lists = whole.clone();
            lists.targets.resize(length, 0);
            session.hold_lists(&lists)?;
            std::mem::swap(&mut lists.objectors, &mut lists.targets);
            session.hold_lists(&lists)?;
        }
    }
    Ok(())
}

fn unknown_mark(session: &mut Session) -> Result<(), String> {
    let mut random = Random::for_test("unknown mark");
    for size in SIZES {
        for at in ends(size.0) {
            for mark in [2, 3, 128, 255] {
                let mut lists = sound(&mut random, size);
                lists.marks[at] = mark;
                session.hold_lists(&lists)?;
            }
        }
    }
    Ok(())
}

fn every_unknown_mark(session: &mut Session) -> Result<(), String> {
    let mut random = Random::for_test("every unknown mark");
    for mark in 2..=255 {
        let mut lists = sound(&mut random, (9, 12));
        let at = random.below(9);
        lists.marks[at] = mark;
        session.hold_lists(&lists)?;
    }
    Ok(())
}

fn two_unknown_marks(session: &mut Session) -> Result<(), String> {
    let mut random = Random::for_test("two unknown marks");
    for first in 0..8 {
        for second in first + 1..9 {
            let mut lists = sound(&mut random, (9, 12));
            // the greater value first, then the lesser first
            for (here, there) in [(255, 2), (2, 255)] {
                lists.marks[first] = here;
                lists.marks[second] = there;
                session.hold_lists(&lists)?;
            }
        }
    }
    Ok(())
}

/// Places that are outside a register of so many statements: the nearest, and some that a cut to
/// fewer bits would bring back inside.
pub fn outside(statements: usize) -> [u32; 10] {
    let next = statements as u32;
    [
        next,
        next + 1,
        1_024,
        65_535,
        65_536,
        65_537,
        65_536 + next - 1,
        1 << 31,
        (1 << 31) + next - 1,
        u32::MAX,
    ]
}

fn place_outside(session: &mut Session) -> Result<(), String> {
    let mut random = Random::for_test("place outside");
    for size in SIZES {
        let whole = sound(&mut random, size);
        for at in ends(size.1) {
            for place in outside(size.0) {
                let (objector, target) = (whole.objectors[at], whole.targets[at]);
                for pair in [(place, target), (objector, place), (place, place)] {
                    let mut lists = whole.clone();
                    lists.set_pair(at, pair);
                    session.hold_lists(&lists)?;
                }
            }
        }
    }
    Ok(())
}

/// Whichever list the earlier of two places outside is in, its entry is reported.
fn two_places_outside(session: &mut Session) -> Result<(), String> {
    let mut random = Random::for_test("two places outside");
    for first in 0..8 {
        for second in first + 1..9 {
            let whole = sound(&mut random, (6, 9));
            let mut lists = whole.clone();
            lists.objectors[first] = 6;
            lists.targets[second] = u32::MAX;
            session.hold_lists(&lists)?;
            let mut lists = whole;
            lists.targets[first] = 6;
            lists.objectors[second] = u32::MAX;
            session.hold_lists(&lists)?;
        }
    }
    Ok(())
}

fn repeated_pair(session: &mut Session) -> Result<(), String> {
    let mut random = Random::for_test("repeated pair");
    for size in SIZES {
        let whole = sound(&mut random, size);
        let pairs: Vec<(u32, u32)> = whole.pairs().collect();
        for original in ends(size.1) {
            for again in [original + 1, (original + size.1) / 2, size.1 - 1] {
                if original < again && again < size.1 {
                    let mut lists = whole.clone();
                    lists.set_pair(again, pairs[original]);
                    session.hold_lists(&lists)?;
                }
            }
        }
    }
    Ok(())
}

/// Of two repeats the earlier is reported, also where its original comes after the other's.
fn two_repeated_pairs(session: &mut Session) -> Result<(), String> {
    let mut random = Random::for_test("two repeated pairs");
    for _ in 0..300 {
        let mut lists = sound(&mut random, (6, 12));
        for _ in 0..2 {
            let again = random.between(1, 11);
            let original = random.below(again);
            let pair = (lists.objectors[original], lists.targets[original]);
            lists.set_pair(again, pair);
        }
        session.hold_lists(&lists)?;
    }
    Ok(())
}

/// A pair turned round is another pair, and so is one that shares an objector or a target, or that
/// has the same sum or the same digits.
fn nearly_repeated(session: &mut Session) -> Result<(), String> {
    for (left, right) in [
        (0, 1),
        (1, 22),
        (3, 512),
        (11, 2),
        (255, 256),
        (1_022, 1_023),
    ] {
        let pairs = [(left, right), (right, left), (left, left), (right, right)];
        session.hold_lists(&Lists::new(vec![0; 1_024], &pairs))?;
    }
    let same_sum: Vec<(u32, u32)> = (0..=100).map(|x| (x, 100 - x)).collect();
    session.hold_lists(&Lists::new(vec![0; 101], &same_sum))?;
    let same_digits = [(1, 22), (12, 2), (122, 0), (0, 122), (2, 12), (22, 1)];
    session.hold_lists(&Lists::new(vec![0; 1_024], &same_digits))
}
