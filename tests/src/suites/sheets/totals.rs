//! Old sheets with wrong totals, and rooms of totals of every length: those among the first three that
//! are handed over are looked at, and with fewer than three it is refusal 10 that is left. What is
//! behind the third is as found.

use super::{at_sizes, Case, Test, SHORT, UNSOUND};
use crate::inputs::sheet::Sheet;
use crate::inputs::sheets;
use crate::library::session::Session;
use crate::random::Random;
use crate::second::sheet::TOTALS;

/// Lengths of the room with the totals.
const LENGTHS: [usize; 6] = [0, 1, 2, 3, 4, 5];

/// What lies behind the third total.
const BEHIND: [u32; 3] = [0, 7, u32::MAX];

/// By so much a total is off: by a little, or by what a cut to fewer bits would hide.
const OFF: [u32; 6] = [1, 2, 4, 256, 65_536, 1 << 31];

/// Orders of three totals, all but the right one.
const ORDERS: [[usize; TOTALS]; 5] = [[0, 2, 1], [1, 0, 2], [2, 1, 0], [1, 2, 0], [2, 0, 1]];

pub fn tests() -> Vec<Test> {
    vec![
        at_sizes("right totals in rooms of every length", right_totals),
        at_sizes("one wrong total: refusal 16", wrong_totals),
        at_sizes("exchanged totals: refusal 16", exchanged_totals),
        at_sizes("wrong totals of a right sum: refusal 16", right_sums),
    ]
}

fn right_totals(session: &mut Session, random: &mut Random, case: &Case) -> Result<(), String> {
    let sound = sheets::random(random, case.statements);
    hold_lengths(session, case, &sound, &sound)
}

fn wrong_totals(session: &mut Session, random: &mut Random, case: &Case) -> Result<(), String> {
    let sound = sheets::random(random, case.statements);
    for (at, total) in sound.totals.iter().enumerate() {
        for off in OFF {
            for wrong in [total.wrapping_add(off), total.wrapping_sub(off)] {
                hold_lengths(session, case, &sound, &sound.with_total(at, wrong))?;
            }
        }
    }
    Ok(())
}

/// Two totals change places, or all three. Where totals are equal, some orders are right.
fn exchanged_totals(session: &mut Session, random: &mut Random, case: &Case) -> Result<(), String> {
    let sound = sheets::random(random, case.statements);
    for order in ORDERS {
        let mut exchanged = sound.clone();
        exchanged.totals = order.map(|at| sound.totals[at]).to_vec();
        hold_lengths(session, case, &sound, &exchanged)?;
    }
    Ok(())
}

/// One total is greater, and another is less by as much.
fn right_sums(session: &mut Session, random: &mut Random, case: &Case) -> Result<(), String> {
    let sound = sheets::random(random, case.statements);
    for (up, down) in [(0, 1), (0, 2), (1, 0), (1, 2), (2, 0), (2, 1)] {
        for off in OFF {
            let (more, less) = (sound.totals[up], sound.totals[down]);
            let old = sound.with_total(up, more.wrapping_add(off));
            let old = old.with_total(down, less.wrapping_sub(off));
            hold_lengths(session, case, &sound, &old)?;
        }
    }
    Ok(())
}

/// Holds the old sheet with as many of its totals as each room has space for, and what lies behind
/// them. It has the bytes of the sound one.
fn hold_lengths(
    session: &mut Session,
    case: &Case,
    sound: &Sheet,
    old: &Sheet,
) -> Result<(), String> {
    for length in LENGTHS {
        let handed = length.min(TOTALS);
        let refusal = match old.totals[..handed] == sound.totals[..handed] {
            false => UNSOUND,
            true if length < TOTALS => SHORT,
            true => 0,
        };
        for behind in BEHIND {
            case.hold_update(session, &old.with_totals(length, behind), refusal)?;
        }
    }
    Ok(())
}
