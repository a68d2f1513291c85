//! Old sheets with one fault of their bytes, at every place that can have it: a code 3, a spare bit, a
//! byte too few or too many. The totals are right for the codes that are there, so that nothing else
//! is at fault. Then every byte there is, as a sheet of one to four statements.

use super::{at_sizes, Case, Test, UNSOUND};
use crate::inputs::sheet::set_code;
use crate::inputs::sheets;
use crate::library::session::Session;
use crate::random::Random;
use crate::second::sheet::{counted, is_sound};

/// How many registers of each number of statements are updated from every byte.
const REGISTERS: usize = 25;

/// So many bytes are too many: a few, and those that a cut of the length to 8 or 16 bits would hide.
const TOO_MANY: [usize; 10] = [1, 2, 3, 4, 255, 256, 257, 65_535, 65_536, 131_072];

pub fn tests() -> Vec<Test> {
    vec![
        at_sizes("an old sheet with a 3: refusal 16", threes),
        at_sizes("an old sheet with spare bits: refusal 16", spare_bits),
        at_sizes("an old sheet that is too short: refusal 16", too_short),
        at_sizes("an old sheet that is too long: refusal 16", too_long),
        Test::new("every byte as an old sheet", every_byte),
    ]
}

fn threes(session: &mut Session, random: &mut Random, case: &Case) -> Result<(), String> {
    for place in 0..case.statements {
        let mut bytes = sheets::random(random, case.statements).bytes;
        set_code(&mut bytes, place, 3);
        case.hold_update(session, &counted(bytes, case.statements), UNSOUND)?;
    }
    Ok(())
}

/// The spare bits take every value but 0. Most would be labels if there were more statements.
fn spare_bits(session: &mut Session, random: &mut Random, case: &Case) -> Result<(), String> {
    // the last byte has two bits for each of its statements; a full one has none to spare
    let used = case.statements % 4 * 2;
    let values = if used == 0 { 0 } else { 255 >> used };
    for value in 1..=values {
        let mut bytes = sheets::random(random, case.statements).bytes;
        bytes[case.statements / 4] |= value << used;
        case.hold_update(session, &counted(bytes, case.statements), UNSOUND)?;
    }
    Ok(())
}

/// The bytes that are there are the start of a sound sheet; the totals are its own, and then those
/// of the bytes that are there.
fn too_short(session: &mut Session, random: &mut Random, case: &Case) -> Result<(), String> {
    let sound = sheets::random(random, case.statements);
    for length in 0..sound.bytes.len() {
        let mut old = sound.clone();
        old.bytes.truncate(length);
        case.hold_update(session, &old, UNSOUND)?;
        case.hold_update(session, &counted(old.bytes, case.statements), UNSOUND)?;
    }
    Ok(())
}

/// A sound sheet, and more behind it.
fn too_long(session: &mut Session, random: &mut Random, case: &Case) -> Result<(), String> {
    let sound = sheets::random(random, case.statements);
    for more in TOO_MANY {
        for byte in [0b00, 0b01, 0b10_01_00_10, 0b11] {
            let mut old = sound.clone();
            old.bytes.resize(sound.bytes.len() + more, byte);
            case.hold_update(session, &old, UNSOUND)?;
        }
    }
    Ok(())
}

fn every_byte(session: &mut Session) -> Result<(), String> {
    let mut random = Random::for_test("every byte as an old sheet");
    for statements in (1..=4).flat_map(|statements| [statements; REGISTERS]) {
        let case = Case::random(&mut random, statements);
        for byte in 0..=255 {
            let old = counted(vec![byte], statements);
            let refusal = if is_sound(&old, statements) {
                0
            } else {
                UNSOUND
            };
            case.hold_update(session, &old, refusal)?;
        }
    }
    Ok(())
}
