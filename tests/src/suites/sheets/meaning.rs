//! The second solver's sheets against 02's sentences, taken another way: every byte there is, as the
//! sheet of one to four statements, is sound exactly if some labels make it; and the two bits of each
//! statement, cut out of the bytes, are its label.

use super::Test;
use crate::inputs::sheet::Sheet;
use crate::inputs::sheets;
use crate::library::session::Session;
use crate::random::Random;
use crate::second::sheet::{counted, is_sound, of_codes};

pub fn tests() -> Vec<Test> {
    vec![
        Test::new("sound sheets are those that labels make", sound_bytes),
        Test::new("the bits of a sheet are the labels", bits),
    ]
}

fn sound_bytes(session: &mut Session) -> Result<(), String> {
    for statements in 1..=4 {
        let made = sheets::every(statements);
        for byte in 0..=255 {
            session.count();
            let sheet = counted(vec![byte], statements);
            if is_sound(&sheet, statements) != made.contains(&sheet) {
                return Err(format!("{sheet}, of {statements} statements"));
            }
        }
    }
    Ok(())
}

fn bits(session: &mut Session) -> Result<(), String> {
    let mut random = Random::for_test("the bits of a sheet");
    for statements in sheets::SIZES {
        session.count();
        let labels: Vec<u32> = (0..statements).map(|_| random.below(3) as u32).collect();
        let sheet = of_codes(&labels);
        // what is spare is 0, and less than a byte
        let whole = [&labels[..], &[0; 3]].concat();
        let bits = cut(&sheet);
        let sum: u32 = sheet.totals.iter().sum();
        if !whole.starts_with(&bits) || bits.len() < statements || sum as usize != statements {
            return Err(format!("{sheet}, of {labels:?}"));
        }
    }
    Ok(())
}

/// All bits of a sheet, two by two.
fn cut(sheet: &Sheet) -> Vec<u32> {
    let two = |place: usize| u32::from(sheet.bytes[place / 4] >> (place % 4 * 2) & 3);
    (0..4 * sheet.bytes.len()).map(two).collect()
}
