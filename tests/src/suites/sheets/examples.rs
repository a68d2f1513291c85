//! Sheets that are written out, bit by bit with the first statement last: the second solver must come
//! to them, and so must the library, afresh and from old sheets.

use super::{Case, Test};
use crate::inputs::files::FILES;
use crate::inputs::sheets;
use crate::inputs::text::Text;
use crate::inputs::written::{of_01, written, Written};
use crate::library::session::Session;

/// A register of which the rows are the bytes of its sheet, and the totals.
type Shown = (Written<u8>, [u32; 3]);

/// An example file by its name, the bytes of its sheet, and the totals.
type OfFile = (&'static str, &'static [u8], [u32; 3]);

const SHEETS: [Shown; 10] = [
    (of_01("empty", &[]), [0, 0, 0]),
    (of_01("one read", &[0b01]), [0, 1, 0]),
    (of_01("one unread", &[0b00]), [1, 0, 0]),
    (
        of_01("two that object to each other", &[0b00_00]),
        [2, 0, 0],
    ),
    (of_01("the listing", &[0b01_10_00_00]), [2, 1, 1]),
    (
        of_01("an unread one falls, and one stands by it", &[0b01_01_10]),
        [0, 2, 1],
    ),
    (
        of_01("a chain down to an unread one", &[0b01_10_01_10]),
        [0, 2, 2],
    ),
    (of_01("felling in three turns", &[0b01_10_01]), [0, 2, 1]),
    (
        written(
            "four stand, and a fifth falls",
            "S 1 R\nS 2 R\nS 3 R\nS 4 R\nS 5 U\nO 1 5\n",
            &[0b01_01_01_01, 0b10],
        ),
        [0, 4, 1],
    ),
    (
        written(
            "the first objects to all but the last, which objects to itself",
            "S 9 R\nS 8 R\nS 7 U\nS 6 R\nS 5 R\nS 4 R\nO 9 8\nO 9 7\nO 9 6\nO 9 5\nO 4 4\n",
            &[0b10_10_10_01, 0b00_10],
        ),
        [1, 1, 4],
    ),
];

const OF_FILES: [OfFile; 2] = [
    (
        "quilt",
        &[0b10_01_10_01, 0b10_01_01_10, 0b10_00_00_00, 0b01_10_01_01],
        [3, 7, 6],
    ),
    ("unread", &[0b00_01_01_10, 0b00_10_00_00, 0b00], [5, 2, 2]),
];

pub fn tests() -> Vec<Test> {
    let test = |(written, totals): &'static Shown| {
        let name = format!("sheets, written out: {}", written.name);
        Test::new(name, move |session| {
            hold(session, &written.text(), written.rows, totals)
        })
    };
    let file = |(name, bytes, totals): &'static OfFile| {
        let title = format!("sheets, example file: {name}");
        Test::new(title, move |session| {
            let mut files = FILES.iter();
            let file = files.find(|file| file.name == *name);
            let text = Text(file.ok_or("no such file")?.text.to_vec());
            hold(session, &text, bytes, totals)
        })
    };
    let files = OF_FILES.iter().map(file);
    SHEETS.iter().map(test).chain(files).collect()
}

/// Holds the sheet, and its update from itself and from sheets on which all is open, stands or falls.
fn hold(session: &mut Session, text: &Text, bytes: &[u8], totals: &[u32]) -> Result<(), String> {
    let case = Case::of(text.clone());
    let sheet = case.expected.sheet();
    session.count();
    if (&sheet.bytes[..], &sheet.totals[..]) != (bytes, totals) {
        return Err(format!("the second solver has {sheet}"));
    }
    case.hold_fresh(session)?;
    case.hold_updated(session, &sheet)?;
    for code in 0..3 {
        case.hold_updated(session, &sheets::all(code, case.statements))?;
    }
    Ok(())
}
