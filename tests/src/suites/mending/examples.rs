//! Texts of which the mended one and the report are written out: the second solver must come to them,
//! and so must the library. The old export of the folder examples is one of them.

use super::{hold, Test};
use crate::inputs::mends::{Mend, MENDS};
use crate::inputs::text::Text;
use crate::library::session::Session;

const EXPORT: &[u8] = include_bytes!("../../../../examples/export.txt");
const EXPORT_MENDED: &[u8] = include_bytes!("../../../../examples/export.mended");
const EXPORT_REPORT: &str = include_str!("../../../../examples/export.report");

pub fn tests() -> Vec<Test> {
    let written = |mend: &'static Mend| {
        let name = format!("mending, written out: {}", mend.name);
        Test::new(name, move |session| {
            hold_written(session, &mend.text(), &mend.mended().0, &mend.report())
        })
    };
    let file = Test::new("mending, example file: export", |session| {
        let text = Text(EXPORT.to_vec());
        hold_written(session, &text, EXPORT_MENDED, EXPORT_REPORT)
    });
    MENDS.iter().map(written).chain([file]).collect()
}

fn hold_written(
    session: &mut Session,
    text: &Text,
    mended: &[u8],
    report: &str,
) -> Result<(), String> {
    let mending = hold(session, text)?;
    session.count();
    if mending.text.0 == mended && mending.report == report {
        return Ok(());
    }
    let (text, report) = (&mending.text, &mending.report);
    Err(format!("the second solver has {text}, {report:?}"))
}
