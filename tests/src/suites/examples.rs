//! Every example at the edges of document 01, those with year numbers, and every file of the folder
//! examples: the second solver must print what is written out, and the library must give what the
//! second solver gives, for texts and for lists.

use super::Test;
use crate::inputs::examples::{Example, EXAMPLES};
use crate::inputs::files::{File, FILES};
use crate::inputs::text::Text;
use crate::inputs::years::YEARS;
use crate::library::session::Session;
use crate::second::expected::{Expected, Question};
use crate::second::listing;

pub fn tests() -> Vec<Test> {
    let test = |origin: &'static str| {
        move |example: &'static Example| {
            let name = format!("{origin}: {}", example.name);
            Test::new(name, move |session| {
                hold(session, &example.text(), &example.print())
            })
        }
    };
    let large = [
        Test::new("example of 01: 1,024 statements", most_statements),
        Test::new("example of 01: 4,096 objections", most_objections),
    ];
    let file = |file: &'static File| {
        let name = format!("example file: {}", file.name);
        Test::new(name, move |session| {
            hold(session, &Text(file.text.to_vec()), file.listing)
        })
    };
    let small = EXAMPLES.iter().map(test("example of 01"));
    let years = YEARS.iter().map(test("example with year numbers"));
    let files = FILES.iter().map(file);
    small.chain(large).chain(years).chain(files).collect()
}

/// Holds every call on the text, and on its register as lists.
fn hold(session: &mut Session, text: &Text, print: &[u8]) -> Result<(), String> {
    let expected = Expected::of_text(text);
    let printed = listing::print(&expected, Question::Listing);
    session.count();
    if printed != print {
        let (printed, print) = (printed.escape_ascii(), print.escape_ascii());
        return Err(format!(
            "the second solver prints {printed} and not {print}"
        ));
    }
    session.hold_text(text)?;
    match expected.refusal {
        None => session.hold_lists(&expected.register.lists),
        Some(_) => Ok(()),
    }
}

/// So many statement lines, all read.
fn statements(count: u32) -> String {
    let line = |number: u32| format!("S\t{number}\tR\n");
    (1..=count).map(line).collect()
}

/// Statements that nobody objects to all stand.
fn most_statements(session: &mut Session) -> Result<(), String> {
    let stand = |number: u32| format!("{number}\tstands\t0\n");
    let stands: String = (1..=1_024).map(stand).collect();
    let listing = format!("REGISTER\t1024\t0\n{stands}");
    let text = Text(statements(1_024).into_bytes());
    hold(session, &text, listing.as_bytes())?;
    let text = Text(statements(1_025).into_bytes());
    hold(session, &text, b"REFUSED\t6\t1025\n")
}

/// Of 64 statements each objects to each, itself too, and all is open. A 65th brings one more.
fn most_objections(session: &mut Session) -> Result<(), String> {
    let pairs = || (1..=64).flat_map(|objector| (1..=64).map(move |target| (objector, target)));
    let objection = |(objector, target)| format!("O\t{objector}\t{target}\n");
    let objections: String = pairs().map(objection).collect();
    let text = Text((statements(64) + &objections).into_bytes());
    let open = |number: u32| format!("{number}\topen\t-\n");
    let opens: String = (1..=64).map(open).collect();
    let standoff = |(objector, target)| format!("{objector}\t{target}\tstandoff\t-\n");
    let standoffs: String = pairs().map(standoff).collect();
    let listing = format!("REGISTER\t64\t4096\n{opens}{standoffs}");
    hold(session, &text, listing.as_bytes())?;
    let text = Text((statements(65) + &objections + "O\t65\t1\n").into_bytes());
    hold(session, &text, b"REFUSED\t9\t4162\n")
}
