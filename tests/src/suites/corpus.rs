//! The inputs that fuzzing has kept, through every call. The fuzzer has only held them against plain
//! C; here it is the second solver. A folder without some of the refusals is not what it should be.

use super::asked::{hold_exercises, hold_lines, TURNS};
use super::catalogue;
use super::mending::hold_rooms;
use super::reasons::hold_reasons;
use super::Test;
use crate::inputs::corpus::{files, kept, Words};
use crate::inputs::handed::Handed;
use crate::inputs::lists::Lists;
use crate::inputs::rooms;
use crate::inputs::text::Text;
use crate::library::call::TEXT_CALLS;
use crate::library::session::Session;
use crate::second::expected::Expected;
use std::path::{Path, PathBuf};

/// Of how many statements of each input something is asked.
const ASKED: usize = 8;

/// The refusals that must be met, and acceptance. A text of 1, 6 or 9 is too long to be kept.
const OF_TEXTS: [u32; 7] = [0, 2, 3, 4, 5, 7, 8];
const OF_LISTS: [u32; 7] = [0, 6, 8, 9, 11, 12, 13];
const OF_CATALOGUES: [u32; 6] = [0, 2, 3, 5, 7, 8];

pub fn tests() -> Vec<Test> {
    of(["texts", "lists", "catalogues"].map(kept))
}

/// The tests of three other folders.
pub fn of([texts, lists, catalogues]: [PathBuf; 3]) -> Vec<Test> {
    vec![
        Test::new("texts that fuzzing kept", move |session| {
            hold_folder(session, &texts, &OF_TEXTS, hold_text)
        }),
        Test::new("lists that fuzzing kept", move |session| {
            hold_folder(session, &lists, &OF_LISTS, hold_words)
        }),
        Test::new("catalogues that fuzzing kept", move |session| {
            hold_folder(session, &catalogues, &OF_CATALOGUES, hold_catalogue)
        }),
    ]
}

/// Holds one input and answers its refusal, or 0.
type Hold = fn(&mut Session, Vec<u8>) -> Result<u32, String>;

fn hold_folder(
    session: &mut Session,
    folder: &Path,
    refusals: &[u32],
    hold: Hold,
) -> Result<(), String> {
    let files = files(folder).map_err(|error| format!("{}: {error}", folder.display()))?;
    let mut met = Vec::new();
    for (name, bytes) in files {
        let refusal = hold(session, bytes).map_err(|what| format!("{name}: {what}"))?;
        met.push(refusal);
    }
    match refusals.iter().find(|refusal| !met.contains(refusal)) {
        Some(refusal) => Err(format!("refusal {refusal} never comes")),
        None => Ok(()),
    }
}

/// A text; and as lists, if it is a register.
fn hold_text(session: &mut Session, bytes: Vec<u8>) -> Result<u32, String> {
    let text = Text(bytes);
    let expected = Expected::of_text(&text);
    session.hold_text(&text)?;
    for call in &TEXT_CALLS {
        for rooms in rooms::around(&call.answer_lengths(&text, &expected)) {
            session.hold_text_call(call, &text, &expected, &rooms)?;
        }
    }
    hold_rooms(session, &text)?;
    catalogue::hold_rooms(session, &text)?;
    if let Some(refusal) = expected.refusal {
        return Ok(refusal.number);
    }
    hold_reasons(session, &text, &expected, &some_of(&expected))?;
    hold_asked(session, &Handed::Text(text), &expected)?;
    hold_lists(session, &expected.register.lists)
}

/// There and back; and as a text.
fn hold_catalogue(session: &mut Session, bytes: Vec<u8>) -> Result<u32, String> {
    let text = Text(bytes);
    let (refusal, _) = catalogue::hold(session, &text)?.refused_as();
    catalogue::hold_rooms(session, &text)?;
    session.hold_text(&text)?;
    Ok(refusal)
}

fn hold_words(session: &mut Session, bytes: Vec<u8>) -> Result<u32, String> {
    let Words {
        lists,
        place,
        turns,
    } = Words::of(&bytes);
    let expected = Expected::of_lists(&lists);
    let refusal = hold_lists(session, &lists)?;
    let handed = Handed::Lists(lists);
    hold_lines(session, &handed, &expected, &[place])?;
    hold_exercises(session, &handed, &expected, &[place], &[turns])?;
    Ok(refusal)
}

fn hold_lists(session: &mut Session, lists: &Lists) -> Result<u32, String> {
    let expected = Expected::of_lists(lists);
    session.hold_lists(lists)?;
    hold_asked(session, &Handed::Lists(lists.clone()), &expected)?;
    Ok(expected.refused_as().0)
}

fn hold_asked(session: &mut Session, handed: &Handed, expected: &Expected) -> Result<(), String> {
    let statements = some_of(expected);
    hold_lines(session, handed, expected, &statements)?;
    hold_exercises(session, handed, expected, &statements, &TURNS)
}

fn some_of(expected: &Expected) -> Vec<u32> {
    let numbers = expected.register.numbers.iter().copied();
    numbers.take(ASKED).collect()
}
