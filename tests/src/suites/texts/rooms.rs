//! Rooms of every length around the right one, for texts small and large, sound and refused:
//! refusal 10 exactly if a room is shorter than the answer, and no entry written that is not the
//! answer's.

use super::Test;
use crate::inputs::page::Page;
use crate::inputs::rooms;
use crate::inputs::text::Text;
use crate::library::array::Room;
use crate::library::call::{TextCall, TEXT_CALLS};
use crate::library::session::Session;
use crate::random::Random;
use crate::second::expected::Expected;

pub fn tests() -> Vec<Test> {
    let mut tests = Vec::new();
    for call in &TEXT_CALLS {
        let name = format!("rooms of every length, small texts: {}", call.name);
        tests.push(Test::new(name, move |session| small(session, call)));
        let name = format!("rooms of many lengths, at the limits: {}", call.name);
        tests.push(Test::new(name, move |session| at_limits(session, call)));
        let name = format!("rooms of refused texts: {}", call.name);
        tests.push(Test::new(name, move |session| refused(session, call)));
    }
    tests
}

fn small(session: &mut Session, call: &TextCall) -> Result<(), String> {
    let mut random = Random::for_test("rooms of small texts");
    hold_up_to(session, call, &Text::default(), 16)?;
    for statements in 1..=8 {
        for objections in [0, 1, statements, statements * statements] {
            let text = Page::random(&mut random, statements, objections).text();
            let right = longest_room(call, &text);
            hold_up_to(session, call, &text, right + 3)?;
        }
    }
    Ok(())
}

fn at_limits(session: &mut Session, call: &TextCall) -> Result<(), String> {
    let mut random = Random::for_test("rooms of large texts");
    for (statements, objections) in [(1_024, 300), (100, 4_096), (1_024, 4_096)] {
        let text = Page::random(&mut random, statements, objections).text();
        let right = longest_room(call, &text);
        // 65,536 would be an empty room if it were cut down to 16 bits
        let lengths = [0, 1, right - 1, right, right + 1, 65_536, 131_072];
        hold_each(session, call, &text, lengths.map(Room::Of).as_slice())?;
    }
    Ok(())
}

/// How many entries the answer to a sound text has in the room that gets most.
fn longest_room(call: &TextCall, text: &Text) -> usize {
    let lengths = Expected::of_text(text).answer_lengths(call.question);
    lengths.into_iter().max().expect("a room")
}

/// Whatever the room of a refused text, it is the text that is refused.
fn refused(session: &mut Session, call: &TextCall) -> Result<(), String> {
    let mut random = Random::for_test("rooms of refused texts");
    let page = Page::random(&mut random, 5, 9);
    let again = format!("S\t{}\tR", page.numbers[2]);
    let unknown = format!("O\t{}\t{}", page.unissued(&mut random), page.numbers[0]);
    for text in [
        page.with(5, &again),
        page.with(10, &again),
        page.with(14, &unknown),
        page.with(14, &page.lines[7].clone()),
        page.with(0, ""),
        Text(b"S\t1\tR".to_vec()),
        Text(vec![b'\n'; 65_536]),
    ] {
        hold_up_to(session, call, &text, 8)?;
    }
    Ok(())
}

/// Holds the call with no rooms, and with rooms of every length up to the most.
fn hold_up_to(
    session: &mut Session,
    call: &TextCall,
    text: &Text,
    most: usize,
) -> Result<(), String> {
    let mut lengths: Vec<Room> = (0..=most).map(Room::Of).collect();
    lengths.push(Room::Null);
    hold_each(session, call, text, &lengths)
}

/// Every room takes every one of the lengths, whatever the other has.
fn hold_each(
    session: &mut Session,
    call: &TextCall,
    text: &Text,
    lengths: &[Room],
) -> Result<(), String> {
    let expected = Expected::of_text(text);
    for rooms in rooms::combined(lengths, call.rooms()) {
        session.hold_text_call(call, text, &expected, &rooms)?;
    }
    Ok(())
}
