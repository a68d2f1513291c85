//! Texts with several faults. Of faults on different lines the first line decides, whatever the
//! numbers; of faults on one line, and of the whole text and its lines, 01's order does.

use super::{answered, Test};
use crate::inputs::page::Page;
use crate::inputs::rooms;
use crate::inputs::text::Text;
use crate::library::array::Room;
use crate::library::call::TEXT_CALLS;
use crate::library::session::Session;
use crate::random::Random;
use crate::second::expected::Expected;
use crate::second::number::Number;
use crate::second::register::MOST_BYTES;

/// Bit i of a set of faults is for the refusal i + 1.
const FAULTS: u32 = 10;
/// How many texts are made for each set.
const ARRANGEMENTS: usize = 3;

/// The statements and objections where their number is no fault, and where one more is one.
const STATEMENTS: [usize; 2] = [70, 1_024];
const OBJECTIONS: [usize; 2] = [10, 4_096];

pub fn tests() -> Vec<Test> {
    vec![
        Test::new("every set of faults in one text", hold_sets),
        Test::new("faults of one statement line", statement_line),
        Test::new("faults of the 1,025th statement line", last_statement_line),
        Test::new("faults of the 4,097th objection line", last_objection_line),
    ]
}

/// A line, and the fault that it was made for.
pub struct Line {
    words: String,
    fault: Option<u32>,
}

fn has(set: usize, fault: u32) -> bool {
    set >> (fault - 1) & 1 == 1
}

fn hold_sets(session: &mut Session) -> Result<(), String> {
    let mut random = Random::for_test("sets of faults in texts");
    for set in 0..1 << FAULTS {
        for _ in 0..ARRANGEMENTS {
            let lines = faulty(&mut random, set);
            hold_set(session, set, &whole(set, &lines), first_fault(set, &lines))?;
        }
    }
    Ok(())
}

fn hold_set(
    session: &mut Session,
    set: usize,
    text: &Text,
    (refusal, line): (u32, u32),
) -> Result<(), String> {
    let expected = Expected::of_text(text);
    for call in &TEXT_CALLS {
        // shorter than what any of these texts could have in the first room
        let rooms = match has(set, 10) {
            true => vec![Room::Of(3); call.rooms()],
            false => call.fitting(text, &expected),
        };
        let answer = expected.answer(call.question, &rooms::lengths(&rooms));
        if answer.refusal != refusal || (refusal > 0 && answer.value != line) {
            return Err(format!(
                "{text}: the second solver has {} {}, the set {set:010b} {refusal} {line}",
                answer.refusal, answer.value
            ));
        }
        session.hold_text_call(call, text, &expected, &rooms)?;
    }
    Ok(())
}

/// The lines of a text with these faults. All that have a choice are at random lines, and before
/// the line that is one too many: on that line or after it they would not be seen.
pub fn faulty(random: &mut Random, set: usize) -> Vec<Line> {
    let statements = STATEMENTS[usize::from(has(set, 6))];
    let objections = OBJECTIONS[usize::from(has(set, 9))];
    let page = Page::random(random, statements, objections);
    let (issued, new) = (page.numbers[0], page.unissued(random));
    let again = page.lines[statements].clone();
    let mut before = |last: usize| random.between(1, last - 1);
    let mut above = sound(&page.lines[..statements]);
    for (fault, at, words) in [
        (6, statements, format!("S\t{new}\tR")),
        (5, before(statements), format!("S\t{issued}\tU")),
    ] {
        put_in(&mut above, set, fault, at, words);
    }
    let mut below = sound(&page.lines[statements..]);
    for (fault, at, words) in [
        (9, objections, format!("O\t{issued}\t{issued}")),
        (8, before(objections), again),
        (7, before(objections), format!("O\t{issued}\t{new}")),
        (4, before(objections), format!("S\t{new}\tR")),
    ] {
        put_in(&mut below, set, fault, at, words);
    }
    above.extend(below);
    let at = random.below(above.len() + 1);
    put_in(&mut above, set, 3, at, "S\t1".to_string());
    above
}

fn sound(lines: &[String]) -> Vec<Line> {
    let line = |words: &String| Line {
        words: words.clone(),
        fault: None,
    };
    lines.iter().map(line).collect()
}

/// Puts the line in if the set has its fault.
fn put_in(lines: &mut Vec<Line>, set: usize, fault: u32, at: usize, words: String) {
    if has(set, fault) {
        let fault = Some(fault);
        lines.insert(at, Line { words, fault });
    }
}

/// The text of the lines, made too long or left without an end if the set says so.
pub fn whole(set: usize, lines: &[Line]) -> Text {
    let words: Vec<&String> = lines.iter().map(|line| &line.words).collect();
    let mut text = Text::of_lines(&words);
    while has(set, 1) && text.0.len() <= MOST_BYTES {
        text.0.extend(b"O\t1\t1\n");
    }
    if has(set, 2) {
        text.0.push(b'S');
    }
    text
}

/// What the set is refused for, and the line, told from how it was made.
fn first_fault(set: usize, lines: &[Line]) -> (u32, u32) {
    let of_line = |(at, line): (usize, &Line)| line.fault.map(|fault| (fault, at as u32 + 1));
    let of_text = |fault: u32| has(set, fault).then_some((fault, 0));
    let of_lines = lines.iter().enumerate().find_map(of_line);
    let faults = [of_text(1), of_text(2), of_lines, of_text(10)];
    faults.into_iter().flatten().next().unwrap_or((0, 0))
}

/// A late statement that is issued already, or spoiled, and the same in a text without objections.
fn statement_line(session: &mut Session) -> Result<(), String> {
    let mut random = Random::for_test("faults of a statement line");
    let page = Page::random(&mut random, 8, 12);
    for at in 8..page.lines.len() {
        let again = format!("S\t{}\tR", page.numbers[at % 8]);
        answered(session, &page.with(at + 1, &again), (4, at + 2))?;
        let spoiled = again.replace('R', "r");
        answered(session, &page.with(at + 1, &spoiled), (3, at + 2))?;
    }
    for at in 1..=8 {
        let spoiled = format!("S\t{}\t", page.numbers[at - 1]);
        answered(session, &page.with(at, &spoiled), (3, at + 1))?;
    }
    Ok(())
}

fn last_statement_line(session: &mut Session) -> Result<(), String> {
    let mut random = Random::for_test("the 1,025th statement line");
    let page = Page::random(&mut random, 1_024, 5);
    let new = format!("S\t{}\tR", page.unissued(&mut random));
    for number in [page.numbers[0], page.numbers[1_023]] {
        let again = format!("S\t{number}\tU");
        let spoiled = format!("S\t{number}\tX");
        // in its place, then with a line behind that is at fault too
        for line in [&new, &again] {
            answered(session, &page.with(1_024, line), (6, 1_025))?;
            for next in [&again, &spoiled, &new] {
                let lines = format!("{line}\n{next}");
                answered(session, &page.with(1_024, &lines), (6, 1_025))?;
            }
        }
        // a spoiled line is no statement, and does not count as one
        answered(session, &page.with(1_024, &spoiled), (3, 1_025))?;
        answered(session, &page.with(7, &spoiled), (3, 8))?;
        for line in [&new, &again] {
            answered(session, &page.with(1_025, line), (4, 1_026))?;
            answered(session, &page.with(1_029, line), (4, 1_030))?;
        }
        answered(session, &page.with(1_025, &spoiled), (3, 1_026))?;
    }
    Ok(())
}

fn last_objection_line(session: &mut Session) -> Result<(), String> {
    let mut random = Random::for_test("the 4,097th objection line");
    let page = Page::random(&mut random, 70, 4_096);
    let (end, known) = (page.lines.len(), page.numbers[3]);
    let (unknown, first) = (page.unissued(&mut random), &page.lines[70]);
    let objection = |objector: Number, target: Number| format!("O\t{objector}\t{target}");
    for line in [
        first,
        &page.lines[end - 1],
        &objection(unknown, known),
        &objection(known, unknown),
        &objection(unknown, unknown),
        &format!("{first}\nS"),
    ] {
        answered(session, &page.with(end, line), (9, end + 1))?;
    }
    for line in [&format!("{first}\t"), "O\t1", ""] {
        answered(session, &page.with(end, line), (3, end + 1))?;
    }
    let late = page.with(end, &format!("S\t{known}\tR"));
    answered(session, &late, (4, end + 1))
}
