//! Catalogues with several faults. Of 3, 6, 5 and 9 the first line decides, whatever the numbers, and
//! on one line 02's order does; then come 7, 8, too long an old form and a short room, wherever the
//! lines are. Every two are tried in both orders, every set on one line, and every set at random.

use super::{answered, Test, ACCEPTED};
use crate::inputs::text::Text;
use crate::library::array::Room;
use crate::library::session::Session;
use crate::random::Random;
use crate::second::catalogue::OldForm;
use crate::second::refusals::{MOST_OBJECTIONS, MOST_STATEMENTS};
use crate::second::register::MOST_BYTES;

/// Too long an old form, which is refused as 1.
const LONG: u32 = 11;

/// All faults; and those of lines, in the order in which one line is refused for them.
const FAULTS: [u32; 10] = [1, 2, 3, 5, 6, 7, 8, 9, LONG, 10];
const OF_LINES: [u32; 6] = [3, 6, 5, 9, 7, 8];

/// How many catalogues are made for each set.
const ARRANGEMENTS: usize = 3;

/// The first so many lines have objectors, and so many each: where the 4,097th is a fault or the old
/// form is too long, and where not.
const NAMING: [(usize, usize); 3] = [(64, 64), (60, 64), (10, 1)];

/// A line that is put in here comes behind all that have objectors.
const BEHIND: usize = 66;

pub fn tests() -> Vec<Test> {
    vec![
        Test::new("catalogue: every two faults in both orders", every_two),
        Test::new("catalogue: every set of faults on one line", on_one_line),
        Test::new("catalogue: every set of faults", every_set),
    ]
}

/// A line, and the fault that it was made for. Which line has 6 and which 9 is told by counting.
struct Line {
    words: String,
    fault: Option<u32>,
}

/// A catalogue in the making, which is to have these faults.
struct Faulty {
    set: Vec<u32>,
    lines: Vec<Line>,
}

impl Faulty {
    /// Statements as many as there may be for these faults, and objectors; no fault yet.
    fn new(set: &[u32]) -> Self {
        let mut faulty = Faulty {
            set: set.to_vec(),
            lines: Vec::new(),
        };
        let statements = if faulty.has(6) { MOST_STATEMENTS } else { 70 };
        let (naming, each) = match (faulty.has(9), faulty.has(LONG)) {
            (true, _) => NAMING[0],
            (_, true) => NAMING[1],
            _ => NAMING[2],
        };
        for place in 0..statements {
            let named = if place < naming { each } else { 0 };
            let named: Vec<usize> = (0..named).collect();
            let words = faulty.card(place, &named);
            faulty.lines.push(Line { words, fault: None });
        }
        faulty
    }

    fn has(&self, fault: u32) -> bool {
        self.set.contains(&fault)
    }

    /// The line of a statement that these object to, all told by places.
    fn card(&self, place: usize, objectors: &[usize]) -> String {
        // eight digits make the old form too long
        let least = if self.has(LONG) { 10_000_000 } else { 1 };
        let named = objectors.iter().map(|by| format!("\t{}", least + by));
        format!("S\t{}\tR{}", least + place, named.collect::<String>())
    }

    /// A line with this fault, or for 6 and 9 one that may be too many.
    fn line(&self, fault: u32) -> Line {
        // the places from here on are nobody's, but for the statements of these lines
        let new = 2_000 + fault as usize;
        let words = match fault {
            3 => self.card(0, &[]) + "\t",
            5 => self.card(0, &[]),
            7 => self.card(new, &[3_000]),
            8 => self.card(new, &[0, 0]),
            9 => self.card(new, &[0]),
            _ => self.card(new, &[]),
        };
        let fault = Some(fault).filter(|fault| ![6, 9].contains(fault));
        Line { words, fault }
    }

    fn put_in(&mut self, at: usize, fault: u32) {
        let line = self.line(fault);
        self.lines.insert(at, line);
    }

    /// The text of the lines, made too long or left without an end if the set says so.
    fn text(&self) -> Text {
        let words: Vec<&String> = self.lines.iter().map(|line| &line.words).collect();
        let mut text = Text::of_lines(&words);
        while self.has(1) && text.0.len() <= MOST_BYTES {
            text.0.extend(b"S\t1\tR\n");
        }
        if self.has(2) {
            text.0.push(b'S');
        }
        text
    }

    /// What is refused, and the line, told from how it was made.
    fn refusal(&self) -> (u32, usize) {
        let of_text = |fault: u32, number: u32| self.has(fault).then_some((number, 0));
        let of_lines = |number: u32| {
            let mut lines = self.lines.iter();
            let at = lines.position(|line| line.fault == Some(number));
            at.map(|at| (number, at + 1))
        };
        let faults = [
            of_text(1, 1),
            of_text(2, 2),
            self.by_line(),
            of_lines(7),
            of_lines(8),
            of_text(LONG, 1),
            of_text(10, 10),
        ];
        faults.into_iter().flatten().next().unwrap_or(ACCEPTED)
    }

    /// The first of 3, 6, 5 and 9.
    fn by_line(&self) -> Option<(u32, usize)> {
        let mut named = 0;
        for (at, line) in self.lines.iter().enumerate() {
            named += line.words.matches('\t').count() - 2;
            let rows = [
                (3, line.fault == Some(3)),
                (6, at >= MOST_STATEMENTS),
                (5, line.fault == Some(5)),
                (9, named > MOST_OBJECTIONS),
            ];
            if let Some((number, _)) = rows.into_iter().find(|(_, fault)| *fault) {
                return Some((number, at + 1));
            }
        }
        None
    }
}

/// Those of these faults that have a bit.
fn subset(faults: &[u32], bits: usize) -> Vec<u32> {
    let has = |at: &usize| bits >> at & 1 == 1;
    let chosen = (0..faults.len()).filter(has);
    chosen.map(|at| faults[at]).collect()
}

fn every_two(session: &mut Session) -> Result<(), String> {
    for one in OF_LINES {
        for other in OF_LINES.into_iter().filter(|other| *other != one) {
            hold_two(session, one, other)?;
        }
    }
    Ok(())
}

/// The one comes before the other: among the first lines, behind the objectors, where the line that
/// has 6 or 9 is its own or the last, and at the end.
fn hold_two(session: &mut Session, one: u32, other: u32) -> Result<(), String> {
    let last = Faulty::new(&[one, other]).lines.len();
    for (first, second) in [(1, 2), (1, 40), (1, last), (BEHIND, last), (last, last)] {
        let mut faulty = Faulty::new(&[one, other]);
        faulty.put_in(first, one);
        faulty.put_in(second + 1, other);
        let refusal = faulty.refusal();
        answered(session, &faulty.text(), refusal)?;
        let is_by_line = |fault: u32| ![7, 8].contains(&fault);
        let right = match (is_by_line(one), is_by_line(other)) {
            (true, _) => one,
            (false, true) => other,
            (false, false) => 7,
        };
        if first == BEHIND && refusal.0 != right {
            return Err(format!("{one} before {other} is told as {refusal:?}"));
        }
    }
    Ok(())
}

/// A last line that has all of these faults: the first in 02's order is its refusal.
fn on_one_line(session: &mut Session) -> Result<(), String> {
    for bits in 0..1 << OF_LINES.len() {
        let faults = subset(&OF_LINES, bits);
        let mut faulty = Faulty::new(&faults);
        let place = if faulty.has(5) { 0 } else { 2_000 };
        let mut named = Vec::new();
        named.extend(faulty.has(8).then_some([1, 2, 1]).into_iter().flatten());
        named.extend(faulty.has(7).then_some(3_000));
        named.extend(faulty.has(9).then_some(3));
        let tail = if faulty.has(3) { "\t" } else { "" };
        let words = faulty.card(place, &named) + tail;
        faulty.lines.push(Line { words, fault: None });
        let refusal = match faults.first() {
            Some(number) => (*number, faulty.lines.len()),
            None => ACCEPTED,
        };
        answered(session, &faulty.text(), refusal)?;
    }
    Ok(())
}

fn every_set(session: &mut Session) -> Result<(), String> {
    let mut random = Random::for_test("sets of faults in catalogues");
    for bits in 0..1 << FAULTS.len() {
        let faults = subset(&FAULTS, bits);
        for _ in 0..ARRANGEMENTS {
            let mut faulty = Faulty::new(&faults);
            for fault in OF_LINES.into_iter().filter(|fault| faults.contains(fault)) {
                let at = random.between(1, faulty.lines.len());
                faulty.put_in(at, fault);
            }
            hold_set(session, &faulty)?;
        }
    }
    Ok(())
}

fn hold_set(session: &mut Session, faulty: &Faulty) -> Result<(), String> {
    let text = faulty.text();
    let old = OldForm::of(&text);
    // shorter than what any of these could have
    let room = if faulty.has(10) {
        3
    } else {
        old.answer_length()
    };
    let (answer, right) = (old.answer(room), faulty.refusal());
    let is_right = answer.refusal == right.0 && (right.0 == 0 || answer.value as usize == right.1);
    session.count();
    match is_right {
        true => session.hold_old_form(&text, &old, Room::Of(room)),
        false => Err(format!(
            "{text}: the second solver has {} {}, the set {:?} {right:?}",
            answer.refusal, answer.value, faulty.set
        )),
    }
}
