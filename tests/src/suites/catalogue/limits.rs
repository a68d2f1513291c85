//! Catalogues at the limits and past them: 1,024 statements, 4,096 objectors and one more of each, on
//! many lines and on one, with unknown and repeated ones among them; and 65,535 bytes, which no
//! catalogue without a fault has.

use super::{answered, Test, ACCEPTED};
use crate::inputs::lists::Lists;
use crate::inputs::numbers::written_as;
use crate::inputs::page::{ends, Page};
use crate::inputs::text::Text;
use crate::library::session::Session;
use crate::random::Random;
use crate::second::number::Number;
use crate::second::refusals::{MOST_OBJECTIONS, MOST_STATEMENTS};
use crate::second::register::MOST_BYTES;

/// A length cut down to 16 bits would take this one for nothing.
const CUT: usize = 1 << 16;

pub fn tests() -> Vec<Test> {
    vec![
        Test::new("the empty catalogue is accepted", empty),
        Test::new("catalogue: 1,024 statements are accepted", most_statements),
        Test::new("catalogue: the 1,025th statement", too_many_statements),
        Test::new("catalogue: 4,096 objectors are accepted", most_objectors),
        Test::new("catalogue: the 4,097th objector", too_many_objectors),
        Test::new("catalogue: the 4,097th objector on full lines", full_lines),
        Test::new("catalogue: 4,096 and 4,097 on one line", one_line),
        Test::new("catalogue: the 4,097th before 7 and 8", before_others),
        Test::new("catalogue: 65,535 bytes are read", most_bytes),
        Test::new("catalogue: more than 65,535 bytes", too_many_bytes),
    ]
}

fn empty(session: &mut Session) -> Result<(), String> {
    answered(session, &Text::default(), ACCEPTED)
}

fn most_statements(session: &mut Session) -> Result<(), String> {
    let mut random = Random::for_test("most cards");
    for objections in [0, 1, 1_024] {
        for statements in [MOST_STATEMENTS - 1, MOST_STATEMENTS] {
            let page = Page::random_catalogue(&mut random, statements, objections);
            answered(session, &page.text(), ACCEPTED)?;
        }
    }
    Ok(())
}

/// Whatever is behind it, whether it is issued already or not, and with any number of objectors.
fn too_many_statements(session: &mut Session) -> Result<(), String> {
    let mut random = Random::for_test("too many cards");
    let line = MOST_STATEMENTS + 1;
    for statements in [line, line + 1, 2 * line] {
        for objections in [0, 3, 900] {
            let mut page = Page::random_catalogue(&mut random, statements, objections);
            answered(session, &page.text(), (6, line))?;
            page.lines[MOST_STATEMENTS] = format!("S\t{}\tU", page.numbers[0]);
            answered(session, &page.text(), (6, line))?;
            page.lines[MOST_STATEMENTS] += &"\t9".repeat(MOST_OBJECTIONS + 1);
            answered(session, &page.text(), (6, line))?;
            page.lines[MOST_STATEMENTS] += "\t";
            answered(session, &page.text(), (3, line))?;
        }
    }
    Ok(())
}

/// 64 statements have no more than 4,096 objections: each against each, itself included.
fn most_objectors(session: &mut Session) -> Result<(), String> {
    let mut random = Random::for_test("most objectors");
    for statements in [64, 65, 300, MOST_STATEMENTS] {
        for objections in [MOST_OBJECTIONS - 1, MOST_OBJECTIONS] {
            let page = Page::random_catalogue(&mut random, statements, objections);
            answered(session, &page.text(), ACCEPTED)?;
        }
    }
    Ok(())
}

/// The line with the 4,097th field behind a mark.
fn line_too_many(page: &Page) -> usize {
    let mut named = 0;
    let is_over = |at: &usize| {
        named += page.objectors(*at).len();
        named > MOST_OBJECTIONS
    };
    1 + (0..page.lines.len()).find(is_over).expect("too many")
}

fn too_many_objectors(session: &mut Session) -> Result<(), String> {
    let mut random = Random::for_test("too many objectors");
    for (statements, objections) in [(65, 4_097), (90, 5_000), (300, 4_097), (1_024, 4_097)] {
        let mut page = Page::random_catalogue(&mut random, statements, objections);
        answered(session, &page.text(), (9, line_too_many(&page)))?;
        // the lines in the opposite order: another one has it
        page.lines.reverse();
        answered(session, &page.text(), (9, line_too_many(&page)))?;
    }
    Ok(())
}

/// The numbers from 1 to so many, and a line without objectors for each.
fn bare(statements: usize) -> Page {
    let number = |number: usize| written_as(&number.to_string());
    let numbers: Vec<Number> = (1..=statements).map(number).collect();
    Page::catalogue(&Lists::new(vec![0; statements], &[]), &numbers)
}

/// Four lines on which all 1,024 are named, at the beginning, in the middle and at the end; then one
/// more objector, behind them or before them.
fn full_lines(session: &mut Session) -> Result<(), String> {
    let all: Vec<usize> = (1..=MOST_STATEMENTS).collect();
    for first in [1, 510, MOST_STATEMENTS - 5] {
        let mut page = bare(MOST_STATEMENTS);
        for at in first..first + 4 {
            page.lines[at] = page.naming(at, &all);
        }
        answered(session, &page.text(), ACCEPTED)?;
        for at in [first + 4, MOST_STATEMENTS - 1] {
            let text = page.replaced(at, &page.naming(at, &[1]));
            answered(session, &text, (9, at + 1))?;
        }
        // before them, the last of the four has the 4,097th
        for at in [0, first - 1] {
            let text = page.replaced(at, &page.naming(at, &[1]));
            answered(session, &text, (9, first + 4))?;
        }
        // and with one less on a line there is space for it
        page.lines[first] = page.naming(first, &all[1..]);
        let text = page.replaced(0, &page.naming(0, &[1]));
        answered(session, &text, ACCEPTED)?;
    }
    Ok(())
}

/// No line has so many different ones that are listed: they are unknown, or come again.
fn one_line(session: &mut Session) -> Result<(), String> {
    let page = bare(70);
    let unknown = |count: usize| (5_000..5_000 + count).collect::<Vec<_>>();
    let repeated = |count: usize| vec![1; count];
    let both = |count: usize| -> Vec<usize> { (1..=count).map(|field| field % 100 + 1).collect() };
    for at in ends(0, page.lines.len()) {
        for (fields, refusal) in [
            (unknown(MOST_OBJECTIONS), 7),
            (repeated(MOST_OBJECTIONS), 8),
            (both(MOST_OBJECTIONS), 7),
            (unknown(MOST_OBJECTIONS + 1), 9),
            (repeated(MOST_OBJECTIONS + 1), 9),
            (both(MOST_OBJECTIONS + 1), 9),
            (repeated(2 * MOST_OBJECTIONS), 9),
        ] {
            let line = page.naming(at, &fields);
            answered(session, &page.replaced(at, &line), (refusal, at + 1))?;
            // issued by the line before it, and spoiled behind all of them
            answered(session, &page.with(at + 1, &line), (5, at + 2))?;
            for tail in ["\t", "\t0", "\tR", "\r"] {
                let text = page.replaced(at, &format!("{line}{tail}"));
                answered(session, &text, (3, at + 1))?;
            }
        }
    }
    Ok(())
}

/// Unknown and repeated objectors on the lines before the 4,097th, on its own, and behind it; without
/// it, what is unknown comes first.
fn before_others(session: &mut Session) -> Result<(), String> {
    let mut page = bare(70);
    let all: Vec<usize> = (1..=64).collect();
    for at in 0..64 {
        page.lines[at] = page.naming(at, &all);
    }
    for (at, odd) in [(0, 99), (30, 99), (63, 99), (0, 2), (30, 2), (63, 2)] {
        // in the place of the first objector, so that there are as many
        let mut named = all.clone();
        named[0] = odd;
        let mut page = page.clone();
        page.lines[at] = page.naming(at, &named);
        let refusal = if odd == 99 { 7 } else { 8 };
        answered(session, &page.text(), (refusal, at + 1))?;
        for last in [64, 69] {
            for fields in [vec![1], vec![99], vec![2, 2], vec![99, 99, 1]] {
                let text = page.replaced(last, &page.naming(last, &fields));
                answered(session, &text, (9, last + 1))?;
            }
        }
    }
    Ok(())
}

fn most_bytes(session: &mut Session) -> Result<(), String> {
    for (text, refusal) in with_bytes(MOST_BYTES) {
        if text.0.len() != MOST_BYTES {
            return Err(format!("{} bytes", text.0.len()));
        }
        answered(session, &text, refusal)?;
        // not ended; and spoiled by its last byte, which 6 alone comes before
        let unended = Text([&text.0[..MOST_BYTES - 1], b"1"].concat());
        answered(session, &unended, (2, 0))?;
        let spoiled = Text([&text.0[..MOST_BYTES - 2], b"x\n"].concat());
        let refusal = match refusal {
            (6, line) => (6, line),
            (_, line) => (3, line),
        };
        answered(session, &spoiled, refusal)?;
    }
    Ok(())
}

/// Texts of so many bytes, and what is wrong with them if they are not too long: blank lines, one line
/// to the end, the same behind many that are sound, objectors of one statement to the end, and
/// statements to the end.
fn with_bytes(bytes: usize) -> [(Text, (u32, usize)); 5] {
    let filled = |start: &str, more: &str| {
        let mut text = [start, &more.repeat(bytes)].concat().into_bytes();
        text.truncate(bytes - 1);
        Text([&text[..], b"\n"].concat())
    };
    let sound = bare(1_000).text();
    let sound = String::from_utf8_lossy(&sound.0);
    // each objector has two bytes, so that it takes a number of one digit or of two
    let objected = format!("S\t{}\tR", if bytes % 2 == 1 { 10 } else { 1 });
    let line = |place: usize| format!("S\t{}\tR\n", 10_000_000 + place);
    let statements: String = (0..bytes.div_ceil(13)).map(line).collect();
    [
        (Text(vec![b'\n'; bytes]), (3, 1)),
        (filled("", "1"), (3, 1)),
        (filled(&sound, "1"), (3, 1_001)),
        (filled(&objected, "\t1"), (9, 1)),
        (filled(&statements, ""), (6, 1_025)),
    ]
}

/// The same with a byte more; and what would be sound after a cut.
fn too_many_bytes(session: &mut Session) -> Result<(), String> {
    for bytes in [CUT, CUT + 1, CUT + 8, 2 * CUT - 1, 2 * CUT, 200_000] {
        for (text, _) in with_bytes(bytes) {
            answered(session, &text, (1, 0))?;
        }
        let sound = Text::typed("S 1 R 2 1\nS 2 U\nS 3 R\n");
        let mut text = Text(sound.0.repeat(bytes.div_ceil(sound.0.len())));
        answered(session, &text, (1, 0))?;
        text.0.truncate(bytes);
        answered(session, &text, (1, 0))?;
    }
    Ok(())
}
