//! Catalogues with one fault, at the first line that can have it, in the middle and at the last: the
//! refusal's number and line. What only looks like a fault is accepted.

use super::{answered, Test, ACCEPTED};
use crate::inputs::page::{ends, Page};
use crate::inputs::text::Text;
use crate::library::session::Session;
use crate::random::Random;

/// Statements and objections of the catalogues that get a fault.
const SIZES: [(usize, usize); 5] = [(2, 2), (3, 5), (9, 30), (60, 300), (1_000, 2_000)];

pub fn tests() -> Vec<Test> {
    vec![
        Test::new("a catalogue that is not ended: refusal 2", not_ended),
        Test::new("a spoiled line of a catalogue: refusal 3", spoiled),
        Test::new("a number issued by two lines: refusal 5", issued_twice),
        Test::new("an objector that no line lists: refusal 7", unknown),
        Test::new("an objector named twice: refusal 8", repeated),
        Test::new("a catalogue with its lines in another order", any_order),
        Test::new("every number named before its line", early),
        Test::new("every statement names itself", themselves),
        Test::new("one objector on every line", on_every_line),
    ]
}

/// Does the same with a random catalogue of each size.
fn each(
    name: &str,
    mut hold: impl FnMut(&mut Random, Page) -> Result<(), String>,
) -> Result<(), String> {
    let mut random = Random::for_test(&format!("catalogues: {name}"));
    for (statements, objections) in SIZES {
        let page = Page::random_catalogue(&mut random, statements, objections);
        hold(&mut random, page)?;
    }
    Ok(())
}

fn not_ended(session: &mut Session) -> Result<(), String> {
    each("not ended", |_, page| {
        let whole = page.text();
        let cut = Text(whole.0[..whole.0.len() - 1].to_vec());
        answered(session, &cut, (2, 0))?;
        for byte in [0, 9, 11, 13, 32, b'1', b'R', 255] {
            answered(session, &Text([&cut.0[..], &[byte]].concat()), (2, 0))?;
            answered(session, &Text([&whole.0[..], &[byte]].concat()), (2, 0))?;
        }
        Ok(())
    })?;
    for byte in (0..=255).filter(|byte| *byte != b'\n') {
        answered(session, &Text(vec![byte]), (2, 0))?;
    }
    Ok(())
}

fn spoiled(session: &mut Session) -> Result<(), String> {
    each("spoiled", |random, page| {
        for at in ends(0, page.lines.len()) {
            let line = &page.lines[at];
            let number = page.numbers[random.below(page.statements())];
            for spoiled in [
                "",
                &line[1..],
                &line.replace('\t', " "),
                &line.to_lowercase(),
                &line.replacen('S', "O", 1),
                &format!("\t{line}"),
                &format!("{line}\t"),
                &format!("{line}\t\t{number}"),
                &format!("{line}\t{number}\r"),
                &format!("{line}\tR"),
                &format!("O\t{number}\t{number}"),
            ] {
                answered(session, &page.replaced(at, spoiled), (3, at + 1))?;
            }
        }
        Ok(())
    })
}

/// The second line has an objector or none, and the same mark or the other.
fn issued_twice(session: &mut Session) -> Result<(), String> {
    each("issued twice", |random, page| {
        let lines = page.lines.len();
        for first in ends(0, lines) {
            for again in [first + 1, (first + 1 + lines) / 2, lines] {
                let other = page.numbers[random.below(page.statements())];
                for tail in ["R", "U", &format!("R\t{other}")] {
                    let line = format!("S\t{}\t{tail}", page.numbers[first]);
                    answered(session, &page.with(again, &line), (5, again + 1))?;
                }
            }
        }
        Ok(())
    })
}

/// Before the known objectors, between them and behind them; two at once, and one twice.
fn unknown(session: &mut Session) -> Result<(), String> {
    each("unknown", |random, page| {
        let (one, other) = (page.unissued(random), page.unissued(random));
        for at in ends(0, page.lines.len()) {
            let known = page.objectors(at);
            for between in ends(0, known.len() + 1) {
                for numbers in [vec![one], vec![one, other], vec![one, one]] {
                    let mut named = known.clone();
                    named.splice(between..between, numbers.iter().map(ToString::to_string));
                    let text = page.replaced(at, &page.naming(at, &named));
                    answered(session, &text, (7, at + 1))?;
                }
            }
        }
        Ok(())
    })
}

/// Each of the first, the middle and the last objector comes again: first of all, between and last.
fn repeated(session: &mut Session) -> Result<(), String> {
    each("repeated", |_, page| {
        for at in ends(0, page.lines.len()) {
            let mut once = page.objectors(at);
            if once.is_empty() {
                once.push(page.numbers[0].to_string());
            }
            for first in ends(0, once.len()) {
                for again in ends(0, once.len() + 1) {
                    let mut named = once.clone();
                    named.insert(again, once[first].clone());
                    let text = page.replaced(at, &page.naming(at, &named));
                    answered(session, &text, (8, at + 1))?;
                }
            }
        }
        Ok(())
    })
}

fn any_order(session: &mut Session) -> Result<(), String> {
    each("any order", |random, mut page| {
        page.lines.reverse();
        answered(session, &page.text(), ACCEPTED)?;
        random.shuffle(&mut page.lines);
        answered(session, &page.text(), ACCEPTED)
    })
}

/// Each line names the two behind it, and the last ones nobody; then each names the two before it.
fn early(session: &mut Session) -> Result<(), String> {
    each("early", |_, page| {
        let naming = |at: usize| {
            let behind = page.numbers.iter().skip(at + 1).take(2);
            page.naming(at, &behind.collect::<Vec<_>>())
        };
        let mut lines: Vec<String> = (0..page.lines.len()).map(naming).collect();
        answered(session, &Text::of_lines(&lines), ACCEPTED)?;
        lines.reverse();
        answered(session, &Text::of_lines(&lines), ACCEPTED)
    })
}

/// Alone, and then beside the line before it.
fn themselves(session: &mut Session) -> Result<(), String> {
    each("themselves", |_, page| {
        for more in 0..2 {
            let naming = |at: usize| {
                let least = at.saturating_sub(more);
                page.naming(at, &page.numbers[least..=at])
            };
            let lines: Vec<String> = (0..page.lines.len()).map(naming).collect();
            answered(session, &Text::of_lines(&lines), ACCEPTED)?;
        }
        Ok(())
    })
}

/// It is named twice in the catalogue, but on no line; then on one line too.
fn on_every_line(session: &mut Session) -> Result<(), String> {
    each("on every line", |_, page| {
        for number in ends(0, page.statements()).map(|at| page.numbers[at]) {
            let naming = |at: usize| page.naming(at, &[number]);
            let mut lines: Vec<String> = (0..page.lines.len()).map(naming).collect();
            answered(session, &Text::of_lines(&lines), ACCEPTED)?;
            for at in ends(0, lines.len()) {
                lines[at] = page.naming(at, &[number, number]);
                answered(session, &Text::of_lines(&lines), (8, at + 1))?;
                lines[at] = naming(at);
            }
        }
        Ok(())
    })
}
