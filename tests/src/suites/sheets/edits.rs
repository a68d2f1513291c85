//! A sheet that is kept while its register is edited: after each edit of marks or objections the old
//! sheet is updated, and equals one that is made afresh. Bytes without a changed label are as found,
//! and each test makes sure that it has met many such bytes, and many of the others.

use super::{Case, Test};
use crate::inputs::edits::edited;
use crate::inputs::lists::Lists;
use crate::inputs::numbers;
use crate::inputs::shapes::{Shape, SHAPES};
use crate::inputs::text::Text;
use crate::library::session::Session;
use crate::random::Random;
use crate::second::expected::Expected;
use crate::second::refusals::{MOST_OBJECTIONS, MOST_STATEMENTS};

/// How many registers there are, of how many statements and pairs at the most, and how many times
/// each is edited.
const SIZES: [(usize, (usize, usize), usize); 4] = [
    (100, (12, 20), 12),
    (15, (120, 200), 12),
    (2, (600, 800), 12),
    (1, (MOST_STATEMENTS, MOST_OBJECTIONS), 4),
];

/// The most edits at once.
const AT_ONCE: usize = 4;

/// Bytes of updated sheets.
#[derive(Debug, Default)]
struct Met {
    changed: usize,
    as_found: usize,
}

pub fn tests() -> Vec<Test> {
    let test = |shape: &'static Shape| {
        let name = format!("sheets kept through edits: {}", shape.name);
        Test::new(name, move |session| hold(session, shape))
    };
    SHAPES.iter().map(test).collect()
}

fn hold(session: &mut Session, shape: &Shape) -> Result<(), String> {
    let mut random = Random::for_test(&format!("edits of {}", shape.name));
    let mut met = Met::default();
    for (count, (most_statements, pairs), days) in SIZES {
        for _ in 0..count {
            let statements = random.between(most_statements / 2, most_statements);
            let lists = shape.register(&mut random, statements, pairs);
            hold_days(session, &mut random, lists, days, &mut met)?;
        }
    }
    match met.changed.min(met.as_found) {
        0..=99 => Err(format!("bytes are too much alike: {met:?}")),
        _ => Ok(()),
    }
}

/// Edits the register so many times, and keeps its sheet.
fn hold_days(
    session: &mut Session,
    random: &mut Random,
    mut lists: Lists,
    days: usize,
    met: &mut Met,
) -> Result<(), String> {
    // they leave space for more objections
    let numbers = numbers::fitting(random, &lists);
    let mut before = Case::of(Text::written(&lists, &numbers));
    for _ in 0..days {
        let count = random.between(1, AT_ONCE);
        lists = edited(random, &lists, count);
        let now = Case::of(Text::written(&lists, &numbers));
        now.hold_fresh(session)?;
        now.hold_updated(session, &before.expected.sheet())?;
        session.count();
        compare(&before.expected, &now.expected, met)
            .map_err(|what| format!("{}: {what}", now.text))?;
        before = now;
    }
    Ok(())
}

/// Goes through the bytes of both sheets, with the labels of their statements.
fn compare(before: &Expected, now: &Expected, met: &mut Met) -> Result<(), String> {
    let (old, new) = (before.sheet().bytes, now.sheet().bytes);
    let (labels, labels_now) = (before.labels(), now.labels());
    let fours = labels.chunks(4).zip(labels_now.chunks(4));
    for (at, (four, four_now)) in fours.enumerate() {
        if (four == four_now) != (old[at] == new[at]) {
            return Err(format!("byte {at} was {} and is {}", old[at], new[at]));
        }
        match four == four_now {
            true => met.as_found += 1,
            false => met.changed += 1,
        }
    }
    Ok(())
}
