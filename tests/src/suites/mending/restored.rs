//! The last promise of mending. Statements are lost, and the objections against them; those by them
//! remain, and are dropped. Then the lost numbers are listed after all, with random marks and random
//! objections against them, and the dropped objections and the old marks are put back: nothing that
//! falls or stands in the mended register may be overturned, nor take more turns. The limits do not
//! bind what is put back.

use super::{hold, Test};
use crate::inputs::lists::Lists;
use crate::inputs::numbers;
use crate::inputs::shapes::{Shape, SHAPES};
use crate::inputs::text::{lines_of, Text};
use crate::library::session::Session;
use crate::random::Random;
use crate::second::expected::Expected;
use crate::second::mend::{Fate, UNKNOWN};
use crate::second::number::Number;
use crate::second::refusals::{MOST_OBJECTIONS, MOST_STATEMENTS};
use crate::second::rounds;
use crate::second::text::{self, Line};
use crate::second::verdict::Verdict::{self, Falls, Open, Stands};
use std::collections::HashMap;

/// How many registers there are, of how many statements and pairs at the most, how many statements
/// are lost at the most, and how many times each is put back. Of the last, more than the limit, so
/// many are lost that the limit is left. Every other register is read throughout.
const SIZES: [(usize, (usize, usize), usize, usize); 4] = [
    (150, (12, 30), 5, 8),
    (40, (100, 300), 30, 6),
    (3, (600, 1_600), 100, 4),
    (2, (MOST_STATEMENTS + 200, MOST_OBJECTIONS), 200, 4),
];

/// How many objections there are at the most against a number that is listed after all.
const AGAINST: [usize; 4] = [0, 1, 2, 40];

/// Statements of mended registers, by what became of them.
#[derive(Debug, Default)]
struct Met {
    stayed: usize,
    opened_up: usize,
}

pub fn tests() -> Vec<Test> {
    let test = |shape: &'static Shape| {
        let name = format!("mended, and then put back: {}", shape.name);
        Test::new(name, move |session| hold_shape(session, shape))
    };
    SHAPES.iter().map(test).collect()
}

fn hold_shape(session: &mut Session, shape: &Shape) -> Result<(), String> {
    let mut random = Random::for_test(&format!("put back: {}", shape.name));
    let mut met = Met::default();
    for (count, (most_statements, pairs), most_lost, times) in SIZES {
        for _ in 0..count {
            // past the limits all of it is wanted
            let least = match most_statements > MOST_STATEMENTS {
                true => (most_statements, most_lost),
                false => (1, 1),
            };
            let statements = random.between(least.0, most_statements);
            let lost = random.between(least.1, most_lost);
            let mut lists = shape.register(&mut random, statements, pairs);
            if random.once_in(2) {
                lists.marks.fill(0);
            }
            let text = with_lost(&mut random, &lists, lost);
            hold_restored(session, &mut random, &text, times, &mut met)?;
        }
    }
    match met.stayed.min(met.opened_up) {
        0..=99 => Err(format!("statements are too much alike: {met:?}")),
        _ => Ok(()),
    }
}

/// A text of this register without so many of its statements and without the objections against
/// them. Some of those by them come twice.
fn with_lost(random: &mut Random, lists: &Lists, lost: usize) -> Text {
    let mut order: Vec<usize> = (0..lists.marks.len()).collect();
    random.shuffle(&mut order);
    let is_lost = |place: usize| order.iter().take(lost).any(|one| *one == place);
    let numbers = numbers::fitting(random, lists);
    let lines = lines_of(lists, &numbers);
    let (statements, objections) = lines.split_at(numbers.len());
    let listed = statements.iter().enumerate();
    let listed = listed.filter(|(place, _)| !is_lost(*place));
    let mut kept: Vec<&String> = listed.map(|(_, line)| line).collect();
    for (line, (objector, target)) in objections.iter().zip(lists.objections()) {
        let times = match is_lost(objector) {
            true => 1 + usize::from(random.once_in(4)),
            false => 1,
        };
        let times = if is_lost(target) { 0 } else { times };
        kept.extend([line].repeat(times));
    }
    Text::of_lines(&kept)
}

fn hold_restored(
    session: &mut Session,
    random: &mut Random,
    text: &Text,
    times: usize,
    met: &mut Met,
) -> Result<(), String> {
    let mending = hold(session, text)?;
    let before = Expected::of_text(&mending.text).verdicts;
    let found = Found::of(text, &mending.fates)?;
    for _ in 0..times {
        session.count();
        let after = rounds::verdicts(&found.restored(random));
        for (place, (before, after)) in before.iter().zip(&after).enumerate() {
            if is_overturned(*before, *after) {
                return Err(format!("{text}: {before:?} at {place} becomes {after:?}"));
            }
            met.stayed += usize::from(*before != Open);
            met.opened_up += usize::from(*before == Open && *after != Open);
        }
    }
    Ok(())
}

fn is_overturned(before: Verdict, after: Verdict) -> bool {
    match (before, after) {
        (Open, _) => false,
        (Falls(turns), Falls(now)) | (Stands(turns), Stands(now)) => now > turns,
        _ => true,
    }
}

/// What was found in a text of which only objections by unknown numbers against listed statements
/// were dropped: the numbers, the listed ones first, the marks of those, and all objections, each
/// once.
struct Found {
    numbers: Vec<Number>,
    marks: Vec<u8>,
    objections: Vec<(Number, Number)>,
}

impl Found {
    fn of(text: &Text, fates: &[Fate]) -> Result<Self, String> {
        let mut found = Found {
            numbers: Vec::new(),
            marks: Vec::new(),
            objections: Vec::new(),
        };
        for (line, fate) in text::lines(&text.0).iter().zip(fates) {
            match (line, fate) {
                (Some(Line::Statement { number, unread }), Fate::Kept) => {
                    found.numbers.push(*number);
                    found.marks.push(u8::from(*unread));
                }
                (Some(Line::Objection { objector, target }), Fate::Kept) => {
                    found.objections.push((*objector, *target));
                }
                (Some(Line::Objection { objector, target }), Fate::Dropped(UNKNOWN)) => {
                    found.put_back(*objector, *target)?;
                }
                _ => return Err(format!("{text}: {line:?} is {fate:?}")),
            }
        }
        Ok(found)
    }

    fn put_back(&mut self, objector: Number, target: Number) -> Result<(), String> {
        let listed = self.marks.len();
        if self.numbers[..listed].contains(&objector) || !self.numbers[..listed].contains(&target) {
            return Err(format!("{objector} against {target}"));
        }
        if !self.numbers.contains(&objector) {
            self.numbers.push(objector);
        }
        if !self.objections.contains(&(objector, target)) {
            self.objections.push((objector, target));
        }
        Ok(())
    }

    /// The register with all of it. Those that were not listed get random marks, and objections by
    /// any.
    fn restored(&self, random: &mut Random) -> Lists {
        let places: HashMap<Number, u32> = self.numbers.iter().copied().zip(0..).collect();
        let place = |(objector, target): &(Number, Number)| (places[objector], places[target]);
        let mut pairs: Vec<(u32, u32)> = self.objections.iter().map(place).collect();
        let (listed, all) = (self.marks.len(), self.numbers.len());
        let unread = random.between(1, 6);
        let mut marks = self.marks.clone();
        marks.resize_with(all, || u8::from(random.once_in(unread)));
        let most = AGAINST[random.below(AGAINST.len())];
        for target in listed..all {
            for _ in 0..random.below(most + 1) {
                pairs.push((random.below(all) as u32, target as u32));
            }
        }
        pairs.sort();
        pairs.dedup();
        Lists::new(marks, &pairs)
    }
}
