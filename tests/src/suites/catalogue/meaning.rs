//! The second solver's way back against 02's sentences, taken another way: a line is what its words
//! are when they are put together again, each sentence is asked of each line by itself, and the
//! length of the old form is counted and not measured. The limits are lowered, so that short
//! catalogues reach them too.

use super::short::{ALL_OF, LINES, MOST_LINES};
use super::Test;
use crate::inputs::text::Text;
use crate::library::session::Session;
use crate::random::Random;
use crate::second::catalogue::{Most, OldForm};
use crate::second::number::Number;

/// How many longer catalogues are tried.
const SAMPLED: usize = 40_000;

/// Limits that a catalogue of a few lines can reach, and those that it cannot.
const LIMITS: [Most; 5] = [
    most(26, 9, 9),
    most(60, 1, 9),
    most(60, 9, 2),
    most(60, 2, 3),
    most(999, 99, 99),
];

/// The least times that each refusal must come, and acceptance; of 1 there are two kinds.
const LEAST: usize = 50;

const fn most(bytes: usize, statements: usize, objectors: usize) -> Most {
    Most {
        bytes,
        statements,
        objectors,
    }
}

pub fn tests() -> Vec<Test> {
    vec![
        Test::new("the way back is what 02 says: every short catalogue", every),
        Test::new("the way back is what 02 says: sampled", sampled),
    ]
}

fn every(session: &mut Session) -> Result<(), String> {
    let mut met = [0; 11];
    for catalogue in (0..=ALL_OF).flat_map(|lines| LINES.every(lines)) {
        // one with no byte to spare, so that any objection makes the old form too long
        for most in LIMITS.into_iter().chain([most(catalogue.0.len(), 9, 9)]) {
            agree(session, &catalogue, most, &mut met)?;
        }
    }
    all_met(&met)
}

fn sampled(session: &mut Session) -> Result<(), String> {
    let mut random = Random::for_test("what 02 says of catalogues");
    let mut met = [0; 11];
    for _ in 0..SAMPLED {
        let lines = random.between(1, MOST_LINES) as u32;
        let catalogue = LINES.text(lines, random.below(LINES.count(lines)));
        let bytes = (catalogue.0.len() + random.below(24)).saturating_sub(2);
        let limits = most(bytes, random.between(1, 8), random.below(16));
        agree(session, &catalogue, limits, &mut met)?;
    }
    all_met(&met)
}

/// Where every line is ended, 2 does not come; 4 never does.
fn all_met(met: &[usize; 11]) -> Result<(), String> {
    let rare = |refusal: &&usize| met[**refusal] < LEAST;
    match [0, 1, 3, 5, 6, 7, 8, 9, 10].iter().find(rare) {
        Some(refusal) => Err(format!("refusal {refusal} hardly ever comes: {met:?}")),
        None => Ok(()),
    }
}

/// Counts the refusal of a catalogue, and as 10 that of too long an old form.
fn agree(
    session: &mut Session,
    catalogue: &Text,
    most: Most,
    met: &mut [usize; 11],
) -> Result<(), String> {
    session.count();
    let old = OldForm::within(catalogue, most);
    let said = Said::of(catalogue);
    let right = said.refused_as(catalogue, most);
    let text = if right == (0, 0) {
        said.text()
    } else {
        Vec::new()
    };
    if old.refused_as() != right || old.text.0 != text {
        let has = old.refused_as();
        return Err(format!(
            "{catalogue}: {has:?} and not {right:?}, {}",
            old.text
        ));
    }
    let is_old = right == (1, 0) && catalogue.0.len() <= most.bytes;
    met[if is_old { 10 } else { right.0 as usize }] += 1;
    Ok(())
}

/// The words of each line that is sound; None for one that is spoiled.
struct Said(Vec<Option<Vec<String>>>);

impl Said {
    fn of(catalogue: &Text) -> Self {
        let text = String::from_utf8_lossy(&catalogue.0);
        Said(text.split_terminator('\n').map(words).collect())
    }

    fn number(&self, at: usize) -> Option<&String> {
        self.0[at].as_ref().map(|words| &words[1])
    }

    fn objectors(&self, at: usize) -> &[String] {
        self.0[at].as_ref().map_or(&[], |words| &words[3..])
    }

    /// Whether the line at this index has this fault, whatever else is wrong.
    fn has(&self, fault: u32, at: usize, most: Most) -> bool {
        let named = self.objectors(at);
        let is_listed = |number: &String| (0..self.0.len()).any(|j| self.number(j) == Some(number));
        match fault {
            3 => self.0[at].is_none(),
            6 => at + 1 > most.statements,
            5 => (0..at).any(|before| self.number(before) == self.number(at)),
            9 => (0..=at).map(|j| self.objectors(j).len()).sum::<usize>() > most.objectors,
            7 => !named.iter().all(is_listed),
            _ => (0..named.len()).any(|j| named[..j].contains(&named[j])),
        }
    }

    fn refused_as(&self, catalogue: &Text, most: Most) -> (u32, u32) {
        let at_fault = |faults: &[u32]| {
            let lines = 0..self.0.len();
            let mut rows = lines.flat_map(|at| faults.iter().map(move |fault| (*fault, at)));
            let found = rows.find(|(fault, at)| self.has(*fault, *at, most));
            found.map(|(fault, at)| (fault, at as u32 + 1))
        };
        let bytes = catalogue.0.len();
        let is_unended = bytes > 0 && !catalogue.0.ends_with(b"\n");
        let rows = [
            (bytes > most.bytes).then_some((1, 0)),
            is_unended.then_some((2, 0)),
            at_fault(&[3, 6, 5, 9]),
            at_fault(&[7]),
            at_fault(&[8]),
            (bytes + self.more_bytes() > most.bytes).then_some((1, 0)),
        ];
        rows.into_iter().flatten().next().unwrap_or((0, 0))
    }

    /// How many bytes the old form has more: of each objection its target's number, and 3.
    fn more_bytes(&self) -> usize {
        let on =
            |at: usize| self.objectors(at).len() * (self.number(at).map_or(0, String::len) + 3);
        (0..self.0.len()).map(on).sum()
    }

    fn text(&self) -> Vec<u8> {
        let mut lines: Vec<String> = self
            .0
            .iter()
            .flatten()
            .map(|words| words[..3].join("\t"))
            .collect();
        for at in 0..self.0.len() {
            let target = self.number(at).map_or("", |number| number);
            for objector in self.objectors(at) {
                lines.push(["O", objector, target].join("\t"));
            }
        }
        Text::of_lines(&lines).0
    }
}

fn words(line: &str) -> Option<Vec<String>> {
    let words: Vec<&str> = line.split_ascii_whitespace().collect();
    let is_number = |word: &&str| Number::read(word.as_bytes()).is_some();
    let is_sound = words.join("\t") == line
        && words.len() >= 3
        && words[0] == "S"
        && ["R", "U"].contains(&words[2])
        && words[1..].iter().filter(|word| is_number(word)).count() == words.len() - 2;
    is_sound.then(|| words.into_iter().map(String::from).collect())
}
