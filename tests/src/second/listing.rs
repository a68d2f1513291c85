//! What the programs print, by 01's example and the sentences below it: the listing of a register,
//! the reason for a statement, which has some of the same rows, or the one line of a refusal.

use super::expected::{Expected, Question};
use super::number;
use super::refusals::Refusal;
use super::verdict::NO_LENGTH;

const LABELS: [&str; 3] = ["open", "stands", "falls"];
const KINDS: [&str; 4] = ["idle", "felling", "delaying", "standoff"];

/// What a program prints that asks this of a text, and has space enough for the answer.
pub fn print(expected: &Expected, question: Question) -> Vec<u8> {
    let answer = expected.answer(question, &[usize::MAX]);
    match answer.refusal {
        0 => answer.rooms[0].iter().map(|byte| *byte as u8).collect(),
        number => refused(Refusal {
            number,
            place: answer.value,
        }),
    }
}

/// The one line that a program prints where it is refused.
pub fn refused(Refusal { number, place }: Refusal) -> Vec<u8> {
    format!("REFUSED\t{number}\t{place}\n").into_bytes()
}

/// The header, then the statements, then the objections.
pub fn listing(expected: &Expected) -> String {
    let (statements, objections) = (expected.register.numbers.len(), expected.kinds.len());
    let header = format!("REGISTER\t{statements}\t{objections}\n");
    let statements = (0..statements).map(|place| statement(expected, place));
    let objections = (0..objections).map(|entry| objection(expected, entry));
    std::iter::once(header)
        .chain(statements)
        .chain(objections)
        .collect()
}

/// The row of the statement at this place.
pub fn statement(expected: &Expected, place: usize) -> String {
    let verdict = expected.verdicts[place];
    let number = number(expected, place);
    let label = LABELS[verdict.label() as usize];
    format!("{number}\t{label}\t{}\n", length(verdict.length()))
}

/// The row of the objection at this entry.
pub fn objection(expected: &Expected, entry: usize) -> String {
    let lists = &expected.register.lists;
    let (objector, target) = (lists.objectors[entry], lists.targets[entry]);
    let (kind, turns) = expected.kinds[entry];
    format!(
        "{}\t{}\t{}\t{}\n",
        number(expected, objector as usize),
        number(expected, target as usize),
        KINDS[kind as usize],
        length(turns)
    )
}

/// The number of the statement at this place, as it is written.
fn number(expected: &Expected, place: usize) -> String {
    number::written(expected.register.numbers[place]).expect("the code of a number")
}

fn length(length: u32) -> String {
    match length {
        NO_LENGTH => "-".to_string(),
        turns => turns.to_string(),
    }
}
