//! Registers as an old system leaves them: statements issued again or out of place, statements lost
//! to which objections remain, objections said again, lines spoiled or blank, and the end cut off.

use super::page::Page;
use super::text::Text;
use crate::random::Random;

type Wear = fn(&mut Random, &mut Vec<String>);

const WEARS: [Wear; 10] = [
    issue_again,
    object_again,
    lose_line,
    lose_line,
    move_line,
    change_number,
    change_number,
    lose_point,
    put_in_blank,
    spoil_line,
];

/// What comes behind a sound line, and spoils it.
const TAILS: [&str; 6] = ["\t", "\r", " ", "0000000", "\tR", "."];

/// The page after so many of these, and one in four texts without its last byte.
pub fn worn(random: &mut Random, page: &Page, count: usize) -> Text {
    let mut lines = page.lines.clone();
    for _ in 0..count {
        let wear = WEARS[random.below(WEARS.len())];
        if !lines.is_empty() {
            wear(random, &mut lines);
        }
    }
    let mut text = Text::of_lines(&lines);
    if random.once_in(4) {
        text.0.pop();
    }
    text
}

/// Some statement line comes once more, with one mark or the other.
fn issue_again(random: &mut Random, lines: &mut Vec<String>) {
    let mark = if random.once_in(2) { 'R' } else { 'U' };
    if let Some(line) = one_of(random, lines, 'S') {
        let number = line.trim_end_matches(['R', 'U']);
        put_in(random, lines, format!("{number}{mark}"));
    }
}

fn object_again(random: &mut Random, lines: &mut Vec<String>) {
    if let Some(line) = one_of(random, lines, 'O') {
        put_in(random, lines, line);
    }
}

/// A random line of this kind, or None if none was met in a few tries.
fn one_of(random: &mut Random, lines: &[String], kind: char) -> Option<String> {
    let mut tries = (0..8).map(|_| &lines[random.below(lines.len())]);
    tries.find(|line| line.starts_with(kind)).cloned()
}

fn put_in(random: &mut Random, lines: &mut Vec<String>, line: String) {
    lines.insert(random.below(lines.len() + 1), line);
}

fn lose_line(random: &mut Random, lines: &mut Vec<String>) {
    lines.remove(random.below(lines.len()));
}

fn move_line(random: &mut Random, lines: &mut Vec<String>) {
    let line = lines.remove(random.below(lines.len()));
    put_in(random, lines, line);
}

/// The last digit of a number becomes another one: most are then unknown.
fn change_number(random: &mut Random, lines: &mut Vec<String>) {
    let (at, digit) = (random.below(lines.len()), random.between(1, 9));
    let fields: Vec<&str> = lines[at].split('\t').collect();
    if let [kind, number, last] = fields[..] {
        let rest = &number[..number.len().saturating_sub(1)];
        lines[at] = format!("{kind}\t{rest}{digit}\t{last}");
    }
}

/// The first point of a line is typed as a comma, or left out: then a plain number may be left.
fn lose_point(random: &mut Random, lines: &mut Vec<String>) {
    let (at, left) = (random.below(lines.len()), ["", ","][random.below(2)]);
    lines[at] = lines[at].replacen('.', left, 1);
}

fn put_in_blank(random: &mut Random, lines: &mut Vec<String>) {
    put_in(random, lines, String::new());
}

fn spoil_line(random: &mut Random, lines: &mut Vec<String>) {
    let at = random.below(lines.len());
    lines[at].push_str(TAILS[random.below(TAILS.len())]);
}
