//! Damage to a text, as it comes about by slips of the hand and broken copies: bytes replaced, put
//! in or lost, lines doubled, exchanged or moved, the end cut off; and fields of a catalogue doubled,
//! exchanged, moved or lost. What is left may still be sound.

use super::text::Text;
use crate::random::Random;

/// The bytes that a line is made of, and those that are taken for them by mistake.
const TELLING: &[u8] = b"SORU0123456789.\t\n\r sour/:,-\0\x0b\xff\xb5";

type Damage = fn(&mut Random, Vec<u8>) -> Vec<u8>;

const DAMAGES: [Damage; 10] = [
    replace_byte,
    put_in_byte,
    lose_byte,
    replace_digit,
    move_point,
    double_line,
    move_line,
    swap_lines,
    lose_line,
    cut_off,
];

/// What comes to a catalogue beside those.
const TO_FIELDS: [Damage; 4] = [double_field, move_field, swap_fields, lose_field];

/// A copy that is damaged in one place, or in a few.
pub fn damaged(random: &mut Random, text: &Text) -> Text {
    damaged_by(random, text, &DAMAGES)
}

/// A copy of a catalogue, which is damaged as often in its fields as elsewhere.
pub fn damaged_catalogue(random: &mut Random, catalogue: &Text) -> Text {
    match random.once_in(2) {
        true => damaged_by(random, catalogue, &TO_FIELDS),
        false => damaged(random, catalogue),
    }
}

fn damaged_by(random: &mut Random, text: &Text, damages: &[Damage]) -> Text {
    let mut bytes = text.0.clone();
    for _ in 0..=random.below(2) * random.below(3) {
        let damage = damages[random.below(damages.len())];
        if !bytes.is_empty() {
            bytes = damage(random, bytes);
        }
    }
    Text(bytes)
}

fn any_byte(random: &mut Random) -> u8 {
    if random.once_in(4) {
        random.below(256) as u8
    } else {
        TELLING[random.below(TELLING.len())]
    }
}

fn replace_byte(random: &mut Random, mut bytes: Vec<u8>) -> Vec<u8> {
    let at = random.below(bytes.len());
    bytes[at] = any_byte(random);
    bytes
}

fn put_in_byte(random: &mut Random, mut bytes: Vec<u8>) -> Vec<u8> {
    let at = random.below(bytes.len() + 1);
    bytes.insert(at, any_byte(random));
    bytes
}

fn lose_byte(random: &mut Random, mut bytes: Vec<u8>) -> Vec<u8> {
    bytes.remove(random.below(bytes.len()));
    bytes
}

/// Another digit in the place of one: the line stays a line, but says something else.
fn replace_digit(random: &mut Random, mut bytes: Vec<u8>) -> Vec<u8> {
    let places = 0..bytes.len();
    let digits: Vec<usize> = places.filter(|at| bytes[*at].is_ascii_digit()).collect();
    if !digits.is_empty() {
        let at = digits[random.below(digits.len())];
        bytes[at] = b'0' + random.below(10) as u8;
    }
    bytes
}

/// A point moves past the byte beside it, to the one side or the other.
fn move_point(random: &mut Random, mut bytes: Vec<u8>) -> Vec<u8> {
    let last = bytes.len() - 1;
    let places = 1..=last;
    let points: Vec<usize> = places.filter(|at| bytes[*at] == b'.').collect();
    if !points.is_empty() {
        let at = points[random.below(points.len())];
        let beside = if random.once_in(2) { at - 1 } else { at + 1 };
        bytes.swap(at, beside.min(last));
    }
    bytes
}

fn double_line(random: &mut Random, bytes: Vec<u8>) -> Vec<u8> {
    let mut lines = lines(&bytes);
    let line = lines[random.below(lines.len())];
    lines.insert(random.below(lines.len() + 1), line);
    lines.concat()
}

fn move_line(random: &mut Random, bytes: Vec<u8>) -> Vec<u8> {
    let mut lines = lines(&bytes);
    let line = lines.remove(random.below(lines.len()));
    lines.insert(random.below(lines.len() + 1), line);
    lines.concat()
}

fn swap_lines(random: &mut Random, bytes: Vec<u8>) -> Vec<u8> {
    let mut lines = lines(&bytes);
    let (one, other) = (random.below(lines.len()), random.below(lines.len()));
    lines.swap(one, other);
    lines.concat()
}

fn lose_line(random: &mut Random, bytes: Vec<u8>) -> Vec<u8> {
    let mut lines = lines(&bytes);
    lines.remove(random.below(lines.len()));
    lines.concat()
}

fn cut_off(random: &mut Random, mut bytes: Vec<u8>) -> Vec<u8> {
    bytes.truncate(random.below(bytes.len()));
    bytes
}

/// A field comes again, behind itself or anywhere.
fn double_field(random: &mut Random, bytes: Vec<u8>) -> Vec<u8> {
    let mut fields = fields(&bytes);
    let at = random.below(fields.len());
    let again = match random.once_in(2) {
        true => at + 1,
        false => random.below(fields.len() + 1),
    };
    fields.insert(again, fields[at]);
    fields.concat()
}

fn move_field(random: &mut Random, bytes: Vec<u8>) -> Vec<u8> {
    let mut fields = fields(&bytes);
    let field = fields.remove(random.below(fields.len()));
    fields.insert(random.below(fields.len() + 1), field);
    fields.concat()
}

fn swap_fields(random: &mut Random, bytes: Vec<u8>) -> Vec<u8> {
    let mut fields = fields(&bytes);
    let (one, other) = (random.below(fields.len()), random.below(fields.len()));
    fields.swap(one, other);
    fields.concat()
}

fn lose_field(random: &mut Random, bytes: Vec<u8>) -> Vec<u8> {
    let mut fields = fields(&bytes);
    fields.remove(random.below(fields.len()));
    fields.concat()
}

/// The fields, each with the tab before it, and the bytes that end lines, each by itself.
fn fields(bytes: &[u8]) -> Vec<&[u8]> {
    let parts = |one: &u8, next: &u8| *one != b'\n' && *next != b'\n' && *next != b'\t';
    bytes.chunk_by(parts).collect()
}

/// The lines, each with the byte that ends it; the last may have none.
fn lines(bytes: &[u8]) -> Vec<&[u8]> {
    bytes.split_inclusive(|byte| *byte == b'\n').collect()
}
