//! Every register of a few statements: every choice of marks, and every set of pairs.

use super::lists::Lists;

/// How many registers there are with so many statements.
pub fn count(statements: usize) -> usize {
    1 << (statements + statements * statements)
}

/// The register with this number: its lowest bits are the marks, the others say which of all pairs
/// it has.
pub fn register(statements: usize, number: usize) -> Lists {
    let bit = |at: usize| (number >> at) & 1;
    let marks = (0..statements).map(|x| bit(x) as u8).collect();
    let has = |pair: &usize| bit(statements + *pair) == 1;
    let places = |pair: usize| ((pair / statements) as u32, (pair % statements) as u32);
    let pairs: Vec<(u32, u32)> = (0..statements * statements)
        .filter(has)
        .map(places)
        .collect();
    Lists::new(marks, &pairs)
}
